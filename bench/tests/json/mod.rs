//! As much of JSON as the vectors are written in: null, whole numbers up to 2^64 - 1, strings, lists and objects.

use std::collections::BTreeMap;

#[derive(Clone, PartialEq, Eq, Debug)]
pub enum Json {
    Null,
    Number(u64),
    Text(String),
    List(Vec<Json>),
    Object(BTreeMap<String, Json>),
}

impl Json {
    pub fn of(text: &str) -> Json {
        let mut reader = Reader { rest: text };
        let value = reader.value();
        assert!(reader.next().is_none(), "something behind the value");
        value
    }

    /// A field of an object, if it has it.
    pub fn get(&self, name: &str) -> Option<&Json> {
        match self {
            Json::Object(fields) => fields.get(name),
            other => panic!("no object: {other:?}"),
        }
    }

    pub fn field(&self, name: &str) -> &Json {
        self.get(name).unwrap_or_else(|| panic!("no field {name}"))
    }

    pub fn number(&self) -> u64 {
        match self {
            Json::Number(number) => *number,
            other => panic!("no number: {other:?}"),
        }
    }

    pub fn text(&self) -> &str {
        match self {
            Json::Text(text) => text,
            other => panic!("no text: {other:?}"),
        }
    }

    pub fn list(&self) -> &[Json] {
        match self {
            Json::List(values) => values,
            other => panic!("no list: {other:?}"),
        }
    }
}

struct Reader<'a> {
    rest: &'a str,
}

impl Reader<'_> {
    /// The next character that isn't white space.
    fn next(&mut self) -> Option<char> {
        self.rest = self.rest.trim_start();
        self.rest.chars().next()
    }

    /// Takes the next character.
    fn take(&mut self) -> char {
        let next = self.rest.chars().next().expect("a value that ends");
        self.rest = &self.rest[next.len_utf8()..];
        next
    }

    fn value(&mut self) -> Json {
        match self.next() {
            Some('n') => {
                self.rest = self.rest.strip_prefix("null").expect("null");
                Json::Null
            }
            Some('"') => Json::Text(self.string()),
            Some('[') => {
                let mut values = Vec::new();
                self.items(']', |reader| values.push(reader.value()));
                Json::List(values)
            }
            Some('{') => {
                let mut fields = BTreeMap::new();
                self.items('}', |reader| reader.named(&mut fields));
                Json::Object(fields)
            }
            _ => self.whole_number(),
        }
    }

    /// What stands between two brackets, with commas between.
    fn items(&mut self, end: char, mut each: impl FnMut(&mut Self)) {
        self.take();
        while self.next() != Some(end) {
            each(self);
            if self.next() == Some(',') {
                self.take();
            }
        }
        self.take();
    }

    fn named(&mut self, fields: &mut BTreeMap<String, Json>) {
        assert_eq!(self.next(), Some('"'));
        let name = self.string();
        assert_eq!(self.next(), Some(':'));
        self.take();
        let value = self.value();
        assert!(fields.insert(name, value).is_none(), "a field given twice");
    }

    fn string(&mut self) -> String {
        self.take();
        let mut text = String::new();
        loop {
            match self.take() {
                '"' => return text,
                '\\' => text.push(self.escaped()),
                other => text.push(other),
            }
        }
    }

    fn escaped(&mut self) -> char {
        match self.take() {
            'n' => '\n',
            'r' => '\r',
            't' => '\t',
            'b' => '\x08',
            'f' => '\x0C',
            'u' => {
                let (digits, rest) = self.rest.split_at(4);
                self.rest = rest;
                char::from_u32(u32::from_str_radix(digits, 16).expect("four hex digits")).expect("a character")
            }
            itself => itself,
        }
    }

    fn whole_number(&mut self) -> Json {
        let end = self.rest.find(|c: char| !c.is_ascii_digit()).unwrap_or(self.rest.len());
        let (digits, rest) = self.rest.split_at(end);
        self.rest = rest;
        Json::Number(digits.parse().expect("a whole number below 2^64"))
    }
}
