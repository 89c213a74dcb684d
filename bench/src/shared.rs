//! Versions of a library side by side in one process: shared objects, opened by path, and their times.

use crate::clock::now;
use std::ffi::{c_char, c_int, c_void, CString};

extern "C" {
    fn dlopen(file: *const c_char, flags: c_int) -> *mut c_void;
    fn dlsym(library: *mut c_void, name: *const c_char) -> *mut c_void;
}

/// An open shared object, and its path.
pub struct Shared<'a> {
    opened: *mut c_void,
    path: &'a str,
}

pub fn open(path: &str) -> Shared<'_> {
    const LAZY: c_int = 1;
    let file = CString::new(path).expect("a path without a zero byte");
    // SAFETY: the name is a C string; the library has no code that runs when it is loaded.
    let opened = unsafe { dlopen(file.as_ptr(), LAZY) };
    assert!(!opened.is_null(), "{path} can't be loaded");
    Shared { opened, path }
}

impl Shared<'_> {
    /// The address of a function, whose type the caller knows.
    pub fn symbol(&self, name: &str) -> *mut c_void {
        self.find(name).unwrap_or_else(|| panic!("{} has no {name}", self.path))
    }

    /// The same, if it has that function.
    pub fn find(&self, name: &str) -> Option<*mut c_void> {
        let text = CString::new(name).expect("no zero byte");
        // SAFETY: the library is loaded, and the name is a C string.
        let found = unsafe { dlsym(self.opened, text.as_ptr()) };
        (!found.is_null()).then_some(found)
    }
}

/// The arguments BATCHES OLD.. NEW..: a number, and two versions of a library, each as many times as the other. They are given as `load` has them,
/// an old one and a new one at each place.
pub fn arguments<T>(load: impl Fn(Shared) -> T) -> (usize, Vec<[T; 2]>) {
    let words: Vec<String> = std::env::args().collect();
    let batches = words.get(1).and_then(|word| word.parse().ok()).filter(|&number| number > 0);
    let paths = words.get(2..).unwrap_or_default();
    let (Some(batches), false, 0) = (batches, paths.is_empty(), paths.len() % 2) else {
        eprintln!("usage: {} BATCHES OLD.. NEW..", words[0]);
        std::process::exit(2);
    };
    let (old, new) = paths.split_at(paths.len() / 2);
    (batches, old.iter().zip(new).map(|(old, new)| [load(open(old)), load(open(new))]).collect())
}

/// The least times of both versions, in nanoseconds, of a call with each input that is made, one a batch.
pub fn least_times<T: Copy, I>(batches: usize, places: &[[T; 2]], mut make: impl FnMut() -> I, call: impl Fn(T, &I)) -> [f64; 2] {
    let mut least = [f64::INFINITY; 2];
    for batch in 0..batches {
        // Another in every batch, and each batch at one place, since a processor learns which way the tests of the same input go.
        let (input, versions) = (make(), places[batch / 2 % places.len()]);
        // Each version is the first to meet the input in every other batch.
        for n in [batch % 2, 1 - batch % 2] {
            let from = now();
            call(versions[n], &input);
            least[n] = least[n].min((now() - from) as f64);
        }
    }
    least
}
