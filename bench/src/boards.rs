//! What the compared settings files and lists of boards reached. All that can be reached is printed, zeros too, so that a reader sees what was never
//! tried. It goes by the bytes and the numbers, and not by what the reader and the writer say of them.

use crate::settings::{body_length, Board, ENTRY, FORMAT_1, FORMAT_2, HEAD, MAX_BOARDS};
use crate::versions::{print_heading, print_row, shown};

/// The first thing that is wrong with a file, in the order of the refusals.
const FAULTS: [&str; 11] = ["none", "short", "format", "0 boards", "17 or more", "in table", "offset", "length", "cut", "tail", "content"];
const SHORT: usize = 1;
const FORMAT: usize = 2;
const CONTENT: usize = 10;

fn field(file: &[u8], place: usize) -> u64 {
    file[place..place + 4].iter().rev().fold(0, |number, &byte| number << 8 | u64::from(byte))
}

/// The place in FAULTS, and the number of the entry or body.
fn fault(file: &[u8]) -> (usize, usize) {
    if file.len() < HEAD {
        return (SHORT, 0);
    }
    let (format, count) = (field(file, 0), field(file, 4));
    if format != u64::from(FORMAT_1) && format != u64::from(FORMAT_2) {
        return (FORMAT, 0);
    }
    let most = MAX_BOARDS as u64;
    if count == 0 || count > most {
        return (if count == 0 { 3 } else { 4 }, 0);
    }
    let (count, body) = (count as usize, body_length(format as u32));
    let first = HEAD + ENTRY * count;
    if file.len() < first {
        return (5, 0);
    }
    for n in 0..count {
        let entry = HEAD + ENTRY * n;
        if field(file, entry) != (first + body * n) as u64 {
            return (6, n);
        }
        if field(file, entry + 4) != body as u64 {
            return (7, n);
        }
    }
    match file.len().cmp(&(first + body * count)) {
        std::cmp::Ordering::Less => (8, 0),
        std::cmp::Ordering::Greater => (9, 0),
        std::cmp::Ordering::Equal => {
            (0..count).find(|&n| !wrong(of_body(&file[first + body * n..][..body])).is_empty()).map_or((0, count - 1), |n| (CONTENT, n))
        }
    }
}

fn of_body(body: &[u8]) -> Board {
    let misaligned = body.get(3).map_or(0, |&byte| byte.into());
    Board { set_size: u64::from(body[0]) + 256 * u64::from(body[1]), version: body[2].into(), misaligned }
}

/// Which numbers of a board are wrong: 0 the set size, 1 the version, 2 what a misaligned atomic raises.
fn wrong(board: Board) -> Vec<usize> {
    let allowed = [(3..=12).any(|k| board.set_size == 1 << k), matches!(board.version, 20 | 21), board.misaligned < 2];
    (0..3).filter(|&n| !allowed[n]).collect()
}

/// Whether a board that is wrong would be right, were its numbers cut to the bytes of a body.
fn right_if_cut(board: Board) -> bool {
    wrong(Board { set_size: board.set_size % 65_536, version: board.version % 256, misaligned: board.misaligned % 256 }).is_empty()
}

/// The number of the body, or of the entry, of each row.
type Counts = [u64; MAX_BOARDS];

#[derive(Default)]
pub struct Boards {
    /// Files by format, 1 and 2, and by FAULTS.
    files: [[u64; FAULTS.len()]; 2],
    /// Those with no fault, by their boards; offsets, lengths and contents that are wrong, by the first of them.
    read: [Counts; 2],
    offsets: [Counts; 2],
    lengths: [Counts; 2],
    contents: [Counts; 2],
    /// Files that are short or of no format.
    formless: [u64; 2],
    /// First bad bodies by what is wrong, alone or with others; the last column is more than one of these.
    fields: [[u64; 4]; 3],
    /// Lists that are written, by their boards; with a buffer that is just enough, and with a longer one.
    written: Counts,
    room: [u64; 2],
    /// Lists of no boards and of more than 16; a buffer too short by one byte, for what format 1 would need, by any other number; with a bad board
    /// too.
    none: u64,
    many: u64,
    too_short: [u64; 3],
    short_and_bad: u64,
    /// First bad boards by their number; of these, the ones that would be right if their numbers were cut to the bytes of a body.
    bad: Counts,
    cut: u64,
    /// Calls with a buffer of a wrong length.
    sizes: u64,
}

impl Boards {
    pub fn count_file(&mut self, file: &[u8]) {
        let (fault, n) = fault(file);
        if fault == SHORT || fault == FORMAT {
            self.formless[fault - SHORT] += 1;
            return;
        }
        let format = field(file, 0) as usize - 1;
        self.files[format][fault] += 1;
        match fault {
            0 => self.read[format][n] += 1,
            6 => self.offsets[format][n] += 1,
            7 => self.lengths[format][n] += 1,
            CONTENT => {
                self.contents[format][n] += 1;
                let (body, count) = (body_length(format as u32 + 1), field(file, 4) as usize);
                self.count_wrong(format, of_body(&file[HEAD + ENTRY * count + body * n..][..body]));
            }
            _ => {}
        }
    }

    fn count_wrong(&mut self, row: usize, board: Board) {
        let wrong = wrong(board);
        self.fields[row][if wrong.len() > 1 { 3 } else { wrong[0] }] += 1;
    }

    pub fn count_list(&mut self, boards: &[Board], room: usize) {
        let length = HEAD + (ENTRY + 4) * boards.len();
        let bad = boards.iter().position(|&board| !wrong(board).is_empty());
        match (boards.len(), bad) {
            (0, _) => self.none += 1,
            (n, _) if n > MAX_BOARDS => self.many += 1,
            (n, bad) if room < length => {
                self.too_short[if room + 1 == length { 0 } else { 1 + (room + n != length) as usize }] += 1;
                self.short_and_bad += bad.is_some() as u64;
            }
            (_, Some(n)) => {
                self.bad[n] += 1;
                self.cut += right_if_cut(boards[n]) as u64;
                self.count_wrong(2, boards[n]);
            }
            (n, None) => {
                self.written[n - 1] += 1;
                self.room[(room > length) as usize] += 1;
            }
        }
    }

    pub fn count_sizes(&mut self) {
        self.sizes += 1;
    }

    pub fn print(&self) {
        println!(
            "  settings files shorter than 8 bytes: {}, of no format: {}; all others by format and by what is wrong first:",
            self.formless[0], self.formless[1]
        );
        // Both of these have no format.
        print_heading(&[&FAULTS[..1], &FAULTS[3..]].concat());
        for (format, counts) in self.files.iter().enumerate() {
            print_row(&format!("format {}", format + 1), [&counts[..1], &counts[3..]].concat().iter().map(u64::to_string));
        }
        println!("  by the number of boards, of those that are read and those that are written; by that of the first wrong entry or body, from 0:");
        let columns: Vec<String> = (0..MAX_BOARDS).map(|n| format!("{} / {n}", n + 1)).collect();
        print_heading(&columns.iter().map(String::as_str).collect::<Vec<_>>());
        for format in 0..2 {
            let rows = [("read", &self.read), ("offset", &self.offsets), ("length", &self.lengths), ("content", &self.contents)];
            for (name, counts) in rows {
                print_row(&format!("format {}, {name}", format + 1), counts[format].iter().map(u64::to_string));
            }
        }
        print_row("written", self.written.iter().map(u64::to_string));
        print_row("bad board", self.bad.iter().map(u64::to_string));
        println!("  first bad bodies and boards by what is wrong:");
        print_heading(&["size", "version", "misaligned", "several"]);
        for (n, name) in ["format 1", "format 2", "to be written"].into_iter().enumerate() {
            print_row(name, self.fields[n].iter().enumerate().map(|(k, count)| shown(n > 0 || k != 2, count)));
        }
        let [one, format_1, other] = self.too_short;
        let Boards { none, many, short_and_bad, cut, room: [enough, longer], .. } = self;
        println!("  lists of no boards {none}, of more than 16 {many}; buffer too short by a byte {one}, for format 2 alone {format_1},");
        println!("  by another number {other}, these with a bad board too {short_and_bad}; just long enough {enough}, longer {longer};");
        println!("  bad boards that would be right if they were cut {cut}");
        println!("  calls with a buffer of a wrong length: {}", self.sizes);
    }
}

#[cfg(test)]
mod tests {
    use super::*;
    use crate::generate::{board_list, settings_file, Rng};

    /// The generator reaches every fault of either format, at the first, at the last and at other entries.
    #[test]
    fn reached_by_generated() {
        let mut boards = Boards::default();
        for seed in 0..40_000 {
            let rng = &mut Rng::new(seed);
            boards.count_file(&settings_file(rng));
            let (list, room) = board_list(rng);
            boards.count_list(&list, room);
        }
        for (format, counts) in boards.files.iter().enumerate() {
            assert!(counts.iter().enumerate().all(|(n, &count)| count > 20 || n == SHORT || n == FORMAT), "{format}: {counts:?}");
        }
        let rows =
            [&boards.read, &boards.offsets, &boards.lengths, &boards.contents].into_iter().flatten().chain([&boards.written, &boards.bad]);
        assert!(rows.into_iter().flatten().all(|&count| count > 0));
        let own =
            [&boards.formless[..], &boards.room, &boards.too_short, &[boards.none, boards.many, boards.short_and_bad, boards.cut]].concat();
        assert!(own.iter().all(|&count| count > 20), "{own:?}");
        assert!(boards.fields.iter().flatten().filter(|&&count| count > 0).count() == 11);
    }
}
