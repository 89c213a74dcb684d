//! Settings files and lists of boards, good ones and damaged ones. What is damaged doesn't go by what the reader or the writer allows, so that one
//! that allows too much is found.

use super::{no_misaligned, no_version, Rng};
use crate::machine::{ACCESS_FAULT, ADDRESS_MISALIGNED, A_2_0, A_2_1, SMALLEST_SET};
use crate::settings::{Board, ENTRY, HEAD};

/// A board that is allowed.
fn board(rng: &mut Rng) -> Board {
    Board {
        set_size: SMALLEST_SET << rng.below(10),
        version: rng.pick(&[A_2_0, A_2_1]),
        misaligned: rng.pick(&[ADDRESS_MISALIGNED, ACCESS_FAULT]),
    }
}

/// How many boards: from 1 to 16, more often than by chance the least and the most.
fn board_count(rng: &mut Rng) -> usize {
    match rng.below(6) {
        0 => 1,
        1 => 16,
        _ => 1 + rng.below(16) as usize,
    }
}

/// A number that is no set size.
fn no_set_size(rng: &mut Rng) -> u64 {
    loop {
        let size: u64 = match rng.below(8) {
            0 => 0,
            1 => rng.below(SMALLEST_SET),
            2 => rng.pick(&[24, 48, 63, 65, 96, 1000, 3000, 6144]),
            3 => (SMALLEST_SET << rng.below(10)) + rng.pick(&[1, 2, 8]),
            4 => 8192 << rng.below(3),
            // The two bytes turned round.
            5 => u64::from(((SMALLEST_SET as u16) << rng.below(10)).swap_bytes()),
            6 => (SMALLEST_SET << rng.below(10)) + (1 << rng.pick(&[16, 17, 32, 48, 63])),
            _ => rng.next(),
        };
        // 8 to 4,096, a power of two.
        if !(3..=12).any(|k| size == 1 << k) {
            return size;
        }
    }
}

/// A board with one number that is wrong, now and then two.
fn bad_board(rng: &mut Rng) -> Board {
    let mut bad = board(rng);
    for _ in 0..rng.pick(&[1, 1, 1, 2]) {
        match rng.below(3) {
            0 => bad.set_size = no_set_size(rng),
            1 => bad.version = no_version(rng),
            _ => bad.misaligned = no_misaligned(rng),
        }
    }
    bad
}

/// Boards for the writer, some of them bad, and now and then a number of them that no file has; and how many bytes there are to write to.
pub fn board_list(rng: &mut Rng) -> (Vec<Board>, usize) {
    let count = match rng.below(12) {
        0 => 0,
        1 => 17,
        2 => rng.pick(&[18, 31, 32, 33, 255, 256, 257]),
        _ => board_count(rng),
    };
    let mut boards: Vec<Board> = (0..count).map(|_| board(rng)).collect();
    if count > 0 && rng.percent(40) {
        for _ in 0..rng.pick(&[1, 1, 2, 3]) {
            boards[rng.below(count as u64) as usize] = bad_board(rng);
        }
    }
    let length = HEAD + (ENTRY + 4) * count;
    let room = match rng.below(10) {
        0..=3 => length,
        4 => length - 1,
        // What format 1 would need.
        5 => length - count,
        6 => rng.below(length as u64) as usize,
        7 => length + 1,
        _ => length + rng.below(64) as usize,
    };
    (boards, room)
}

/// A file as a table and bodies say it, however wrong.
struct Draft {
    format: u32,
    count: u32,
    entries: Vec<(u32, u32)>,
    bodies: Vec<u8>,
}

impl Draft {
    /// A good one of a format, with bodies of `length` bytes: 3 or 4 are right.
    fn new(rng: &mut Rng, format: u32, length: usize) -> Draft {
        let boards: Vec<Board> = (0..board_count(rng)).map(|_| board(rng)).collect();
        let first = HEAD + ENTRY * boards.len();
        let body =
            |board: &Board| [&(board.set_size as u16).to_le_bytes()[..], &[board.version as u8, board.misaligned as u8, 0, 0]].concat();
        Draft {
            format,
            count: boards.len() as u32,
            entries: (0..boards.len()).map(|n| ((first + length * n) as u32, length as u32)).collect(),
            bodies: boards.iter().flat_map(|board| body(board)[..length].to_vec()).collect(),
        }
    }

    fn file(&self) -> Vec<u8> {
        let entries = self.entries.iter().flat_map(|&(offset, length)| [offset, length]);
        let head = [self.format, self.count].into_iter().chain(entries).flat_map(u32::to_le_bytes);
        head.chain(self.bodies.iter().copied()).collect()
    }

    /// An entry, more often than by chance the first or the last.
    fn some_entry(&self, rng: &mut Rng) -> usize {
        let last = self.entries.len() - 1;
        let any = rng.below(last as u64 + 1) as usize;
        rng.pick(&[0, last, any])
    }

    fn damage(&mut self, rng: &mut Rng) {
        match rng.below(16) {
            0 => self.format = rng.pick(&[0, 3, 4, 255, 256, 257, 1 << 8, 2 << 8, 1 << 24, 2 << 24, 1 << 31, u32::MAX]),
            1 | 2 => self.damage_count(rng),
            3 | 4 => self.damage_offset(rng),
            5 | 6 => self.damage_length(rng),
            7 => self.exchange(rng),
            8 => self.insert_gap(rng),
            9 => {
                // A last body that ends before the file does, or behind it.
                let end = rng.pick(&[1, 1, 2, 3, 4, 8]);
                let length = if rng.percent(50) { self.bodies.len() + end } else { self.bodies.len().saturating_sub(end) };
                self.bodies.resize(length, rng.pick(&[0, b'\n', 20]));
            }
            _ => self.damage_body(rng),
        }
    }

    fn damage_count(&mut self, rng: &mut Rng) {
        let count = self.count;
        self.count = match rng.below(6) {
            0 => 0,
            1 => count.wrapping_add(1),
            2 => count.wrapping_sub(1),
            3 => count.wrapping_add(1 << rng.pick(&[8, 16, 24, 28, 29, 31])),
            4 => rng.pick(&[16, 17, 32, 255, 256, 0x2000_0000, 0x2000_0001, 0x4000_0000, 0x8000_0000, u32::MAX]),
            _ => {
                // A file of 17 and more that is right but for that.
                let more = rng.pick(&[17, 17, 18, 32]) as usize;
                let (length, body) = (self.entries[0].1, self.bodies[..self.bodies.len() / self.entries.len()].to_vec());
                self.entries = (0..more).map(|n| ((HEAD + ENTRY * more + body.len() * n) as u32, length)).collect();
                self.bodies = body.repeat(more);
                more as u32
            }
        };
    }

    fn damage_offset(&mut self, rng: &mut Rng) {
        let n = self.some_entry(rng);
        let offset = &mut self.entries[n].0;
        *offset = match rng.below(4) {
            0 => offset.wrapping_add(rng.pick(&[1, 3, 4, 8, 256, 1 << 16, 1 << 31])),
            1 => offset.wrapping_sub(rng.pick(&[1, 3, 4, 8, 16])),
            2 => rng.pick(&[0, 8, 1 << 31, u32::MAX]),
            _ => rng.next() as u32,
        };
    }

    fn damage_length(&mut self, rng: &mut Rng) {
        let n = self.some_entry(rng);
        let before = self.entries[n].1;
        let length =
            rng.pick(&[0, 1, 2, 3, 4, 5, 8, before.wrapping_add(256), 1 << 16, 1 << 31, u32::MAX, u32::MAX - 3, before.wrapping_neg()]);
        self.entries[n].1 = length;
        // The next offset as the sum says, modulo 2^32; and a last one that makes up for it.
        if n + 1 < self.entries.len() && rng.percent(60) {
            self.entries[n + 1].0 = self.entries[n].0.wrapping_add(length);
            if rng.percent(50) {
                self.entries[n + 1].1 = before.wrapping_mul(2).wrapping_sub(length);
            }
        }
    }

    /// Two entries, or their offsets, change places; or one is as another.
    fn exchange(&mut self, rng: &mut Rng) {
        let (a, b) = (self.some_entry(rng), self.some_entry(rng));
        match rng.below(3) {
            0 => self.entries.swap(a, b),
            1 => self.entries[a].0 = self.entries[b].0,
            _ => self.entries[a] = self.entries[b],
        }
    }

    /// Bytes between the table and the bodies, or between two of these, to which the offsets behind them fit.
    fn insert_gap(&mut self, rng: &mut Rng) {
        let (n, gap) = (self.some_entry(rng), rng.pick(&[1, 1, 2, 3, 4, 8]));
        let place = self.bodies.len() / self.entries.len() * n;
        self.bodies.splice(place..place, vec![0; gap as usize]);
        for entry in &mut self.entries[n..] {
            entry.0 = entry.0.wrapping_add(gap);
        }
    }

    /// The content of a body: numbers that are wrong in the bytes that it has.
    fn damage_body(&mut self, rng: &mut Rng) {
        let n = self.some_entry(rng);
        let length = self.bodies.len() / self.entries.len();
        let (bad, place) = (bad_board(rng), length * n);
        let bytes = [&(bad.set_size as u16).to_le_bytes()[..], &[bad.version as u8, bad.misaligned as u8]].concat();
        for (byte, new) in self.bodies[place..place + length].iter_mut().zip(bytes) {
            *byte = new;
        }
    }
}

/// A settings file, more often than not damaged.
pub fn settings_file(rng: &mut Rng) -> Vec<u8> {
    let format = rng.pick(&[1, 2]);
    // Seldom bodies of the other format's length, or of none's, in a table that is right but for that.
    let length = if rng.percent(92) { 2 + format as usize } else { rng.pick(&[2, 3, 4, 5]) };
    let mut draft = Draft::new(rng, format, length);
    for _ in 0..rng.pick(&[0, 0, 1, 1, 1, 2, 3]) {
        if draft.bodies.len() >= draft.entries.len() {
            draft.damage(rng);
        }
    }
    let mut file = draft.file();
    match rng.below(30) {
        0 => file.truncate(rng.below(9) as usize),
        1 | 2 => file.truncate(rng.below(file.len() as u64 + 1) as usize),
        3 => file.truncate(HEAD + ENTRY * draft.entries.len()),
        4 => {
            let place = rng.below(file.len() as u64) as usize;
            file[place] ^= 1 << rng.below(8);
        }
        5 => {
            // Any bytes behind a head that may be right.
            file.truncate(if rng.percent(80) { 8 } else { 4 });
            file.extend((0..rng.below(40)).map(|_| rng.next() as u8));
        }
        6 => file.extend(vec![0; rng.pick(&[1, 12, 11, 100, 70_000])]),
        _ => {}
    }
    file
}
