//! Work for long runs: a machine and events that can go on for ever, so that a run can be taken up where the last one ended.

use crate::case::{EVENT, MAX_FILE, TABLE};
use crate::generate::builder::{event_bytes, file, harts_body, low_bytes, DEVICE, STEP, YIELD};
use crate::generate::words::{atomic, b_type, full_width, i_type, j_type, r_type, s_type, u_type, AMOS, CAS, D, LR, NOP, Q, SC, W};
use crate::generate::Rng;
use crate::machine::{low, xlen, State, A_2_0, KIND_32, KIND_64};

/// In the middle of the 32-bit kind's addresses.
pub const BASE: u64 = 0x8000_0000;

pub struct Work {
    pub state: State,
    pub memory: Vec<u8>,
    pub events: Vec<u8>,
}

impl Work {
    /// All harts start at the first of the words, which stand at the start of memory.
    fn new(kind: u64, harts: usize, memory: usize, words: &[u32]) -> Self {
        let mut work = Work { state: State { count: harts, kind, ..State::default() }, memory: vec![0; memory], events: Vec::new() };
        for (place, w) in work.memory.chunks_exact_mut(4).zip(words) {
            place.copy_from_slice(&w.to_le_bytes());
        }
        for hart in &mut work.state.harts[..harts] {
            hart.pc = BASE;
        }
        work
    }

    fn set(&mut self, register: usize, value: impl Fn(usize) -> u64) {
        let xlen = self.state.xlen();
        for (h, hart) in self.state.harts[..self.state.count].iter_mut().enumerate() {
            hart.x[register] = low(value(h), xlen);
        }
    }

    /// Sets of another size than 64.
    fn with_sets_of(mut self, size: u64) -> Self {
        self.state.set_size = size;
        self
    }

    fn under_2_0(mut self) -> Self {
        self.state.version = A_2_0;
        self
    }

    fn step(&mut self, hart: usize) {
        self.events.extend(event_bytes(STEP, hart as u8, 0, 0, 0));
    }

    /// Harts in turn, one step each.
    fn in_turn(mut self, events: usize) -> Self {
        for n in 0..events {
            self.step(n % self.state.count);
        }
        self
    }

    /// Some steps of one hart, then of another, so that retry loops now finish, now fail.
    fn in_bursts(mut self, events: usize) -> Self {
        let rng = &mut Rng::new(1);
        let mut hart = 0;
        for _ in 0..events {
            if rng.percent(20) {
                hart = rng.below(self.state.count as u64) as usize;
            }
            self.step(hart);
        }
        self
    }
}

/// Makes work for a kind of core, of so many events.
type Make = fn(u64, usize) -> Work;

const LONG_RUNS: [(&str, Make); 11] = [
    ("compute, 4 harts", |kind, events| compute(kind, 4, events)),
    ("memory, 4 harts, 64 KiB", |kind, events| memory(kind, 4, 65_536, events)),
    ("LR/SC on one line, 8 harts", |kind, events| contention(kind, 8, events)),
    ("AMO and AMOCAS, 4 harts", |kind, events| amos(kind, 4, events)),
    ("traps, 8 harts", traps),
    ("devices, yields, LR/SC", |kind, events| devices(kind, 8, events)),
    ("stores beside sets, 8 harts", |kind, events| stores(kind, 8, 65_536, events)),
    ("device writes, 8 harts", |kind, events| device_writes(kind, 8, 65_536, events)),
    ("LR/SC on sets of 8, 8 harts", |kind, events| contention(kind, 8, events).with_sets_of(8)),
    ("stores beside sets of 4096", |kind, events| stores(kind, 8, 262_144, events).with_sets_of(4096)),
    ("device writes, 2.0, 8 harts", |kind, events| device_writes(kind, 8, 65_536, events).under_2_0()),
];

/// The two kinds of core, with a name for each.
pub const KINDS: [(&str, u64); 2] = [("64-bit", KIND_64), ("32-bit", KIND_32)];

/// A name with that of a kind behind it.
pub fn named(name: &str, kind: &str) -> String {
    format!("{name}, {kind}")
}

/// The work of long runs, with a name for each: all of the 64-bit kind, then the same of the 32-bit kind. Each is made when it is asked for.
pub fn long_runs(events: usize) -> impl Iterator<Item = (String, Work)> {
    KINDS.into_iter().flat_map(move |(of, kind)| LONG_RUNS.into_iter().map(move |(name, make)| (named(name, of), make(kind, events))))
}

/// Those of LONG_RUNS whose memory leaves room for events in a case file.
const CASE_FILES: [usize; 5] = [0, 2, 3, 4, 5];

/// Case files of the work of long runs, each as long as it may be, with a name for each: of both kinds.
pub fn case_files() -> impl Iterator<Item = (String, Vec<u8>)> {
    KINDS.into_iter().flat_map(|(of, kind)| {
        CASE_FILES.into_iter().map(move |n| {
            let (name, make) = LONG_RUNS[n];
            let Work { state, memory, events } = make(kind, MAX_FILE / EVENT);
            let harts = harts_body(BASE, &state);
            let room = (MAX_FILE - TABLE - harts.len() - memory.len()) / EVENT;
            (named(name, of), file(&harts, &memory, &events[..EVENT * room]))
        })
    })
}

/// Register operations and branches.
pub fn compute(kind: u64, harts: usize, events: usize) -> Work {
    // Two operations on words, where the registers are longer.
    let (op, op_imm) = if kind == KIND_32 { (0x33, 0x13) } else { (0x3B, 0x1B) };
    let words = [
        i_type(0x13, 0, 5, 5, 1),
        r_type(0x33, 0, 0, 6, 6, 5),
        r_type(0x33, 4, 0, 7, 6, 7),
        i_type(0x13, 1, 8, 7, 13),
        i_type(0x13, 5, 9, 8, 0x400 | 7),
        r_type(0x33, 3, 0, 10, 9, 6),
        r_type(op, 0, 0x20, 11, 9, 10),
        u_type(0x37, 12, 0x12345),
        b_type(4, 11, 12, 8),
        r_type(0x33, 6, 0, 13, 11, 7),
        i_type(op_imm, 0, 14, 13, -5),
        j_type(1, -44),
    ];
    Work::new(kind, harts, 4096, &words).in_turn(events)
}

/// A load, a store and a load for every 8 bytes of what memory has behind the words, over and over.
pub fn memory(kind: u64, harts: usize, length: usize, events: usize) -> Work {
    let full = full_width(xlen(kind));
    let words = [
        i_type(0x03, full, 6, 5, 0),
        i_type(0x13, 0, 6, 6, 1),
        s_type(full, 5, 6, 0),
        // LWU, or LW where the registers aren't longer.
        i_type(0x03, if kind == KIND_32 { W } else { 6 }, 7, 5, 4),
        i_type(0x13, 0, 5, 5, 8),
        b_type(6, 5, 9, -20),
        i_type(0x13, 0, 5, 8, 0),
        j_type(0, -28),
    ];
    let mut work = Work::new(kind, harts, length, &words);
    let first = BASE + 4 * words.len() as u64;
    let lines = (length as u64 - 4 * words.len() as u64) / 8;
    // The harts start at different places.
    work.set(5, |h| first + 8 * (h as u64 * lines / harts as u64));
    work.set(8, |_| first);
    work.set(9, |_| BASE + length as u64);
    work.in_turn(events)
}

/// Harts in one retry loop on one line.
fn retry(kind: u64, harts: usize) -> Work {
    let full = full_width(xlen(kind));
    let words =
        [atomic(LR, full, 2, 6, 5, 0), i_type(0x13, 0, 6, 6, 1), atomic(SC, full, 1, 7, 5, 6), b_type(1, 7, 0, -12), j_type(0, -16)];
    let mut work = Work::new(kind, harts, 4096, &words);
    work.set(5, |h| BASE + 1024 + 8 * (h as u64 % 2));
    work
}

pub fn contention(kind: u64, harts: usize, events: usize) -> Work {
    retry(kind, harts).in_bursts(events)
}

/// Every AMO and AMOCAS, in all widths that the kind has, on two lines.
pub fn amos(kind: u64, harts: usize, events: usize) -> Work {
    let full = full_width(xlen(kind));
    let mut words: Vec<u32> = AMOS.iter().flat_map(|&op| [atomic(op, W, 0, 6, 5, 7), atomic(op, full, 3, 8, 9, 7)]).collect();
    let widths: &[u32] = if kind == KIND_32 { &[W, D] } else { &[W, D, Q] };
    words.extend(widths.iter().map(|&width| atomic(CAS, width, 0, 10, 5, 12)));
    words.extend([i_type(0x13, 0, 12, 12, 3), r_type(0x33, 4, 0, 7, 7, 12)]);
    words.push(j_type(0, -4 * words.len() as i64));
    let mut work = Work::new(kind, harts, 4096, &words);
    work.set(5, |_| BASE + 1024);
    work.set(9, |h| BASE + 1024 + 64 * (h as u64 % 2));
    work.set(7, |h| 0x0123_4567_89AB_CDEF * (h as u64 + 1));
    work.in_turn(events)
}

/// Harts that trap at every step, each by another cause.
pub fn traps(kind: u64, events: usize) -> Work {
    let full = full_width(xlen(kind));
    let words = [
        0x0000_0073,
        0x0010_0073,
        0xFFFF_FFFF,
        j_type(0, 2),
        i_type(0x03, full, 6, 5, 1),
        i_type(0x03, full, 6, 5, -8),
        atomic(SC, W, 0, 6, 7, 6),
        atomic(AMOS[0], full, 0, 6, 8, 6),
    ];
    let mut work = Work::new(kind, words.len(), 4096, &words);
    work.set(5, |_| BASE);
    work.set(7, |_| BASE + 2);
    work.set(8, |_| BASE + 4096);
    for (h, hart) in work.state.harts.iter_mut().enumerate() {
        hart.pc = BASE + 4 * h as u64;
    }
    work.in_turn(events)
}

/// A third steps of retry loops, a third device writes, a third yields.
pub fn devices(kind: u64, harts: usize, events: usize) -> Work {
    let mut work = retry(kind, harts);
    let rng = &mut Rng::new(1);
    for _ in 0..events {
        let hart = rng.below(harts as u64);
        let event = match rng.below(3) {
            0 => event_bytes(STEP, hart as u8, 0, 0, 0),
            1 => {
                let size = 1 + rng.below(8) as usize;
                event_bytes(DEVICE, 0, size as u8, BASE + 1016 + rng.below(40), low_bytes(rng.next(), size))
            }
            _ => event_bytes(YIELD, hart as u8, 0, 0, 0),
        };
        work.events.extend(event);
    }
    work
}

/// Harts that each reserve a line and then store four times, over and over. The stores go through all of memory, so that few of them touch
/// another hart's set, but each is held against all of them.
pub fn stores(kind: u64, harts: usize, length: usize, events: usize) -> Work {
    let full = full_width(xlen(kind));
    let words = [
        atomic(LR, full, 0, 6, 5, 0),
        s_type(full, 8, 6, 0),
        s_type(full, 8, 6, 8),
        s_type(full, 8, 6, 16),
        s_type(full, 8, 6, 24),
        i_type(0x13, 0, 8, 8, 72),
        b_type(6, 8, 9, -24),
        i_type(0x13, 0, 8, 10, 0),
        j_type(0, -32),
    ];
    let mut work = Work::new(kind, harts, length, &words);
    let part = (length / harts) as u64;
    work.set(5, |h| BASE + part * h as u64 + part / 2);
    work.set(8, |h| BASE + 64 + part * h as u64);
    work.set(9, |_| BASE + length as u64 - 32);
    work.set(10, |_| BASE + 64);
    work.in_turn(events)
}

/// Nine of ten events are device writes anywhere behind the words, the others steps of a loop of two LRs, so that most writes are held against a
/// reservation of every hart.
pub fn device_writes(kind: u64, harts: usize, length: usize, events: usize) -> Work {
    let full = full_width(xlen(kind));
    let mut work = Work::new(kind, harts, length, &[atomic(LR, full, 0, 6, 5, 0), atomic(LR, W, 0, 6, 5, 0), j_type(0, -8)]);
    let part = (length / harts) as u64;
    work.set(5, |h| BASE + part * h as u64 + part / 2);
    let rng = &mut Rng::new(1);
    for _ in 0..events {
        if rng.percent(10) {
            work.step(rng.below(harts as u64) as usize);
            continue;
        }
        let size = 1 + rng.below(8) as usize;
        let at = BASE + 64 + rng.below((length - 64 - size) as u64 + 1);
        work.events.extend(event_bytes(DEVICE, 0, size as u8, at, low_bytes(rng.next(), size)));
    }
    work
}

/// One step after another that does nothing.
pub fn idle(kind: u64) -> Work {
    Work::new(kind, 8, 4096, &[NOP, j_type(0, -4)])
}

#[cfg(test)]
mod tests {
    use super::*;
    use crate::calls::{of_events, Call};
    use crate::case::read_case;
    use crate::machine::{Memory, Outcome};

    /// The work of either kind is what its name says: only that of traps traps, and that at every step.
    #[test]
    fn traps_alone_trap() {
        for (name, Work { mut state, mut memory, events }) in long_runs(2000) {
            let lent = &mut Memory { base: BASE, bytes: &mut memory };
            let steps = of_events(&events).filter_map(|call| match call {
                Call::Step { hart } => Some(state.step(lent, hart).expect("a step that isn't refused")),
                Call::DeviceWrite { addr, size, data } => state.device(lent, addr, size, data).map(|_| None).expect("no refusal"),
                _ => None,
            });
            let traps: Vec<bool> = steps.map(|outcome| matches!(outcome, Outcome::Trap(_))).collect();
            assert!(traps.iter().all(|&trapped| trapped == name.starts_with("traps")), "{name}");
        }
    }

    /// As many of each kind, all of them cases, and full but for less than an event.
    #[test]
    fn files() {
        let kinds: Vec<u64> = case_files()
            .map(|(name, file)| {
                assert!(MAX_FILE - file.len() < EVENT, "{name}");
                read_case(&file).expect("a case that isn't refused").state.kind
            })
            .collect();
        assert_eq!(kinds, [[KIND_64; 5], [KIND_32; 5]].concat());
    }
}
