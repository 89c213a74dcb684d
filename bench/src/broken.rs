//! Which writes of the compared events broke how many reservations, and whose. All that can be reached is printed, zeros too, so that a
//! reader sees what was never tried.

use crate::calls::{of_events, Call};
use crate::machine::{low, Hart, HartMask, Memory, Outcome, Reservation, State, A_2_1, MAX_HARTS};
use crate::reached::{cell, equal};
use crate::word::{decode, AtomicOp, Instr};

#[derive(Clone, Copy, PartialEq, Eq)]
pub(crate) enum Writer {
    Store,
    Sc,
    Amo,
    Cas,
    Device,
}

const WRITERS: [(Writer, &str); 5] =
    [(Writer::Store, "store"), (Writer::Sc, "sc"), (Writer::Amo, "amo"), (Writer::Cas, "amocas"), (Writer::Device, "device")];

/// A write that an event makes unless it traps or is an SC that fails. A device has no hart.
pub(crate) struct Write {
    pub(crate) writer: Writer,
    pub(crate) hart: Option<usize>,
    pub(crate) addr: u64,
    pub(crate) size: u64,
}

impl Write {
    fn of(call: &Call, state: &State, memory: &Memory) -> Option<Write> {
        match *call {
            Call::Step { hart } if hart < state.count => Write::of_step(state, memory, hart),
            Call::DeviceWrite { addr, size, .. } => Some(Write { writer: Writer::Device, hart: None, addr, size: size as u64 }),
            _ => None,
        }
    }

    fn of_step(state: &State, memory: &Memory, number: usize) -> Option<Write> {
        let hart = &state.harts[number];
        let (writer, addr, size) = match next_instr(state, memory, number)? {
            Instr::Store { width, rs1, imm, .. } => (Writer::Store, low(hart.x[rs1 as usize].wrapping_add(imm), state.xlen()), width),
            Instr::Atomic(a) => {
                let writer = match a.op {
                    AtomicOp::Lr => return None,
                    AtomicOp::Sc => Writer::Sc,
                    AtomicOp::Cas if equal(hart, memory, a, state.xlen()) => Writer::Cas,
                    AtomicOp::Cas => return None,
                    _ => Writer::Amo,
                };
                (writer, hart.x[a.rs1 as usize], a.width)
            }
            _ => return None,
        };
        Some(Write { writer, hart: Some(number), addr, size: size.into() })
    }

    /// Whether it touches one of the bytes from `first` on.
    pub(crate) fn touches(&self, first: u64, size: u64) -> bool {
        self.addr < first.saturating_add(size) && first < self.addr + self.size
    }

    pub(crate) fn touches_read(&self, r: Reservation) -> bool {
        self.touches(r.addr, r.width)
    }

    pub(crate) fn touches_set(&self, r: Reservation, set_size: u64) -> bool {
        self.touches(r.addr - r.addr % set_size, set_size)
    }

    /// Whether it touches what a reservation of another hart is lost by.
    fn touches_guarded(&self, r: Reservation, state: &State) -> bool {
        match self.writer {
            Writer::Device => state.version == A_2_1 && self.touches_read(r),
            _ => self.touches_set(r, state.set_size),
        }
    }
}

/// What the hart's next step performs, if it isn't a trap of causes 1 or 2.
fn next_instr(state: &State, memory: &Memory, hart: usize) -> Option<Instr> {
    decode(memory.word(state.harts[hart].pc)?, state.xlen())
}

/// The hart that steps an LR.
fn reserves(call: &Call, state: &State, memory: &Memory) -> Option<usize> {
    match *call {
        Call::Step { hart } if hart < state.count => match next_instr(state, memory, hart) {
            Some(Instr::Atomic(a)) if a.op == AtomicOp::Lr => Some(hart),
            _ => None,
        },
        _ => None,
    }
}

/// Performs an event: what it came to, if it isn't refused.
fn perform(call: &Call, state: &mut State, memory: &mut Memory) -> Option<Outcome> {
    match *call {
        Call::Step { hart } => state.step(memory, hart).ok(),
        Call::DeviceWrite { addr, size, data } => state.device(memory, addr, size, data).ok().map(|broke| Outcome::Retired { broke }),
        Call::Yield { hart } => state.yield_hart(memory, hart).ok().map(|()| Outcome::Retired { broke: 0 }),
        Call::Run { .. } | Call::Replay { .. } => None,
    }
}

/// The reservations of all harts, also of unused ones.
pub(crate) type Held = [Option<Reservation>; MAX_HARTS];

/// A step before it is performed: its hart, and the word at its pc if that is in memory.
pub(crate) struct Step {
    pub(crate) hart: Hart,
    pub(crate) word: Option<u32>,
}

impl Step {
    fn of(call: &Call, state: &State, memory: &Memory) -> Option<Step> {
        match *call {
            Call::Step { hart } if hart < state.count => Some(Step { hart: state.harts[hart], word: memory.word(state.harts[hart].pc) }),
            _ => None,
        }
    }
}

/// An event that isn't refused.
pub(crate) struct Event {
    pub(crate) call: Call,
    pub(crate) step: Option<Step>,
    /// What it writes, unless it traps or is an SC that fails.
    pub(crate) write: Option<Write>,
    /// The hart that reserves, unless it traps.
    pub(crate) reserves: Option<usize>,
    /// The reservations before it.
    pub(crate) held: Held,
    pub(crate) outcome: Outcome,
}

/// Performs events one after another, and hands on each that isn't refused.
pub(crate) fn each_event(state: &State, base: u64, memory: &[u8], events: &[u8], mut observe: impl FnMut(&Event)) {
    let (mut state, mut bytes) = (state.clone(), memory.to_vec());
    let memory = &mut Memory { base, bytes: &mut bytes };
    if state.accepted(memory).is_err() {
        return;
    }
    for call in of_events(events) {
        let held = state.harts.map(|hart| hart.reservation);
        let (write, reserves) = (Write::of(&call, &state, memory), reserves(&call, &state, memory));
        let step = Step::of(&call, &state, memory);
        if let Some(outcome) = perform(&call, &mut state, memory) {
            observe(&Event { call, step, write, reserves, held, outcome });
        }
    }
}

/// The same for each event that would write: also an SC that fails and a trap.
pub(crate) fn each_write(state: &State, base: u64, memory: &[u8], events: &[u8], mut observe: impl FnMut(&Write, &Held, Outcome)) {
    each_event(state, base, memory, events, |event| {
        if let Some(write) = &event.write {
            observe(write, &event.held, event.outcome);
        }
    });
}

/// The writes of one kind of writer.
#[derive(Default)]
struct Counts {
    /// By how many reservations they broke.
    by_number: [u64; MAX_HARTS + 1],
    /// The reservations they broke, by hart.
    by_hart: [u64; MAX_HARTS],
    /// Into the set of a reservation that the writer itself holds.
    own: u64,
    /// Into a set that somebody holds, and onto no byte that the LR read.
    beside: u64,
    /// Where an unused hart seems to hold a reservation that would be lost.
    unused: u64,
}

#[derive(Default)]
pub struct Broken([Counts; 5]);

impl Broken {
    /// Counts the writes of events, one after another.
    pub fn count(&mut self, state: &State, base: u64, memory: &[u8], events: &[u8]) {
        each_write(state, base, memory, events, |write, held, outcome| match outcome {
            Outcome::Trap(_) | Outcome::Sc { success: false, .. } => {}
            outcome => self.add(write, outcome.broke(), held, state),
        });
    }

    /// `held` are the reservations before the write; of the state its count, its set size and its version are looked at.
    fn add(&mut self, write: &Write, broke: HartMask, held: &Held, state: &State) {
        let (set_size, (held, unused)) = (state.set_size, held.split_at(state.count));
        let counts = &mut self.0[write.writer as usize];
        counts.by_number[broke.count_ones() as usize] += 1;
        for (hart, count) in counts.by_hart.iter_mut().enumerate() {
            *count += (broke >> hart & 1) as u64;
        }
        counts.own += write.hart.and_then(|hart| held[hart]).is_some_and(|r| write.touches_set(r, set_size)) as u64;
        let beside = |r: &Reservation| write.touches_set(*r, set_size) && !write.touches_read(*r);
        counts.beside += held.iter().flatten().any(beside) as u64;
        let seems_held = |r: &Reservation| (r.width == 4 || r.width == 8) && write.touches_guarded(*r, state);
        counts.unused += unused.iter().flatten().any(seems_held) as u64;
    }

    /// A dot stands where nothing can be reached. `case_files`: whether the states come from these, where unused harts hold nothing.
    pub fn print(&self, case_files: bool) {
        println!("  writes by the number of reservations they broke:");
        let numbers: [String; MAX_HARTS + 1] = std::array::from_fn(|n| n.to_string());
        // A hart's write doesn't break its own.
        self.print_table(&numbers, |writer, counts, n| cell(n < MAX_HARTS || writer == Writer::Device, positive(&counts.by_number[n])));
        println!("  reservations they broke, by hart:");
        let harts: [String; MAX_HARTS] = std::array::from_fn(|n| format!("h{n}"));
        self.print_table(&harts, |_, counts, n| counts.by_hart[n].to_string());
        println!("  writes into a set the writer holds; beside the LR's bytes in a held set; onto what an unused hart seems to hold:");
        self.print_table(&["own", "beside", "unused"].map(String::from), |writer, counts, n| {
            let (count, possible) = match n {
                0 => (&counts.own, writer != Writer::Device),
                1 => (&counts.beside, true),
                _ => (&counts.unused, !case_files),
            };
            cell(possible, positive(count))
        });
    }

    fn print_table(&self, columns: &[String], cell: impl Fn(Writer, &Counts, usize) -> String) {
        print!("    {:<8}", "");
        columns.iter().for_each(|column| print!(" {column:>9}"));
        println!();
        for (writer, name) in WRITERS {
            print!("    {name:<8}");
            (0..columns.len()).for_each(|n| print!(" {:>9}", cell(writer, &self.0[writer as usize], n)));
            println!();
        }
    }
}

fn positive(count: &u64) -> Option<&u64> {
    Some(count).filter(|&&count| count > 0)
}
