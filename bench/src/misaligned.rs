//! What the compared calls, events and logs reached under each setting of misaligned atomics. All that can be reached is printed, zeros too, so that
//! a reader sees what was never tried.

use crate::broken::{each_event, Event};
use crate::calls::{perform, Call, Machine, BAD_SIZE, REFUSED};
use crate::layout;
use crate::machine::{low, Hart, Memory, Outcome, State, Trap, ACCESS_FAULT, ADDRESS_MISALIGNED};
use crate::reached::name;
use crate::versions::{print_heading, print_row, shown, REFUSALS};
use crate::word::{decode, AtomicOp, Instr};

/// Whether a number is of a kind that the kinds before it don't have.
type Kind = fn(u64) -> bool;

/// The two settings, and kinds of numbers that are none. They don't go by what the machine allows, so that one that allows too much is compared
/// too, and found, before anything of it is counted.
const KINDS: [(&str, Kind); 6] = [
    ("0: causes 4 and 6", |number| number == ADDRESS_MISALIGNED),
    ("1: causes 5 and 7", |number| number == ACCESS_FAULT),
    ("2", |number| number == 2),
    ("3 to 255", |number| number < 256),
    ("one in its low byte", |number| number % 256 < 2),
    ("any other above", |_| true),
];
const ALLOWED: usize = 2;

fn kind(number: u64) -> usize {
    KINDS.iter().position(|(_, is)| is(number)).expect("the last one takes all")
}

/// The instructions that name an address: RV32's AMOCAS.D is one of pairs.
const ACCESSES: [&str; 12] =
    ["load", "store", "lr.w", "lr.d", "sc.w", "sc.d", "amo.w", "amo.d", "amocas.w", "amocas.d", "amocas.d, pair", "amocas.q"];

/// What a step was about to do with memory.
pub(crate) struct Access {
    /// Its place in ACCESSES.
    instr: usize,
    aligned: bool,
    inside: bool,
    /// An SC whose hart holds a reservation.
    held: bool,
}

impl Access {
    /// That of a hart's word. A word that isn't in memory or is none is no access.
    pub(crate) fn of(hart: &Hart, word: Option<u32>, xlen: u32, inside: impl Fn(u64, u64) -> bool) -> Option<Access> {
        let instr = decode(word?, xlen)?;
        let (rs1, imm, width, mut name) = match instr {
            Instr::Load { width, rs1, imm, .. } | Instr::Store { width, rs1, imm, .. } => (rs1, imm, width, name(instr)),
            Instr::Atomic(a) => (a.rs1, 0, a.width, name(instr)),
            _ => return None,
        };
        if matches!(instr, Instr::Atomic(a) if a.width == 8 && a.is_pair(xlen)) {
            name = "amocas.d, pair";
        }
        let (addr, width) = (low(hart.x[rs1 as usize].wrapping_add(imm), xlen), u64::from(width));
        let sc = matches!(instr, Instr::Atomic(a) if a.op == AtomicOp::Sc);
        Some(Access {
            instr: ACCESSES.iter().position(|access| *access == name).expect("an access"),
            aligned: addr.is_multiple_of(width),
            inside: inside(addr, width),
            held: sc && hart.reservation.is_some(),
        })
    }
}

/// Accesses of one instruction.
#[derive(Clone, Copy, Default)]
struct Counts {
    retired: u64,
    /// Aligned ones outside memory.
    outside: u64,
    /// Misaligned ones by cause, 4 to 7.
    causes: [u64; 4],
    /// Of these, the ones whose bytes aren't wholly in memory, and SCs of a hart that holds a reservation.
    both: u64,
    held: u64,
}

/// Accesses under one allowed setting.
type Accesses = [Counts; ACCESSES.len()];

/// `trap` is the step's, if it trapped.
fn count(accesses: &mut Accesses, access: &Access, trap: Option<Trap>) {
    let counts = &mut accesses[access.instr];
    match trap {
        None => counts.retired += 1,
        Some(_) if access.aligned => counts.outside += 1,
        Some(trap) => {
            counts.causes[usize::from(trap.cause) - 4] += 1;
            counts.both += !access.inside as u64;
            counts.held += access.held as u64;
        }
    }
}

fn print(accesses: &Accesses, setting: usize, retires: bool) {
    print_heading(&["retired", "outside", "mis. 4", "mis. 5", "mis. 6", "mis. 7", "and out", "sc held"]);
    for (n, (access, counts)) in ACCESSES.iter().zip(accesses).enumerate() {
        // 4 or 6; what isn't plain, the load and the store at the top, has 5 or 7 under 1.
        let read = access.starts_with("lo") || access.starts_with("lr");
        let own = if read { 0 } else { 2 } + (setting == 1 && n >= 2) as usize;
        let causes = counts.causes.iter().enumerate().map(|(cause, count)| shown(cause == own, count));
        let first = [shown(retires, &counts.retired), counts.outside.to_string()];
        let last = [counts.both.to_string(), shown(access.starts_with("sc"), &counts.held)];
        print_row(access, first.into_iter().chain(causes).chain(last));
    }
}

/// What calls reached, and their events.
#[derive(Default)]
pub struct Misaligned {
    /// By the kind of the number, and by refusal: 0 for none, then as in REFUSALS. With a number that is none of the two it is the refusal that 0
    /// would have: if that is 1, the call was refused by 1, else by 2.
    calls: [[u64; 1 + REFUSALS.len()]; KINDS.len()],
    /// Single steps under the allowed ones.
    steps: [Accesses; ALLOWED],
    /// Machines whose events were counted.
    machines: [u64; ALLOWED],
}

/// What a call would be answered with 0.
fn with_0(machine: &Machine, call: &Call) -> u64 {
    let mut machine = machine.clone();
    layout::put(&mut machine.state, layout::MISALIGNED, ADDRESS_MISALIGNED);
    perform(&mut machine, call, &mut vec![0; call.told()])
}

impl Misaligned {
    /// Counts a call by the machine that it left: it changes no setting, and nothing at all where that is refused.
    pub fn count_call(&mut self, machine: &Machine, call: &Call, answer: u64) {
        if machine.state.len() != layout::SIZE || answer == BAD_SIZE {
            return;
        }
        let number = kind(layout::get(&machine.state, layout::MISALIGNED));
        let answer = if number < ALLOWED { answer } else { with_0(machine, call) };
        let refusal = REFUSALS.iter().position(|number| REFUSED + number == answer).map_or(0, |place| 1 + place);
        self.calls[number][refusal] += 1;
    }

    /// Counts events, one after another: none with a number that is none of the two.
    pub fn count_events(&mut self, state: &State, base: u64, memory: &[u8], events: &[u8]) {
        let setting = kind(state.misaligned);
        let Some(accesses) = self.steps.get_mut(setting) else {
            return;
        };
        self.machines[setting] += 1;
        let (xlen, length) = (state.xlen(), memory.len() as u64);
        each_event(state, base, memory, events, |event| {
            if let Some(access) = access_of(event, xlen, base, length) {
                count(accesses, &access, trap_of(event));
            }
        });
    }

    pub fn print(&self) {
        println!("  by what a misaligned LR, SC, AMO or AMOCAS gives, calls that were not refused and those that were, by refusal; with a number that is");
        println!("  none of the two the refusal that they would have with 0: where that is 1 it was 1, all others were 2:");
        let columns: Vec<String> = std::iter::once("none".into()).chain(REFUSALS.iter().map(u64::to_string)).collect();
        print_heading(&columns.iter().map(String::as_str).collect::<Vec<_>>());
        for ((name, _), counts) in KINDS.iter().zip(&self.calls) {
            print_row(name, counts.iter().map(u64::to_string));
        }
        for (setting, accesses) in self.steps.iter().enumerate() {
            println!(
                "  {}, {} machines, single steps by instruction: retired; aligned and outside memory; misaligned, by cause; of these not wholly in",
                KINDS[setting].0, self.machines[setting]
            );
            println!("  memory, and SCs whose hart holds a reservation:");
            print(accesses, setting, true);
        }
    }
}

fn access_of(event: &Event, xlen: u32, base: u64, length: u64) -> Option<Access> {
    let step = event.step.as_ref()?;
    Access::of(&step.hart, step.word, xlen, |addr, width| addr.wrapping_sub(base) <= length - width)
}

fn trap_of(event: &Event) -> Option<Trap> {
    match event.outcome {
        Outcome::Trap(trap) => Some(trap),
        _ => None,
    }
}

/// Rows of logs that stopped by a trap of an access, under each setting.
#[derive(Default)]
pub struct Stops([Accesses; ALLOWED]);

impl Stops {
    /// A row of a hart that stops by a trap. State and memory are as they were before it, as a trap leaves them.
    pub(crate) fn count(&mut self, state: &State, memory: &Memory, number: usize, trap: Trap) {
        let hart = &state.harts[number];
        let access = Access::of(hart, memory.word(hart.pc), state.xlen(), |addr, width| memory.contains(addr, width));
        if let (Some(accesses), Some(access)) = (self.0.get_mut(kind(state.misaligned)), access) {
            count(accesses, &access, Some(trap));
        }
    }

    /// How many misaligned atomics stopped a row under a setting.
    pub fn misaligned_atomics(&self, setting: usize) -> u64 {
        self.0[setting][2..].iter().map(|counts| counts.causes.iter().sum::<u64>()).sum()
    }

    /// Case files have the first setting alone.
    pub fn print(&self, settings: usize) {
        for (setting, accesses) in self.0.iter().enumerate().take(settings) {
            println!("    {}, rows that stopped at an access by a trap, columns as of single steps:", KINDS[setting].0);
            print(accesses, setting, false);
        }
    }
}

#[cfg(test)]
mod tests {
    use super::*;
    use crate::generate::{log, scenario, Rng};
    use crate::reached::Reached;

    /// The generator reaches every misaligned atomic under both settings, in memory and not wholly so, alone and as a row of a log; and numbers of
    /// every kind that is none of the two.
    #[test]
    fn reached_by_generated() {
        let (mut misaligned, mut replays) = (Misaligned::default(), Reached::new(&[1, 2, 12, 13]));
        for seed in 0..4000 {
            let rng = &mut Rng::new(seed);
            let mut given = scenario(rng);
            let Some(state) = layout::read(&given.machine.state) else {
                continue;
            };
            misaligned.count_events(&state, given.machine.base, &given.machine.memory, &given.events);
            misaligned.count_call(
                &given.machine,
                &Call::Yield { hart: 0 },
                perform(&mut given.machine.clone(), &Call::Yield { hart: 0 }, &mut [0; 8]),
            );
            let log = log(rng, &state, given.machine.base, &mut given.machine.memory);
            replays.count(&state, given.machine.base, &given.machine.memory, &log);
        }
        for (setting, accesses) in misaligned.steps.iter().enumerate() {
            for (name, counts) in ACCESSES.iter().zip(accesses) {
                let reached = [counts.retired, counts.outside, counts.causes.iter().sum(), counts.both];
                assert!(reached.iter().all(|&count| count > 0), "{setting}, {name}: {reached:?}");
                assert!(!name.starts_with("sc") || counts.held > 0, "{setting}, {name}");
            }
            assert!(replays.stops_by_misaligned(setting) > 20, "{setting}: {}", replays.stops_by_misaligned(setting));
        }
        for ((name, _), counts) in KINDS.iter().zip(&misaligned.calls) {
            assert!(counts.iter().sum::<u64>() > 0, "{name}");
        }
    }
}
