//! What the compared calls, events and blocks reached under each version of the A extension. All that can be reached is printed, zeros too, so
//! that a reader sees what was never tried.

use crate::broken::{each_event, Event, Write, Writer};
use crate::calls::{perform, Call, Machine, BAD_SIZE, REFUSED};
use crate::layout;
use crate::machine::{Outcome, State, A_2_0, A_2_1, MAX_HARTS};
use crate::reached::cell;
use crate::word::{decode, AtomicOp, Instr};

/// Whether a number is of a kind that the kinds before it don't have.
type Kind = fn(u64) -> bool;

/// The two versions, and kinds of numbers that are none. They don't go by what the machine allows, so that one that allows too much is compared
/// too, and found, before anything of it is counted.
const KINDS: [(&str, Kind); 7] = [
    ("2.0", |number| number == A_2_0),
    ("2.1", |number| number == A_2_1),
    ("0", |number| number == 0),
    ("1 to 19", |number| number < A_2_0),
    ("22 to 255", |number| number < 256),
    ("a version in its low byte", |number| [A_2_0, A_2_1].contains(&(number % 256))),
    ("any other above", |_| true),
];
const ALLOWED: usize = 2;

fn kind(version: u64) -> usize {
    KINDS.iter().position(|(_, is)| is(version)).expect("the last one takes all")
}

/// The refusals of calls.
pub(crate) const REFUSALS: [u64; 8] = [1, 2, 3, 4, 5, 11, 12, 13];

/// Single events under an allowed version.
#[derive(Default)]
struct Events {
    /// Device writes.
    device: u64,
    /// Of these, the ones onto a byte that the LR of one used hart read, and those onto bytes that the LRs of several read; each by whether it
    /// broke none of their reservations or some.
    onto: [[u64; 2]; 2],
    /// Reservations that harts broke, by stores, SCs, AMOs and AMOCASes.
    lost: [u64; 4],
    /// SCs behind a device write onto a byte that their LR read: those that failed and those that stored.
    sc_behind: [u64; 2],
    /// Yields of a hart that held a reservation.
    yields: u64,
}

/// What calls reached, and their events.
#[derive(Default)]
pub struct Versions {
    /// By the kind of the number, and by refusal: 0 for none, then as in REFUSALS. Under a number that is no version it is the refusal that 2.1
    /// would have: if that is 1, the call was refused by 1, else by 2.
    calls: [[u64; 1 + REFUSALS.len()]; KINDS.len()],
    events: [Events; ALLOWED],
}

impl Versions {
    /// Counts a call by the machine that it left: it changes no version, and nothing at all where that is refused.
    pub fn count_call(&mut self, machine: &Machine, call: &Call, answer: u64) {
        if machine.state.len() != layout::SIZE || answer == BAD_SIZE {
            return;
        }
        let version = layout::get(&machine.state, layout::VERSION);
        let answer = if kind(version) < ALLOWED { answer } else { under_2_1(machine, call) };
        let refusal = REFUSALS.iter().position(|number| REFUSED + number == answer).map_or(0, |place| 1 + place);
        self.calls[kind(version)][refusal] += 1;
    }

    /// Counts events, one after another: none under a number that is no version.
    pub fn count_events(&mut self, state: &State, base: u64, memory: &[u8], events: &[u8]) {
        let mut behind = [false; MAX_HARTS];
        if let Some(counts) = self.events.get_mut(kind(state.version)) {
            each_event(state, base, memory, events, |event| counts.count(event, state.count, &mut behind));
        }
    }

    pub fn print(&self) {
        println!("  by version, calls that were not refused and those that were, by refusal:");
        self.print_calls(0..ALLOWED);
        println!("  calls under a number that is no version, by the refusal that they would have under 2.1: where that is 1 it was 1, all others were 2:");
        self.print_calls(ALLOWED..KINDS.len());
        println!("  by version, single events: device writes; those onto bytes that the LR of one hart read, or the LRs of several, and which broke some");
        println!("  reservation of theirs or none; reservations that harts broke; SCs behind a device write onto a byte that their LR read; yields of");
        println!("  a hart that held a reservation:");
        let devices = ["device", "1 broke", "1 none", "n broke", "n none"];
        print_heading(&[&devices[..], &["by store", "by sc", "by amo", "by amocas"], &["sc stored", "sc failed", "yields"]].concat());
        for (n, Events { device, onto: [one, several], lost, sc_behind, yields }) in self.events.iter().enumerate() {
            // Under 2.0 a device write breaks nothing; under 2.1 it breaks what it touches, and the SC fails.
            let only = |version: usize, count: &u64| shown(n == version, count);
            let devices = [device.to_string(), only(1, &one[1]), only(0, &one[0]), only(1, &several[1]), only(0, &several[0])];
            let rest = [only(0, &sc_behind[1]), sc_behind[0].to_string(), yields.to_string()];
            print_row(KINDS[n].0, devices.into_iter().chain(lost.iter().map(u64::to_string)).chain(rest));
        }
    }

    fn print_calls(&self, kinds: std::ops::Range<usize>) {
        let columns: Vec<String> = std::iter::once("none".into()).chain(REFUSALS.iter().map(u64::to_string)).collect();
        print_heading(&columns.iter().map(String::as_str).collect::<Vec<_>>());
        for n in kinds {
            print_row(KINDS[n].0, self.calls[n].iter().map(u64::to_string));
        }
    }
}

/// What a call would be answered under 2.1.
fn under_2_1(machine: &Machine, call: &Call) -> u64 {
    let mut machine = machine.clone();
    layout::put(&mut machine.state, layout::VERSION, A_2_1);
    perform(&mut machine, call, &mut vec![0; call.told()])
}

/// What can't be reached and wasn't is a dot.
pub(crate) fn shown(possible: bool, count: &u64) -> String {
    cell(possible, Some(count).filter(|&&count| count > 0))
}

pub(crate) fn print_heading(columns: &[&str]) {
    print_row("", columns.iter().map(|column| column.to_string()));
}

pub(crate) fn print_row(name: &str, cells: impl Iterator<Item = String>) {
    println!("    {name:<26}{}", cells.map(|cell| format!(" {cell:>9}")).collect::<String>());
}

impl Events {
    /// `behind`: whether a device wrote onto a byte that the hart's last LR read while the hart held its reservation.
    fn count(&mut self, event: &Event, count: usize, behind: &mut [bool; MAX_HARTS]) {
        match (&event.write, &event.call) {
            (_, Call::Yield { hart }) => {
                self.yields += event.held[*hart].is_some() as u64;
                behind[*hart] = false;
            }
            (Some(write), _) if write.writer == Writer::Device => self.count_device(write, event, count, behind),
            (Some(write), Call::Step { hart }) => {
                if let Outcome::Sc { success, .. } = event.outcome {
                    self.sc_behind[success as usize] += behind[*hart] as u64;
                    behind[*hart] = false;
                }
                self.lost[write.writer as usize] += event.outcome.broke().count_ones() as u64;
            }
            _ => {}
        }
        if let (Some(hart), Outcome::Retired { .. }) = (event.reserves, event.outcome) {
            behind[hart] = false;
        }
    }

    fn count_device(&mut self, write: &Write, event: &Event, count: usize, behind: &mut [bool; MAX_HARTS]) {
        let onto = |hart: &usize| event.held[*hart].is_some_and(|r| write.touches_read(r));
        let harts: Vec<usize> = (0..count).filter(onto).collect();
        self.device += 1;
        if !harts.is_empty() {
            self.onto[(harts.len() > 1) as usize][(event.outcome.broke() != 0) as usize] += 1;
        }
        for hart in harts {
            behind[hart] = true;
        }
    }
}

/// What blocks reached, each of them under both versions and under a number that is none.
#[derive(Default)]
pub struct Blocks {
    /// Under 2.0, under 2.1 and under no version, by answer: accepted, refused by 2 and by 6, rejected by each of the six reasons, and a length
    /// that is wrong.
    answers: [[u64; 10]; 3],
    /// Accepted under one of the versions and rejected under the other.
    only_2_0: u64,
    only_2_1: u64,
    /// JALRs that 2.0 permits, before the first SC and behind it, by rd: the LR's rs1, x0, another.
    permitted: [[u64; 3]; 2],
    /// By their place: JALRs that 2.0 permits, those it rejects by reason 4, those that 2.1 rejects by reason 2.
    by_place: [[u64; 16]; 3],
}

/// The place and the reason of an answer, if it rejects.
fn rejected(answer: u64) -> Option<(usize, u64)> {
    (answer > 256 && answer != BAD_SIZE).then(|| (answer as usize / 256 - 1, answer % 256))
}

impl Blocks {
    /// Counts the answers for a block of words for registers of `xlen` bits under 2.0, under 2.1 and under no version.
    pub fn count(&mut self, words: &[u8], xlen: u32, answers: [u64; 3]) {
        for (counts, answer) in self.answers.iter_mut().zip(answers) {
            counts[match (answer, rejected(answer)) {
                (0, _) => 0,
                (2, _) => 1,
                (6, _) => 2,
                (_, Some((_, reason))) => 2 + reason as usize,
                _ => 9,
            }] += 1;
        }
        self.only_2_0 += (answers[0] == 0 && rejected(answers[1]).is_some()) as u64;
        self.only_2_1 += (answers[1] == 0 && rejected(answers[0]).is_some()) as u64;
        let block: Vec<_> = words.chunks_exact(4).map(|word| decode(u32::from_le_bytes(word.try_into().unwrap()), xlen)).collect();
        if answers[0] == 0 || rejected(answers[0]).is_some() {
            self.count_jalrs(&block, [answers[0], answers[1]].map(rejected));
        }
    }

    /// Those of a block that isn't refused, by the place and the reason of each version.
    fn count_jalrs(&mut self, block: &[Option<Instr>], [under_2_0, under_2_1]: [Option<(usize, u64)>; 2]) {
        let Some(Some(Instr::Atomic(lr))) = block.first() else {
            return;
        };
        let is_sc = |instr: &Option<Instr>| matches!(instr, Some(Instr::Atomic(a)) if a.op == AtomicOp::Sc);
        let sc = block.iter().position(is_sc).unwrap_or(block.len());
        // What stands behind the rejected place isn't looked at.
        let end = under_2_0.map_or(block.len(), |(place, _)| place);
        for (place, instr) in block.iter().enumerate().skip(1) {
            let Some(Instr::Jalr { rd, .. }) = *instr else {
                continue;
            };
            if place < end {
                let register = if rd == 0 { 1 } else { 2 * (rd != lr.rs1) as usize };
                self.permitted[(place > sc) as usize][register] += 1;
                self.by_place[0][place] += 1;
            }
            self.by_place[1][place] += (under_2_0 == Some((place, 4))) as u64;
            self.by_place[2][place] += (under_2_1 == Some((place, 2))) as u64;
        }
    }

    pub fn print(&self) {
        println!("  by version and answer:");
        let reasons = ["reason 1", "reason 2", "reason 3", "reason 4", "reason 5", "reason 6"];
        print_heading(&[&["accepted", "refused 2", "refused 6"][..], &reasons, &["bad size"]].concat());
        for (n, (name, counts)) in ["2.0", "2.1", "no version"].into_iter().zip(&self.answers).enumerate() {
            // A number that is no version is refused by 2 before all else but the length, and no version is.
            let possible = |column: usize| column == 9 || (column == 1) == (n == 2);
            print_row(name, counts.iter().enumerate().map(|(column, count)| shown(possible(column), count)));
        }
        println!("  accepted under 2.0 and rejected under 2.1: {}; the other way round: {}", self.only_2_0, self.only_2_1);
        println!("  JALRs that 2.0 permits, by rd:");
        print_heading(&["LR's rs1", "x0", "another"]);
        for (name, counts) in ["before the SC", "behind it"].into_iter().zip(&self.permitted) {
            let possible = |column: usize| column > 0 || name == "behind it";
            print_row(name, counts.iter().enumerate().map(|(column, count)| shown(possible(column), count)));
        }
        println!("  JALRs by their place, 1 to 15:");
        let names = ["permitted by 2.0", "rejected by it, reason 4", "rejected by 2.1, reason 2"];
        for (name, counts) in names.into_iter().zip(&self.by_place) {
            println!("    {name:<26} {:?}", &counts[1..]);
        }
    }
}
