//! What the compared calls, events and case files reached of each kind of core. All that can be reached is printed, zeros too, so that a reader sees
//! what was never tried.

use crate::broken::{each_event, Event, Step};
use crate::calls::{perform, Call, Machine, BAD_SIZE, REFUSED};
use crate::case::read_case;
use crate::layout;
use crate::machine::{Outcome, State, ADDRESSES_32, KIND_32, KIND_64};
use crate::reached::{self, name, NO_INSTRUCTION, OUTSIDE};
use crate::versions::{print_heading, print_row, shown, REFUSALS};
use crate::word::{decode, Alu, Atomic, AtomicOp, Instr, RV32, RV64};
use std::collections::BTreeMap;

/// Whether a number is of a kind that the kinds before it don't have.
type Kind = fn(u64) -> bool;

/// The two kinds of core, and kinds of numbers that are none. They don't go by what the machine allows, so that one that allows too much is compared
/// too, and found, before anything of it is counted.
const KINDS: [(&str, Kind); 5] = [
    ("64-bit", |number| number == KIND_64),
    ("32-bit", |number| number == KIND_32),
    ("2 to 255", |number| number < 256),
    ("a kind in its low byte", |number| number % 256 < 2),
    ("any other above", |_| true),
];
const ALLOWED: usize = 2;

fn kind(number: u64) -> usize {
    KINDS.iter().position(|(_, is)| is(number)).expect("the last one takes all")
}

/// What RV64 alone has.
const FOREIGN: [&str; 11] =
    ["ld", "lwu", "sd", "op-imm-32", "op-32", "shift by 32 or more", "lr.d", "sc.d", "amo.d", "amocas.d, odd", "amocas.q"];

/// The place in FOREIGN of an instruction of RV64 whose word is none of RV32.
fn foreign(instr: Instr) -> usize {
    match instr {
        Instr::Load { signed: true, .. } => 0,
        Instr::Load { .. } => 1,
        Instr::Store { .. } => 2,
        Instr::OpImm32 { .. } => 3,
        Instr::Op32 { .. } => 4,
        Instr::OpImm { op: Alu::Sll | Alu::Srl | Alu::Sra, .. } => 5,
        Instr::Atomic(Atomic { op: AtomicOp::Lr, .. }) => 6,
        Instr::Atomic(Atomic { op: AtomicOp::Sc, .. }) => 7,
        Instr::Atomic(Atomic { op: AtomicOp::Cas, width: 8, .. }) => 9,
        Instr::Atomic(Atomic { op: AtomicOp::Cas, .. }) => 10,
        Instr::Atomic(_) => 8,
        other => panic!("a word of both: {other:?}"),
    }
}

/// Where a sum of the 32-bit kind passes 2^32, upwards or downwards.
const WRAPS: [&str; 6] = ["next pc", "auipc", "jal", "branch", "jalr", "load, store"];

/// The place in WRAPS of the sum that an instruction takes, and the sum without a limit.
fn sum(instr: Instr, step: &Step) -> (usize, i128) {
    let add = |from: u64, offset: u64| i128::from(from) + i128::from(offset as i64);
    let (pc, x) = (step.hart.pc, |r: u8| step.hart.x[r as usize]);
    match instr {
        Instr::Auipc { imm, .. } => (1, add(pc, imm)),
        Instr::Jal { offset, .. } => (2, add(pc, offset)),
        Instr::Branch { offset, .. } => (3, add(pc, offset)),
        Instr::Jalr { rs1, imm, .. } => (4, add(x(rs1), imm)),
        Instr::Load { rs1, imm, .. } | Instr::Store { rs1, imm, .. } => (5, add(x(rs1), imm)),
        _ => (0, add(pc, 4)),
    }
}

/// The registers of an AMOCAS of pairs.
const PAIRS: [&str; 5] = ["rd x0", "rs2 x0", "both x0", "one pair", "others"];

fn pair(a: Atomic) -> usize {
    match (a.rd, a.rs2) {
        (0, 0) => 2,
        (0, _) => 0,
        (_, 0) => 1,
        (rd, rs2) if rd == rs2 => 3,
        _ => 4,
    }
}

/// Single events of an allowed kind.
#[derive(Default)]
struct Events {
    /// Steps by the kind of their instruction and by answer: 0 for a retired one, else 1 and the cause.
    steps: BTreeMap<&'static str, [u64; 10]>,
    /// AMOCASes of pairs that retired, unequal and equal ones, by PAIRS.
    pairs: [[u64; 5]; 2],
    /// Words that RV64 alone has, by FOREIGN.
    foreign: [u64; FOREIGN.len()],
    /// Steps that took a sum past 2^32, by WRAPS: those that retired.
    wraps: [u64; WRAPS.len()],
    /// Writes onto the last byte below 2^32.
    last_byte: u64,
}

/// Why a call of the 32-bit kind is refused by 1 or 2 and one of the 64-bit kind isn't.
const OWN: [&str; 4] = ["end", "register", "pc", "8 wide"];

/// What calls reached, and their events.
#[derive(Default)]
pub struct Kinds {
    /// By the kind of the number, and by refusal: 0 for none, then as in REFUSALS. With a number that is no kind it is the refusal that the 64-bit
    /// kind would have: if that is 1, the call was refused by 1, else by 2.
    calls: [[u64; 1 + REFUSALS.len()]; KINDS.len()],
    /// Calls with a number that is no kind and a base plus length above 2^32 that aren't refused by 1.
    beyond: u64,
    own: [u64; OWN.len()],
    events: [Events; ALLOWED],
}

/// What a call would be answered of the 64-bit kind.
fn of_64(machine: &Machine, call: &Call) -> u64 {
    let mut machine = machine.clone();
    layout::put(&mut machine.state, layout::KIND, KIND_64);
    perform(&mut machine, call, &mut vec![0; call.told()])
}

impl Kinds {
    /// Counts a call by the machine that it left: it changes no kind, and nothing at all where that is refused.
    pub fn count_call(&mut self, machine: &Machine, call: &Call, answer: u64) {
        if machine.state.len() != layout::SIZE || answer == BAD_SIZE {
            return;
        }
        let number = kind(layout::get(&machine.state, layout::KIND));
        let shown = if number < ALLOWED { answer } else { of_64(machine, call) };
        let refusal = REFUSALS.iter().position(|number| REFUSED + number == shown).map_or(0, |place| 1 + place);
        self.calls[number][refusal] += 1;
        let above = machine.base.saturating_add(machine.memory.len() as u64) > ADDRESSES_32;
        self.beyond += (number >= ALLOWED && above && answer == REFUSED + 2) as u64;
        if number == 1 && [REFUSED + 1, REFUSED + 2].contains(&answer) && ![REFUSED + 1, REFUSED + 2].contains(&of_64(machine, call)) {
            self.count_own(machine, above);
        }
    }

    /// A call that the 32-bit kind alone refuses by 1 or 2.
    fn count_own(&mut self, machine: &Machine, above: bool) {
        let state = layout::read(&machine.state).expect("a state of the right length");
        let used = &state.harts[..state.count];
        let wide = |value: u64| value >= ADDRESSES_32;
        let applies = [
            above,
            used.iter().any(|hart| hart.x.into_iter().any(wide)),
            used.iter().any(|hart| wide(hart.pc)),
            used.iter().any(|hart| hart.reservation.is_some_and(|r| r.width == 8)),
        ];
        for (count, applies) in self.own.iter_mut().zip(applies) {
            *count += applies as u64;
        }
    }

    /// Counts events, one after another: none with a number that is no kind.
    pub fn count_events(&mut self, state: &State, base: u64, memory: &[u8], events: &[u8]) {
        if let Some(counts) = self.events.get_mut(kind(state.kind)) {
            each_event(state, base, memory, events, |event| counts.count(event, state.xlen()));
        }
    }

    pub fn print(&self) {
        println!("  by kind, calls that were not refused and those that were, by refusal; with a number that is no kind the refusal that they would");
        println!("  have of the 64-bit kind: where that is 1 it was 1, all others were 2:");
        let columns: Vec<String> = std::iter::once("none".into()).chain(REFUSALS.iter().map(u64::to_string)).collect();
        print_heading(&columns.iter().map(String::as_str).collect::<Vec<_>>());
        for ((name, _), counts) in KINDS.iter().zip(&self.calls) {
            print_row(name, counts.iter().map(u64::to_string));
        }
        println!("  with a number that is no kind and an end of memory above 2^32, refused by 2: {}", self.beyond);
        println!("  calls that the 32-bit kind alone refuses by 1 or 2: end of memory above 2^32, upper half of a register, of a pc, reservation:");
        print_heading(&OWN);
        print_row("32-bit", self.own.iter().map(u64::to_string));
        self.print_events();
    }

    pub fn print_events(&self) {
        for (n, events) in self.events.iter().enumerate() {
            events.print(KINDS[n].0, if n == 0 { RV64 } else { RV32 });
        }
    }
}

impl Events {
    fn count(&mut self, event: &Event, xlen: u32) {
        if let (Some(write), Outcome::Retired { .. } | Outcome::Sc { success: true, .. }) = (&event.write, event.outcome) {
            self.last_byte += write.touches(ADDRESSES_32 - 1, 1) as u64;
        }
        let Some(step) = &event.step else {
            return;
        };
        let instr = step.word.and_then(|word| decode(word, xlen));
        let name = if step.word.is_none() { OUTSIDE } else { instr.map_or(NO_INSTRUCTION, name) };
        let answer = match event.outcome {
            Outcome::Trap(trap) => 1 + trap.cause as usize,
            _ => 0,
        };
        self.steps.entry(name).or_default()[answer] += 1;
        match (instr, step.word.and_then(|word| decode(word, RV64))) {
            (Some(instr), _) if answer == 0 => self.count_retired(step, instr, xlen, event.write.is_some()),
            (None, Some(instr)) => self.foreign[foreign(instr)] += 1,
            _ => {}
        }
    }

    /// `wrote`: an AMOCAS does if it finds what it compares with.
    fn count_retired(&mut self, step: &Step, instr: Instr, xlen: u32, wrote: bool) {
        let (place, sum) = sum(instr, step);
        if !(0..1i128 << xlen).contains(&sum) {
            self.wraps[place] += 1;
        }
        if let Instr::Atomic(a) = instr {
            if a.is_pair(xlen) {
                self.pairs[wrote as usize][pair(a)] += 1;
            }
        }
    }

    fn print(&self, kind: &str, xlen: u32) {
        println!("  {kind}, single steps by instruction: retired, and traps by cause:");
        let causes: Vec<String> = (0..9).map(|cause| format!("trap {cause}")).collect();
        print_heading(&std::iter::once("retired").chain(causes.iter().map(String::as_str)).collect::<Vec<_>>());
        for reached::Kind { name, causes, .. } in &reached::KINDS {
            let counts = self.steps.get(name).copied().unwrap_or_default();
            let legal = xlen == RV64 || !["op-imm-32", "op-32", "lr.d", "sc.d", "amo.d", "amocas.q"].contains(name);
            let possible = |n: usize| legal && if n == 0 { can_retire(name) } else { causes.contains(&(n as u8 - 1)) };
            print_row(name, counts.iter().enumerate().map(|(n, count)| shown(possible(n), count)));
        }
        println!("  {kind}, AMOCASes of pairs, by their registers:");
        print_heading(&PAIRS);
        for (name, counts) in ["unequal", "equal"].into_iter().zip(&self.pairs) {
            print_row(name, counts.iter().map(u64::to_string));
        }
        println!("  {kind}, retired steps that took a sum past 2^{xlen}: {}", named(&WRAPS, &self.wraps));
        if xlen == RV32 {
            println!("  {kind}, words of RV64 alone: {}", named(&FOREIGN, &self.foreign));
            println!("  {kind}, writes onto the last byte below 2^32: {}", self.last_byte);
        }
    }
}

fn can_retire(name: &str) -> bool {
    ![OUTSIDE, NO_INSTRUCTION, "ecall", "ebreak"].contains(&name)
}

fn named(names: &[&str], counts: &[u64]) -> String {
    names.iter().zip(counts).map(|(name, count)| format!("{name} {count}")).collect::<Vec<_>>().join(", ")
}

/// What case files reached: those that aren't refused, by kind; those that are by what their kind is about.
#[derive(Default)]
pub struct Files {
    accepted: [u64; ALLOWED],
    /// By 9 for a kind that is none; by 9 and by 10 of the 32-bit kind where the 64-bit one wouldn't be; refused by anything else.
    no_kind: u64,
    upper_half: u64,
    end: u64,
    others: u64,
}

impl Files {
    pub fn count(&mut self, file: &[u8]) {
        let refusal = match read_case(file) {
            Ok(case) => return self.accepted[kind(case.state.kind)] += 1,
            Err(refusal) => refusal,
        };
        let mut of_64 = file.to_vec();
        let given = of_64.get_mut(52..56).map(|field| (u32::from_le_bytes(field.try_into().expect("4 bytes")), field.fill(0)).0);
        let by_kind = read_case(&of_64).err() != Some(refusal);
        *match (refusal.number, given) {
            (9, Some(1)) if by_kind => &mut self.upper_half,
            (9, Some(_)) if by_kind => &mut self.no_kind,
            (10, Some(1)) if by_kind => &mut self.end,
            _ => &mut self.others,
        } += 1;
    }

    pub fn print(&self) {
        let Files { accepted: [of_64, of_32], no_kind, upper_half, end, others } = self;
        println!("  case files that aren't refused: {of_64} of the 64-bit kind, {of_32} of the 32-bit kind; refused for a kind that is none {no_kind},");
        println!("  for an upper half of the 32-bit kind {upper_half}, for its end of memory above 2^32 {end}, for anything else {others}");
    }
}
