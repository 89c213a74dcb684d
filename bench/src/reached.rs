//! What the compared logs reached: every stop at every kind of instruction, and every place of a row where a board can be wrong. All that
//! can be reached is printed, zeros too, so that a reader sees what was never tried.

use crate::log::{fits, follow, read_row, rows_of, Reason, Row, FORM, ROW};
use crate::machine::{Hart, Memory, Outcome, State};
use crate::misaligned::Stops;
use crate::word::{decode, Atomic, AtomicOp, Instr};
use std::collections::BTreeMap;

/// A kind of instruction: the causes by which it can trap, and what a retired one can have done.
pub(crate) struct Kind {
    pub(crate) name: &'static str,
    pub(crate) causes: &'static [u8],
    done: &'static [&'static str],
    has_rd: bool,
}

const fn kind(name: &'static str, causes: &'static [u8], done: &'static [&'static str], has_rd: bool) -> Kind {
    Kind { name, causes, done, has_rd }
}

const SC: &[&str] = &["failed", "stored"];
const CAS: &[&str] = &["unequal", "equal"];
pub(crate) const OUTSIDE: &str = "outside memory";
pub(crate) const NO_INSTRUCTION: &str = "no instruction";

pub(crate) const KINDS: [Kind; 25] = [
    kind("lui", &[], &[""], true),
    kind("auipc", &[], &[""], true),
    kind("jal", &[0], &[""], true),
    kind("jalr", &[0], &[""], true),
    kind("branch", &[0], &[""], false),
    kind("load", &[4, 5], &[""], true),
    kind("store", &[6, 7], &[""], false),
    kind("op-imm", &[], &[""], true),
    kind("op", &[], &[""], true),
    kind("op-imm-32", &[], &[""], true),
    kind("op-32", &[], &[""], true),
    kind("fence", &[], &[""], false),
    kind("lr.w", &[4, 5], &[""], true),
    kind("lr.d", &[4, 5], &[""], true),
    kind("sc.w", &[6, 7], SC, true),
    kind("sc.d", &[6, 7], SC, true),
    kind("amo.w", &[6, 7], &[""], true),
    kind("amo.d", &[6, 7], &[""], true),
    kind("amocas.w", &[6, 7], CAS, true),
    kind("amocas.d", &[6, 7], CAS, true),
    kind("amocas.q", &[6, 7], CAS, true),
    kind("ecall", &[8], &[], false),
    kind("ebreak", &[3], &[], false),
    kind(NO_INSTRUCTION, &[2], &[], false),
    kind(OUTSIDE, &[1], &[], false),
];

pub(crate) fn name(instr: Instr) -> &'static str {
    match instr {
        Instr::Lui { .. } => "lui",
        Instr::Auipc { .. } => "auipc",
        Instr::Jal { .. } => "jal",
        Instr::Jalr { .. } => "jalr",
        Instr::Branch { .. } => "branch",
        Instr::Load { .. } => "load",
        Instr::Store { .. } => "store",
        Instr::OpImm { .. } => "op-imm",
        Instr::Op { .. } => "op",
        Instr::OpImm32 { .. } => "op-imm-32",
        Instr::Op32 { .. } => "op-32",
        Instr::Fence => "fence",
        Instr::Ecall => "ecall",
        Instr::Ebreak => "ebreak",
        Instr::Atomic(a) => match (a.op, a.width) {
            (AtomicOp::Lr, 4) => "lr.w",
            (AtomicOp::Lr, _) => "lr.d",
            (AtomicOp::Sc, 4) => "sc.w",
            (AtomicOp::Sc, _) => "sc.d",
            (AtomicOp::Cas, 4) => "amocas.w",
            (AtomicOp::Cas, 8) => "amocas.d",
            (AtomicOp::Cas, _) => "amocas.q",
            (_, 4) => "amo.w",
            (_, _) => "amo.d",
        },
    }
}

/// What a well formed row met: the kind of the instruction at the hart's pc, and whether it is an SC that stores or an AMOCAS of equal bytes.
struct Met {
    kind: &'static str,
    done: bool,
}

impl Met {
    fn new(state: &State, memory: &Memory, number: usize) -> Met {
        let hart = &state.harts[number];
        let Some(word) = memory.word(hart.pc) else {
            return Met { kind: OUTSIDE, done: false };
        };
        let Some(instr) = decode(word, state.xlen()) else {
            return Met { kind: NO_INSTRUCTION, done: false };
        };
        let done = match instr {
            Instr::Atomic(a) if a.op == AtomicOp::Sc => stores(state, memory, number),
            Instr::Atomic(a) if a.op == AtomicOp::Cas => equal(hart, memory, a, state.xlen()),
            _ => false,
        };
        Met { kind: name(instr), done }
    }
}

/// Whether the hart's next step is an SC that stores.
fn stores(state: &State, memory: &Memory, hart: usize) -> bool {
    let mut bytes = memory.bytes.to_vec();
    let outcome = state.clone().perform_step(&mut Memory { base: memory.base, bytes: &mut bytes }, hart);
    matches!(outcome, Outcome::Sc { success: true, .. })
}

/// Whether an AMOCAS of registers of `xlen` bits finds what it compares with.
pub(crate) fn equal(hart: &Hart, memory: &Memory, a: Atomic, xlen: u32) -> bool {
    let addr = hart.x[a.rs1 as usize];
    if !memory.contains(addr, a.width as u64) {
        return false;
    }
    let second = if a.rd == 0 { 0 } else { hart.x[(a.rd as usize + 1) % 32] };
    let pair: Vec<u8> =
        [hart.x[a.rd as usize], second].iter().flat_map(|value| value.to_le_bytes().into_iter().take(xlen as usize / 8)).collect();
    memory.bytes[(addr - memory.base) as usize..].starts_with(&pair[..a.width as usize])
}

/// How many of the counts aren't zero.
fn reached(counts: &[u64]) -> String {
    format!("{} of {}", counts.iter().filter(|&&count| count > 0).count(), counts.len())
}

/// Badly formed rows, by the place of their first wrong byte.
struct Forms {
    by_place: [u64; ROW],
    upper_case: [u64; ROW],
    carriage_return: u64,
    hart: u64,
}

impl Forms {
    fn count(&mut self, row: &[u8; ROW]) {
        let Some(place) = (0..ROW).find(|&n| !fits(FORM[n], row[n])) else {
            self.hart += 1;
            return;
        };
        self.by_place[place] += 1;
        self.upper_case[place] += (FORM[place] == b'h' && matches!(row[place], b'A'..=b'F')) as u64;
        self.carriage_return += (place == ROW - 1 && row[place] == b'\r') as u64;
    }

    fn print(&self) {
        println!("    badly formed rows, by the place of the first wrong byte:");
        for (n, counts) in self.by_place.chunks(12).enumerate() {
            let counts: Vec<String> = counts.iter().map(|count| format!("{count:>6}")).collect();
            println!("      from {:>2} on: {}", 12 * n, counts.join(" "));
        }
        let upper: Vec<u64> = (0..ROW).filter(|&n| FORM[n] == b'h').map(|n| self.upper_case[n]).collect();
        println!("      of these an upper-case digit, at {} places: {}", reached(&upper), upper.iter().sum::<u64>());
        println!("      of these a carriage return in place of the line feed: {}", self.carriage_return);
        println!("      hart not below the count: {}", self.hart);
    }
}

/// Differences in one hex digit alone, by the digit, the highest first.
#[derive(Default)]
struct Digits([u64; 16]);

impl Digits {
    fn count(&mut self, board: u64, model: u64, digits: u32) {
        let differs = board ^ model;
        let (first, last) = (differs.leading_zeros() / 4, differs.trailing_zeros() / 4);
        if first + last == 15 {
            self.0[(first + digits - 16) as usize] += 1;
        }
    }
}

pub struct Reached {
    refusals: &'static [u8],
    answers: BTreeMap<String, u64>,
    /// Stops at the first row, stops at the last one, the greatest number of a row that stopped.
    first: u64,
    last: u64,
    greatest: usize,
    /// Stops by kind of instruction and answer.
    stops: BTreeMap<(&'static str, String), u64>,
    /// Rows that agreed and stops in rd and value, by answer, what was met, and whether its rd is x0.
    retired: BTreeMap<(&'static str, &'static str, bool, bool), u64>,
    forms: Forms,
    pc: Digits,
    word: Digits,
    value: Digits,
    rd_agreed: [u64; 32],
    rd_stopped: [u64; 100],
    /// Traps of accesses, by what a misaligned atomic gives.
    accesses: Stops,
}

impl Reached {
    /// For replays that can be refused by these numbers.
    pub fn new(refusals: &'static [u8]) -> Self {
        Reached {
            refusals,
            answers: BTreeMap::new(),
            first: 0,
            last: 0,
            greatest: 0,
            stops: BTreeMap::new(),
            retired: BTreeMap::new(),
            forms: Forms { by_place: [0; ROW], upper_case: [0; ROW], carriage_return: 0, hart: 0 },
            pc: Digits::default(),
            word: Digits::default(),
            value: Digits::default(),
            rd_agreed: [0; 32],
            rd_stopped: [0; 100],
            accesses: Stops::default(),
        }
    }

    pub fn refused(&mut self, number: u8) {
        *self.answers.entry(format!("refused {number}")).or_default() += 1;
    }

    /// Counts one replay.
    pub fn count(&mut self, state: &State, base: u64, memory: &[u8], log: &[u8]) {
        let (mut state, mut bytes) = (state.clone(), memory.to_vec());
        let memory = &mut Memory { base, bytes: &mut bytes };
        let rows = match state.accepted(memory).and_then(|()| rows_of(log)) {
            Ok(rows) => rows,
            Err(number) => return self.refused(number),
        };
        for (number, bytes) in rows.iter().enumerate() {
            let met = read_row(bytes, state.count).map(|row| (Met::new(&state, memory, row.hart), row));
            match (follow(&mut state, memory, bytes), met) {
                (Ok(_), met) => self.agreed(met.expect("a row that agrees is well formed")),
                (Err(reason), met) => {
                    if let (Reason::Trap(trap), Some((_, row))) = (reason, &met) {
                        self.accesses.count(&state, memory, row.hart, trap);
                    }
                    self.first += (number == 0) as u64;
                    self.last += (number + 1 == rows.len()) as u64;
                    self.greatest = self.greatest.max(number);
                    return self.stopped(reason, met, bytes);
                }
            }
        }
        *self.answers.entry("agreed".into()).or_default() += 1;
    }

    fn agreed(&mut self, (met, row): (Met, Row)) {
        self.rd_agreed[row.rd as usize] += 1;
        *self.retired.entry(("agreed", met.kind, met.done, row.rd == 0)).or_default() += 1;
    }

    fn stopped(&mut self, reason: Reason, met: Option<(Met, Row)>, bytes: &[u8; ROW]) {
        let answer = match reason {
            Reason::Form => "form".into(),
            Reason::Pc { .. } => "pc".into(),
            Reason::Word { .. } => "word".into(),
            Reason::Trap(trap) => format!("trap {}", trap.cause),
            Reason::Rd { .. } => "rd".into(),
            Reason::Value { .. } => "value".into(),
        };
        *self.answers.entry(answer.clone()).or_default() += 1;
        let Some((met, row)) = met else {
            return self.forms.count(bytes);
        };
        *self.stops.entry((met.kind, answer)).or_default() += 1;
        match reason {
            Reason::Pc { board, model } => self.pc.count(board, model, 16),
            Reason::Word { board, model } => self.word.count(board.into(), model.into(), 8),
            Reason::Rd { board, model } => {
                self.rd_stopped[board as usize] += 1;
                *self.retired.entry(("rd", met.kind, met.done, model == 0)).or_default() += 1;
            }
            Reason::Value { board, model } => {
                self.value.count(board, model, 16);
                *self.retired.entry(("value", met.kind, met.done, row.rd == 0)).or_default() += 1;
            }
            Reason::Form | Reason::Trap(_) => {}
        }
    }

    /// The rows that a misaligned atomic stopped under a setting of these.
    pub fn stops_by_misaligned(&self, setting: usize) -> u64 {
        self.accesses.misaligned_atomics(setting)
    }

    /// The rows that agreed, of all replays.
    pub fn rows(&self) -> u64 {
        self.rd_agreed.iter().sum()
    }

    pub fn print(&self) {
        println!("  {} replays, {} rows that agreed, by answer:", self.answers.values().sum::<u64>(), self.rows());
        let refusals = self.refusals.iter().map(|number| format!("refused {number}"));
        let before = ["agreed", "form", "pc", "word"].map(String::from).into_iter();
        for answer in before.chain(traps()).chain(["rd", "value"].map(String::from)).chain(refusals) {
            println!("    {answer}: {}", self.answers.get(&answer).unwrap_or(&0));
        }
        println!("    stops at the first row {}, at the last {}; the greatest row number {}", self.first, self.last, self.greatest);
        self.forms.print();
        for (field, counts) in [("pc", &self.pc.0[..]), ("word", &self.word.0[..8]), ("value", &self.value.0[..])] {
            println!("    {field} differs in one digit alone, by the digit: {counts:?}");
        }
        println!("    rd of rows that agreed: {}; rd of rows that differ in it: {}", reached(&self.rd_agreed), reached(&self.rd_stopped));
        self.print_stops();
        self.print_retired();
        // A case file has the default of all settings but the kind: only a state that is lent says what a misaligned atomic gives.
        self.accesses.print(if self.refusals.contains(&7) { 1 } else { 2 });
    }

    /// A dot stands where nothing can be reached.
    fn print_stops(&self) {
        let columns: Vec<String> = ["pc", "word"].map(String::from).into_iter().chain(traps()).collect();
        print!("    {:<18}", "stops at");
        columns.iter().for_each(|column| print!(" {column:>7}"));
        println!();
        for Kind { name, causes, .. } in &KINDS {
            print!("    {name:<18}");
            for (n, column) in columns.iter().enumerate() {
                let possible = match n {
                    0 => true,
                    1 => *name != OUTSIDE,
                    n => causes.contains(&(n as u8 - 2)),
                };
                print!(" {:>7}", cell(possible, self.stops.get(&(name, column.clone()))));
            }
            println!();
        }
    }

    fn print_retired(&self) {
        println!("    {:<18} {:>9} {:>9} | {:>7} {:>7} | {:>7} {:>7}", "retired", "agreed", "rd x0", "rd", "rd x0", "value", "rd x0");
        for Kind { name, done, has_rd, .. } in &KINDS {
            for (n, what) in done.iter().enumerate() {
                let [agreed, rd, value] = ["agreed", "rd", "value"].map(|answer| {
                    // A word without rd has its one count in the first column.
                    let count = |x0| self.retired.get(&(answer, *name, n == 1, x0));
                    [cell(true, count(!has_rd)), cell(*has_rd, count(true).filter(|_| *has_rd))]
                });
                print!("    {:<18} {:>9} {:>9}", format!("{name} {what}"), agreed[0], agreed[1]);
                println!(" | {:>7} {:>7} | {:>7} {:>7}", rd[0], rd[1], value[0], value[1]);
            }
        }
    }
}

fn traps() -> impl Iterator<Item = String> {
    (0..9).map(|cause| format!("trap {cause}"))
}

/// What can't be reached and wasn't is a dot.
pub(crate) fn cell(possible: bool, count: Option<&u64>) -> String {
    match (possible, count) {
        (_, Some(count)) => count.to_string(),
        (true, None) => "0".into(),
        (false, None) => ".".into(),
    }
}
