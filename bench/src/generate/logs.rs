//! Logs: those that a machine writes, and damaged ones.

use super::words::{
    atomic, b_type, cas_width, for_width, i_type, j_type, r_type, register_mask, s_type, some_width, u_type, word, AMOS, CAS, LR, Q, SC, W,
};
use super::Rng;
use crate::log::{fits, rd_of, step_row, write_row, Row, FORM, PC, RD, ROW, VALUE, WORD};
use crate::machine::{Hart, Memory, Outcome, State};
use std::collections::BTreeSet;

/// A log that `state` and `memory` write, more often than not damaged. Words of `memory` are changed first, so that all kinds of them are
/// stepped and there are rows to write.
pub fn log(rng: &mut Rng, state: &State, base: u64, memory: &mut [u8]) -> Vec<u8> {
    let mut log = if state.accepted(&Memory { base, bytes: memory }).is_ok() {
        let harts = Steps::new(state, base, memory).choose(rng);
        written(rng, state.clone(), base, memory, &harts)
    } else {
        some_rows(rng)
    };
    if rng.percent(65) {
        for _ in 0..1 + rng.below(2) {
            damage(rng, state.count, &mut log);
        }
    }
    log
}

/// Steps of a machine, which are performed as they are chosen.
struct Steps<'a> {
    base: u64,
    state: State,
    bytes: Vec<u8>,
    /// As it is before the first step.
    memory: &'a mut [u8],
    /// Where a step was retired: there the word stays, so that the earlier steps stay what they were.
    stepped: BTreeSet<u64>,
}

impl<'a> Steps<'a> {
    fn new(state: &State, base: u64, memory: &'a mut [u8]) -> Self {
        Steps { base, state: state.clone(), bytes: memory.to_vec(), memory, stepped: BTreeSet::new() }
    }

    /// The harts to step one after another, now and then one of them several times; now and then the last one traps.
    fn choose(mut self, rng: &mut Rng) -> Vec<usize> {
        // The longest have more rows than a program would read at a time.
        let most = match rng.below(100) {
            0..=94 => 40,
            95..=98 => 800,
            _ => 6000,
        };
        let burst = rng.pick(&[0, 50, 80]);
        let mut harts = vec![0; rng.below(most) as usize];
        let mut hart = 0;
        for chosen in &mut harts {
            if !rng.percent(burst) || !self.inside(hart) {
                hart = self.some_hart(rng);
            }
            if rng.percent(40) {
                self.put(rng, hart, fresh_word);
            }
            self.step_and_mend(rng, hart);
            *chosen = hart;
        }
        if rng.percent(30) {
            hart = self.some_hart(rng);
            self.put(rng, hart, trapping_word);
            harts.push(hart);
        }
        harts
    }

    fn inside(&mut self, hart: usize) -> bool {
        Memory { base: self.base, bytes: &mut self.bytes }.contains(self.state.harts[hart].pc, 4)
    }

    /// A hart, most of the time one whose pc is in memory.
    fn some_hart(&mut self, rng: &mut Rng) -> usize {
        let count = self.state.count as u64;
        let mut hart = rng.below(count) as usize;
        for _ in 0..8 {
            if self.inside(hart) {
                break;
            }
            hart = rng.below(count) as usize;
        }
        hart
    }

    /// Puts a word where the hart is, if nobody stepped there.
    fn put(&mut self, rng: &mut Rng, hart: usize, word: fn(&mut Rng, &State, &Hart, &Memory) -> u32) {
        let pc = self.state.harts[hart].pc;
        if !self.inside(hart) || self.stepped.contains(&pc) {
            return;
        }
        let lent = Memory { base: self.base, bytes: &mut self.bytes };
        let new = word(rng, &self.state, &self.state.harts[hart], &lent).to_le_bytes();
        let place = (pc - self.base) as usize;
        self.bytes[place..place + 4].copy_from_slice(&new);
        self.memory[place..place + 4].copy_from_slice(&new);
    }

    /// Steps a hart; if it traps, mostly tries with other words.
    fn step_and_mend(&mut self, rng: &mut Rng, hart: usize) {
        let pc = self.state.harts[hart].pc;
        for _ in 0..4 {
            let mut lent = Memory { base: self.base, bytes: &mut self.bytes };
            if !matches!(self.state.perform_step(&mut lent, hart), Outcome::Trap(_)) {
                self.stepped.insert(pc);
                return;
            }
            if rng.percent(10) {
                return;
            }
            self.put(rng, hart, fresh_word);
        }
    }
}

/// A register that `wanted` accepts, if one is found.
fn register(rng: &mut Rng, hart: &Hart, wanted: impl Fn(u64) -> bool) -> u32 {
    let mut last = 0;
    for _ in 0..40 {
        last = rng.reg();
        if wanted(hart.x[last as usize]) {
            break;
        }
    }
    last
}

/// A word of any kind that mostly retires; x0 is its rd more often than by chance.
fn fresh_word(rng: &mut Rng, state: &State, hart: &Hart, memory: &Memory) -> u32 {
    for_width(rng, state.xlen(), |rng| any_fresh_word(rng, state, hart, memory))
}

fn any_fresh_word(rng: &mut Rng, state: &State, hart: &Hart, memory: &Memory) -> u32 {
    let xlen = state.xlen();
    let address = register(rng, hart, |x| x.is_multiple_of(16) && memory.contains(x, 16));
    let (rd, rs1, rs2) = (if rng.percent(30) { 0 } else { rng.reg() }, rng.reg(), rng.reg());
    let (width, order) = (some_width(rng, xlen), rng.reg() & 3);
    match rng.below(16) {
        0 => u_type(rng.pick(&[0x37, 0x17]), rd, rng.next() as u32 >> 12),
        1 => j_type(rd, rng.pick(&[4, 8, 12, -4, -16])),
        2 => i_type(0x67, 0, rd, address, 4 * rng.below(8) as i64),
        3 => r_type(rng.pick(&[0x33, 0x3B]), 0, rng.pick(&[0, 0x20]), rd, rs1, rs2),
        4 => i_type(rng.pick(&[0x13, 0x1B]), 0, rd, rs1, rng.below(4096) as i64),
        5 => i_type(0x03, rng.below(7) as u32, rd, address, 0),
        6 => atomic(LR, width, order, rd, address, 0),
        7 | 8 => {
            // Where the reservation is, if a register points there.
            let reserved = |x| hart.reservation.is_some_and(|r| state.in_one_set(r.addr, x));
            let near = register(rng, hart, |x| reserved(x) && x.is_multiple_of(4));
            atomic(SC, width, order, rd, near, rs2)
        }
        9 => atomic(rng.pick(&AMOS), width, order, rd, address, rs2),
        10 | 11 => compare_and_swap(rng, xlen, hart, memory, address),
        12 => (rng.next() as u32 & !0x707F) | 0x0F,
        _ => word(rng, xlen, address),
    }
}

/// AMOCAS, of a register that holds what it compares with if one is found.
fn compare_and_swap(rng: &mut Rng, xlen: u32, hart: &Hart, memory: &Memory, address: u32) -> u32 {
    let (width, order) = (cas_width(rng, xlen), rng.reg() & 3);
    let even = register_mask(width, xlen);
    let rs2 = if rng.percent(20) { 0 } else { rng.reg() & even };
    let old = |x: u64| memory.contains(x, 16).then(|| &memory.bytes[(x - memory.base) as usize..][..16]);
    if rng.percent(40) {
        // x0, mostly where there are zeros.
        let zeros = register(rng, hart, |x| x.is_multiple_of(16) && old(x) == Some(&[0; 16]));
        return atomic(CAS, width, order, 0, rng.pick(&[zeros, zeros, address]), rs2);
    }
    let compared = if width == W { 4 } else { xlen as usize / 8 };
    let holds = |x: u64| old(hart.x[address as usize]).is_some_and(|old| old[..compared] == x.to_le_bytes()[..compared]);
    let rd = if rng.percent(60) { register(rng, hart, holds) } else { rng.reg() };
    atomic(CAS, width, order, rd & even, address, rs2)
}

/// A word that mostly traps.
fn trapping_word(rng: &mut Rng, state: &State, hart: &Hart, memory: &Memory) -> u32 {
    let xlen = state.xlen();
    let (misaligned, unit) = (rng.percent(50), rng.pick(&[4, 4, 8, 16]));
    let bad = register(rng, hart, |x| if misaligned { !x.is_multiple_of(unit) } else { x.is_multiple_of(16) && !memory.contains(x, 16) });
    let (rd, rs2) = (if rng.percent(20) { 0 } else { rng.reg() }, rng.reg());
    let width = some_width(rng, xlen);
    match rng.below(16) {
        0 | 14 => 0x0000_0073,
        1 | 15 => 0x0010_0073,
        2 => rng.pick(&[0, u32::MAX, 0x0000_100F, 0x3020_0073, atomic(LR, W, 0, rd, bad, 1), atomic(CAS, Q, 0, 5, bad, 6)]),
        3 => j_type(rd, rng.pick(&[2, -2, 6])),
        4 => i_type(0x67, 0, rd, register(rng, hart, |x| x.is_multiple_of(4)), 2),
        5 => b_type(rng.pick(&[0, 5, 7]), rs2, rs2, 6),
        6 => i_type(0x03, rng.pick(&[1, 2, 3, 5, 6]), rd, bad, 0),
        7 => s_type(rng.pick(&[1, 2, 3]), bad, rs2, 0),
        8 => atomic(LR, width, 0, rd, bad, 0),
        9 => atomic(SC, width, 0, rd, bad, rs2),
        10 => atomic(rng.pick(&AMOS), width, 0, rd, bad, rs2),
        _ => atomic(CAS, cas_width(rng, xlen), 0, rd & !1, bad, rs2 & !1),
    }
}

/// The rows of the harts' steps. A step that traps is mostly left out, unless it is the last, else it has a row that can only stop.
fn written(rng: &mut Rng, mut state: State, base: u64, memory: &[u8], harts: &[usize]) -> Vec<u8> {
    let mut bytes = memory.to_vec();
    let lent = &mut Memory { base, bytes: &mut bytes };
    let mut log = Vec::new();
    for (n, &hart) in harts.iter().enumerate() {
        let pc = state.harts[hart].pc;
        let word = lent.word(pc);
        match step_row(&mut state, lent, hart) {
            Ok(row) => log.extend(write_row(&row)),
            Err(_) if n + 1 < harts.len() && rng.percent(95) => {}
            Err(_) => {
                let word = word.unwrap_or(rng.next() as u32);
                log.extend(write_row(&Row { hart, pc, word, rd: rd_of(word, state.xlen()), value: rng.pick(&[0, pc]) }));
            }
        }
    }
    log
}

fn some_rows(rng: &mut Rng) -> Vec<u8> {
    let mut row = || Row { hart: rng.below(8) as usize, pc: rng.value(), word: rng.next() as u32, rd: rng.reg() as u8, value: rng.value() };
    (0..2).flat_map(|_| write_row(&row())).collect()
}

/// Something wrong with a log, or something changed that may be right by luck.
fn damage(rng: &mut Rng, count: usize, log: &mut Vec<u8>) {
    let rows = (log.len() / ROW) as u64;
    if rows == 0 || rng.percent(12) {
        return damage_length(rng, log);
    }
    let row = some_row(rng, log, rows);
    if rng.percent(8) {
        return damage_order(rng, row, log);
    }
    // Several faults in one row try the order of the reasons.
    for _ in 0..rng.pick(&[1, 1, 1, 2, 3]) {
        let bytes = &mut log[row * ROW..][..ROW];
        if rng.percent(70) {
            damage_field(rng, count, bytes);
        } else {
            damage_form(rng, count, bytes);
        }
    }
}

/// A row to damage. The later it is, the more has been performed; an atomic is looked for, as it does more than others.
fn some_row(rng: &mut Rng, log: &[u8], rows: u64) -> usize {
    let mut row = 0;
    for _ in 0..1 + rng.below(4) {
        row = if rng.percent(50) { rng.below(rows) } else { rows - 1 - rng.below(rows.min(3)) } as usize;
        // The low bits of the word.
        if matches!(&log[row * ROW..][WORD][6..], b"2f" | b"af") {
            break;
        }
    }
    row
}

/// Another row of good form.
fn damage_field(rng: &mut Rng, count: usize, row: &mut [u8]) {
    match rng.below(12) {
        0 => row[0] = b'0' + rng.below(count.clamp(1, 8) as u64) as u8,
        1 | 2 => other_digit(rng, &mut row[PC]),
        3 | 4 => other_digit(rng, &mut row[WORD]),
        5 => row[RD].copy_from_slice(format!("{:02}", rng.below(32)).as_bytes()),
        6 => row[RD].copy_from_slice(format!("{:02}", rng.below(100)).as_bytes()),
        7..=9 => other_digit(rng, &mut row[VALUE]),
        10 => row[VALUE].copy_from_slice(format!("{:016x}", rng.value()).as_bytes()),
        // What an SC could have given.
        _ => row[VALUE].copy_from_slice(rng.pick(&[b"0000000000000000", b"0000000000000001"])),
    }
}

fn other_digit(rng: &mut Rng, digits: &mut [u8]) {
    let place = rng.below(digits.len() as u64) as usize;
    digits[place] = rng.pick(b"0123456789abcdef");
}

/// A row of bad form, unless the hart's digit is below the count.
fn damage_form(rng: &mut Rng, count: usize, row: &mut [u8]) {
    let place = rng.below(ROW as u64) as usize;
    match rng.below(8) {
        0 => row[0] = b'0' + (count.min(9) as u64 + rng.below(10 - count.min(9) as u64)) as u8,
        1 => row[0] = rng.pick(b"/: a-+\n"),
        2 => row[rng.pick(&[1, 18, 27, 30])] = rng.pick(b"\t0,_\n\r\0\xA0"),
        3 => row[ROW - 1] = rng.pick(b"\r 0\0\x0B\x85"),
        4 if FORM[place] == b'h' => row[place] = rng.pick(b"ABCDEF"),
        4 => row.make_ascii_uppercase(),
        // One of the bytes about digits and letters, one that differs in a bit, any.
        5 => misfit(rng, row, place, |rng, _| rng.pick(b"/:@G`g \n\rxX+-.,\0\x7F\xFF")),
        6 => misfit(rng, row, place, |rng, byte| byte ^ 1 << rng.below(8)),
        _ => misfit(rng, row, place, |rng, _| rng.next() as u8),
    }
}

/// Puts a byte that may not stand at `place` there; `byte` makes one of the byte that does.
fn misfit(rng: &mut Rng, row: &mut [u8], place: usize, byte: impl Fn(&mut Rng, u8) -> u8) {
    loop {
        let new = byte(rng, row[place]);
        if !fits(FORM[place], new) {
            row[place] = new;
            break;
        }
    }
}

/// Rows left out, given twice or in another order.
fn damage_order(rng: &mut Rng, row: usize, log: &mut Vec<u8>) {
    let bytes: Vec<u8> = log[row * ROW..][..ROW].to_vec();
    match rng.below(3) {
        0 => drop(log.drain(row * ROW..(row + 1) * ROW)),
        1 => drop(log.splice(row * ROW..row * ROW, bytes)),
        _ => {
            log.drain(row * ROW..(row + 1) * ROW);
            log.splice(..0, bytes);
        }
    }
}

/// A log of another length, or rows that don't start where they should.
fn damage_length(rng: &mut Rng, log: &mut Vec<u8>) {
    match rng.below(8) {
        0 => log.clear(),
        1 => log.truncate(rng.below(log.len() as u64 + 1) as usize),
        2 => log.truncate(log.len() / ROW / 2 * ROW),
        3 => log.extend(vec![b'\n'; 1 + rng.below(2 * ROW as u64) as usize]),
        4 => log.extend(vec![b'0'; ROW]),
        5 => line_ends_of_two_bytes(rng, log),
        n => {
            // A byte lost or too many, and the length made good at the end.
            let place = rng.below(log.len() as u64 + 1) as usize;
            if n == 6 {
                log.insert(place, rng.pick(b" \n\r0a"));
            } else if place < log.len() {
                log.remove(place);
            }
            let rows = log.len().div_ceil(ROW);
            log.resize(rows * ROW, b'\n');
        }
    }
}

/// CR LF for LF; mostly cut so that the length is right.
fn line_ends_of_two_bytes(rng: &mut Rng, log: &mut Vec<u8>) {
    *log = log.chunks(ROW).flat_map(|row| row.strip_suffix(b"\n").map_or(row.to_vec(), |text| [text, b"\r\n"].concat())).collect();
    if rng.percent(70) {
        log.truncate(log.len() / ROW * ROW);
    }
}
