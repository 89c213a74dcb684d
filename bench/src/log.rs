//! Step logs: their rows, the replay of a log, and the lines of the program `replay`.
//!
//! Written from request 1 of document 02, which is quoted beside each rule, and from the readings of it. In short:
//!
//! - a log is rows of 48 bytes, each a step of one hart. Replayed from a machine, the rows are taken one after another: a row that
//!   agrees has its step performed, the first that doesn't is the stop and changes nothing;
//! - a row is tried for its form, hart included; then its pc against the hart's; its word against the one at that pc, if that is wholly
//!   in memory; whether the step traps; its rd and its value against those that the step leaves;
//! - refusals 1 and 2, or 7 to 11 of a case file, come first; then 12, then 13.

use crate::case::{read_case, Refusal};
use crate::machine::{Memory, Outcome, State, Trap, Watch};
use crate::word::{decode, Instr};
use std::ops::Range;

/// "one row of 48 bytes".
pub const ROW: usize = 48;

/// "hart (one digit), pc (16 lower-case hex digits), word (8), rd (two decimal digits), the value in rd afterwards (16), one space between,
/// line feed last". Here d is a decimal digit and h a lower-case hex digit; all else stands for itself.
pub const FORM: [u8; ROW] = *b"d hhhhhhhhhhhhhhhh hhhhhhhh dd hhhhhhhhhhhhhhhh\n";
pub const PC: Range<usize> = 2..18;
pub const WORD: Range<usize> = 19..27;
pub const RD: Range<usize> = 28..30;
pub const VALUE: Range<usize> = 31..47;

#[derive(Clone, Copy, PartialEq, Eq, Debug)]
pub struct Row {
    pub hart: usize,
    pub pc: u64,
    pub word: u32,
    pub rd: u8,
    pub value: u64,
}

/// "the reason: the field and both values for a difference, cause and value for a trap, nothing more for bad form".
#[derive(Clone, Copy, PartialEq, Eq, Debug)]
pub enum Reason {
    Form,
    Pc { board: u64, model: u64 },
    Word { board: u32, model: u32 },
    Trap(Trap),
    Rd { board: u8, model: u8 },
    Value { board: u64, model: u64 },
}

impl From<Trap> for Reason {
    fn from(trap: Trap) -> Self {
        Reason::Trap(trap)
    }
}

/// `rows`: "The count is the number of rows before the stop"; so it is the number, from 0, of the row that stopped. Without a stop "all
/// rows agreed".
#[derive(Clone, Copy, PartialEq, Eq, Debug)]
pub struct Replayed {
    pub rows: usize,
    pub stop: Option<Reason>,
}

/// Whether a byte may stand where FORM has `form`.
#[inline]
pub fn fits(form: u8, byte: u8) -> bool {
    match form {
        b'd' => byte.is_ascii_digit(),
        b'h' => matches!(byte, b'0'..=b'9' | b'a'..=b'f'),
        itself => byte == itself,
    }
}

/// The number of 8 hex digits: each byte of a u64 is one of them, and all are taken at once.
#[inline]
fn eight_digits(digits: &[u8]) -> u32 {
    const EACH: u64 = 0x0101_0101_0101_0101;
    let text = u64::from_be_bytes(digits.try_into().unwrap());
    // Of all digits only letters have bit 6; a is 0x61 and stands for 10.
    let nibbles = (text & (15 * EACH)) + 9 * ((text >> 6) & EACH);
    let pairs = (nibbles | nibbles >> 4) & 0x00FF_00FF_00FF_00FF;
    let fours = (pairs | pairs >> 8) & 0x0000_FFFF_0000_FFFF;
    (fours | fours >> 16) as u32
}

#[inline]
fn sixteen_digits(digits: &[u8]) -> u64 {
    (eight_digits(&digits[..8]) as u64) << 32 | eight_digits(&digits[8..]) as u64
}

/// A row for `count` harts; None is "badly formed (a hart not below the count included)".
#[inline]
pub fn read_row(bytes: &[u8; ROW], count: usize) -> Option<Row> {
    // It looks at all bytes, whatever it finds: the compiler takes 16 at once then.
    let well_formed = FORM.iter().zip(bytes).fold(true, |so_far, (&form, &byte)| so_far & fits(form, byte));
    let hart = bytes[0].wrapping_sub(b'0') as usize;
    if !well_formed || hart >= count {
        return None;
    }
    Some(Row {
        hart,
        pc: sixteen_digits(&bytes[PC]),
        word: eight_digits(&bytes[WORD]),
        rd: 10 * (bytes[28] - b'0') + (bytes[29] - b'0'),
        value: sixteen_digits(&bytes[VALUE]),
    })
}

/// A row as a board writes it: the hart has one digit, rd at most two.
pub fn write_row(row: &Row) -> [u8; ROW] {
    let text = format!("{} {:016x} {:08x} {:02} {:016x}\n", row.hart, row.pc, row.word, row.rd, row.value);
    text.as_bytes().try_into().expect("a row that fits")
}

/// "rd is 00 .. where the word has no rd, as FENCE": nor has a branch, a store, a word that is no instruction, ECALL or EBREAK. Of a pair
/// it is the first, as "The second register of a pair isn't in the row".
pub fn rd_of(word: u32, xlen: u32) -> u8 {
    match decode(word, xlen) {
        Some(
            Instr::Lui { rd, .. }
            | Instr::Auipc { rd, .. }
            | Instr::Jal { rd, .. }
            | Instr::Jalr { rd, .. }
            | Instr::Load { rd, .. }
            | Instr::OpImm { rd, .. }
            | Instr::Op { rd, .. }
            | Instr::OpImm32 { rd, .. }
            | Instr::Op32 { rd, .. },
        ) => rd,
        Some(Instr::Atomic(atomic)) => atomic.rd,
        Some(Instr::Branch { .. } | Instr::Store { .. } | Instr::Fence | Instr::Ecall | Instr::Ebreak) | None => 0,
    }
}

/// Steps a hart below the count and gives the row that a board logs of it; a step that traps has none.
///
/// rd and "the value in rd afterwards" are read off the word and the registers here, so that a log of this machine also tries what
/// `Watch` was told.
pub fn step_row(state: &mut State, memory: &mut Memory, hart: usize) -> Result<Row, Trap> {
    let pc = state.harts[hart].pc;
    let word = memory.word(pc);
    if let Outcome::Trap(trap) = state.perform_step(memory, hart) {
        return Err(trap);
    }
    let word = word.expect("else the step traps");
    let rd = rd_of(word, state.xlen());
    Ok(Row { hart, pc, word, rd, value: state.harts[hart].x[rd as usize] })
}

/// A row looks on at its own step. It differs, or the step traps, before anything has changed: so nothing has to be undone.
impl Watch for Row {
    type Stop = Reason;

    /// "differs from the model in .. (if it can be fetched) word".
    #[inline]
    fn fetched(&mut self, word: u32) -> Result<(), Reason> {
        if self.word != word {
            return Err(Reason::Word { board: self.word, model: word });
        }
        Ok(())
    }

    /// "or differs in rd or value", after "traps".
    #[inline]
    fn retires(&mut self, rd: u8, value: u64) -> Result<(), Reason> {
        if self.rd != rd {
            return Err(Reason::Rd { board: self.rd, model: rd });
        }
        // What rd holds afterwards isn't what was put there, if it is x0.
        let held = if rd == 0 { 0 } else { value };
        if self.value != held {
            return Err(Reason::Value { board: self.value, model: held });
        }
        Ok(())
    }
}

/// A row's step, performed if the row agrees with it; else nothing changes.
#[inline]
pub fn follow(state: &mut State, memory: &mut Memory, bytes: &[u8; ROW]) -> Result<Outcome, Reason> {
    let mut row = read_row(bytes, state.count).ok_or(Reason::Form)?;
    let model = state.harts[row.hart].pc;
    if row.pc != model {
        return Err(Reason::Pc { board: row.pc, model });
    }
    state.watched_step(memory, row.hart, &mut row)
}

/// The rows of a log: "Refusals: 12, log length not a multiple of 48 ..; 13, a log of no rows, after 12".
pub fn rows_of(log: &[u8]) -> Result<&[[u8; ROW]], u8> {
    match log.as_chunks() {
        (_, [_, ..]) => Err(12),
        ([], []) => Err(13),
        (rows, []) => Ok(rows),
    }
}

/// "Stop at the first row that ..". "the state and memory are the ones after exactly" the rows before the stop. Err is the number of a
/// refusal.
pub fn replay(state: &mut State, memory: &mut Memory, log: &[u8]) -> Result<Replayed, u8> {
    state.accepted(memory)?;
    let rows = rows_of(log)?;
    for (number, row) in rows.iter().enumerate() {
        if let Err(reason) = follow(state, memory, row) {
            return Ok(Replayed { rows: number, stop: Some(reason) });
        }
    }
    Ok(Replayed { rows: rows.len(), stop: None })
}

/// All that the program `replay` writes for a case file and a log: "Please replay a log from a case's harts and memory". The case's events
/// are checked, as 12 comes "after 11", and not performed.
pub fn replay_report(file: &[u8], log: &[u8]) -> String {
    match replay_case(file, log) {
        Ok(replayed) => lines(log.len() / ROW, replayed),
        Err(Refusal { number, place }) => format!("refused {number} {place}\n"),
    }
}

fn replay_case(file: &[u8], log: &[u8]) -> Result<Replayed, Refusal> {
    let mut case = read_case(file)?;
    let mut bytes = case.memory.to_vec();
    let mut memory = Memory { base: case.base, bytes: &mut bytes };
    // 12 and 13 have place 0.
    replay(&mut case.state, &mut memory, log).map_err(|number| Refusal { number, place: 0 })
}

/// pc, value and a trap's value have 16 hex digits, a word 8, rd two decimal digits; all else is decimal.
fn lines(rows: usize, Replayed { rows: count, stop }: Replayed) -> String {
    let answer = match stop {
        None => format!("agreed {count}"),
        Some(Reason::Form) => format!("row {count} form"),
        Some(Reason::Pc { board, model }) => format!("row {count} pc {board:016x} {model:016x}"),
        Some(Reason::Word { board, model }) => format!("row {count} word {board:08x} {model:08x}"),
        Some(Reason::Trap(Trap { cause, value })) => format!("row {count} trap {cause} {value:016x}"),
        Some(Reason::Rd { board, model }) => format!("row {count} rd {board:02} {model:02}"),
        Some(Reason::Value { board, model }) => format!("row {count} value {board:016x} {model:016x}"),
    };
    format!("log {rows} rows\n{answer}\nend {count}\n")
}

#[cfg(test)]
mod tests {
    use super::*;
    use crate::machine::Reservation;

    const ROW_0: &[u8; ROW] = b"7 0123456789abcdef fedcba98 31 00000000deadbeef\n";

    /// Every byte at every place.
    #[test]
    fn form() {
        assert_eq!(read_row(ROW_0, 8), Some(Row { hart: 7, pc: 0x0123_4567_89AB_CDEF, word: 0xFEDC_BA98, rd: 31, value: 0xDEAD_BEEF }));
        assert_eq!(read_row(ROW_0, 7), None);
        for place in 0..ROW {
            for byte in 0..=255 {
                let mut row = *ROW_0;
                row[place] = byte;
                let read = read_row(&row, 10);
                assert_eq!(read.is_some(), fits(FORM[place], byte), "{byte:02x} at {place}");
                assert!(read.is_none_or(|read| write_row(&read) == row), "{byte:02x} at {place}");
            }
        }
    }

    /// Two harts at 0 with x5 = 64 and 128 bytes of memory, which has the two words of document 01's example.
    fn example() -> (State, Vec<u8>) {
        let mut state = State { count: 2, ..State::default() };
        state.harts[0].x[5] = 64;
        state.harts[1].x[5] = 64;
        let mut memory = vec![0; 128];
        memory[..8].copy_from_slice(&[0x2F, 0xA3, 0x02, 0x10, 0xAF, 0xA3, 0x82, 0x18]);
        (state, memory)
    }

    const EXAMPLE: &str = "0 0000000000000000 1002a32f 06 0000000000000000
1 0000000000000000 1002a32f 06 0000000000000000
1 0000000000000004 1882a3af 07 0000000000000000
0 0000000000000004 1882a3af 07 0000000000000001
";

    fn replayed(log: &str) -> (Result<Replayed, u8>, State, Vec<u8>) {
        let (mut state, mut bytes) = example();
        let answer = replay(&mut state, &mut Memory { base: 0, bytes: &mut bytes }, log.as_bytes());
        (answer, state, bytes)
    }

    #[test]
    fn agreed_and_refused() {
        assert_eq!(replayed(EXAMPLE).0, Ok(Replayed { rows: 4, stop: None }));
        assert_eq!(replayed("").0, Err(13));
        assert_eq!(replayed(&EXAMPLE[..47]).0, Err(12));
    }

    /// Each fault of the last row but one, with the later ones beside it. The state stays that after two rows.
    #[test]
    fn order_of_reasons() {
        let stop = |row: &str| {
            let (answer, state, memory) = replayed(&format!("{}{row}\n{}", &EXAMPLE[..96], &EXAMPLE[144..]));
            let replayed = answer.unwrap();
            assert_eq!(replayed.rows, 2);
            assert_eq!(state.harts[1].reservation, Some(Reservation { addr: 64, width: 4 }));
            assert_eq!((state.harts[1].pc, state.harts[0].reservation), (4, Some(Reservation { addr: 64, width: 4 })));
            assert_eq!(memory, example().1);
            replayed.stop.unwrap()
        };
        assert_eq!(stop("2 0000000000000004 1882a3af 07 0000000000000000"), Reason::Form);
        assert_eq!(stop("1 0000000000000008 1882a3ae 08 000000000000000A"), Reason::Form);
        assert_eq!(stop("1 0000000000000008 1882a3ae 08 0000000000000001"), Reason::Pc { board: 8, model: 4 });
        assert_eq!(stop("1 0000000000000004 1882a3ae 08 0000000000000001"), Reason::Word { board: 0x1882_A3AE, model: 0x1882_A3AF });
        assert_eq!(stop("1 0000000000000004 1882a3af 99 0000000000000001"), Reason::Rd { board: 99, model: 7 });
        assert_eq!(stop("1 0000000000000004 1882a3af 07 0000000000000001"), Reason::Value { board: 1, model: 0 });
    }

    #[test]
    fn traps() {
        let log = format!("{EXAMPLE}0 0000000000000008 00000000 99 0000000000000001\n");
        assert_eq!(replayed(&log).0, Ok(Replayed { rows: 4, stop: Some(Reason::Trap(Trap { cause: 2, value: 0 })) }));
        let (mut state, mut bytes) = example();
        state.harts[0].pc = 128;
        let answer = replay(&mut state, &mut Memory { base: 0, bytes: &mut bytes }, b"0 0000000000000080 12345678 00 0000000000000000\n");
        assert_eq!(answer, Ok(Replayed { rows: 0, stop: Some(Reason::Trap(Trap { cause: 1, value: 128 })) }));
    }
}
