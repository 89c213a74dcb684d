//! The library's functions over a state and a memory that the caller keeps, over a case file and over a block of words.

use crate::raw::*;
use crate::{
    Answer, Cause, Event, Harts, Outcome, Reason, Refusal, RefusedAt, Replayed, State, Stop, Trap, Verdict, A_2_1,
    KIND_64, STATE_SIZE,
};

/// The room that a report needs, in bytes.
pub const REPORT_ROOM: usize = 262_144;

/// The bytes of a row of a log.
pub const ROW_SIZE: usize = 48;

pub(crate) const BAD_SIZE: u64 = u64::MAX;
const TRAP: u64 = 256;
pub(crate) const REFUSED: u64 = 512;

/// The sizes are right by type. So the library is of another version, in which a state has another size.
pub(crate) fn bad_size() -> ! {
    panic!("libcapi.a takes no state of {STATE_SIZE} bytes: it is of another version; run `tools/build capi`")
}

/// A library of another version may take other arguments, which a function without a state doesn't tell: this asks by one that
/// has a state. The memory of no bytes is refused, so that nothing is done.
fn ask_for_its_version() {
    let (mut state, mut value) = (State::new(1), [0; 8]);
    // SAFETY: the pointers come from a state of this size and from slices of these lengths; none overlap.
    let r = unsafe {
        floecavern_yield(state.pointer(), STATE_SIZE, 0, [].as_mut_ptr(), 0, 0, value.as_mut_ptr(), value.len())
    };
    if r == BAD_SIZE {
        bad_size()
    }
}

pub(crate) fn refusal(number: u64) -> Refusal {
    Refusal::of(number).expect("refusals are 1 to 13 and 21 to 23")
}

/// All that the program `floecavern` writes for the bytes of a case file, whatever they are: of a file that is no case,
/// its one line `refused NUMBER PLACE`.
#[must_use]
pub fn report_text(file: &[u8]) -> String {
    let mut out = vec![0; REPORT_ROOM];
    // SAFETY: both pointers come from slices of these lengths that do not overlap.
    let n = unsafe { floecavern_report(file.as_ptr(), file.len(), out.as_mut_ptr(), out.len()) };
    out.truncate(n as usize);
    out.shrink_to_fit();
    String::from_utf8(out).expect("lines are ASCII")
}

/// The lines of a case file, or its refusal, 7 to 11.
///
/// ```
/// use floecavern::{report, Refusal, RefusedAt};
/// assert_eq!(report(&[0; 40]), Err(RefusedAt { refusal: Refusal::Table, place: 0 }));
/// let lines = report(include_bytes!("../../crates/floecavern/stdin"))?;
/// assert!(lines.starts_with("case 2 harts 128 bytes 5 events\n0 h0 ok\n"));
/// # Ok::<(), RefusedAt>(())
/// ```
pub fn report(file: &[u8]) -> Result<String, RefusedAt> {
    let text = report_text(file);
    let Some(numbers) = text.strip_prefix("refused ") else {
        return Ok(text);
    };
    let (number, place) = numbers.trim_end().split_once(' ').expect("a number and a place");
    let number = number.parse().expect("a decimal number");
    Err(RefusedAt { refusal: refusal(number), place: place.parse().expect("a decimal number") })
}

/// Whether a block of instruction words is a retry loop that is accepted under A 2.1, read as the 64-bit core reads them.
/// Refused by 6 if it has fewer than 2 or more than 16 words.
///
/// ```
/// use floecavern::{check_loop, Reason, Refusal, Verdict};
/// let block = [0x1002_a32f, 0x0003_1663, 0x1882_a3af, 0xfe03_9ae3];
/// assert_eq!(check_loop(&block), Ok(Verdict::Accepted));
/// assert_eq!(check_loop(&block[..2]), Ok(Verdict::Rejected { place: 2, reason: Reason::NoSc }));
/// assert_eq!(check_loop(&[]), Err(Refusal::Block));
/// ```
pub fn check_loop(words: &[u32]) -> Result<Verdict, Refusal> {
    check_loop_for(A_2_1, KIND_64, words)
}

/// The same under a version of A, and read as a kind of core reads them. Under [`A_2_0`](crate::A_2_0) a later word may be a
/// JALR too. As [`KIND_32`](crate::KIND_32) the words are those of RV32I, LR.W and SC.W. Refused by 2 if the version or the
/// kind is neither of the two, and then by 6. That an accepted loop finishes if it is left alone is claimed of the blocks that
/// are accepted under [`A_2_1`], on a machine of the kind that they were read as: of each kind these are exactly those that
/// are accepted under 2.0 and have no JALR. A later version of this crate may add arguments to this function.
///
/// ```
/// use floecavern::{check_loop_for, Reason, Refusal, Verdict, A_2_0, A_2_1, KIND_32, KIND_64};
/// // lr.w x6,(x5); jalr x0,0(x1); sc.w x7,x8,(x5)
/// let block = [0x1002_a32f, 0x0000_8067, 0x1882_a3af];
/// let rejected = |place, reason| Ok(Verdict::Rejected { place, reason });
/// assert_eq!(check_loop_for(A_2_0, KIND_64, &block), Ok(Verdict::Accepted));
/// assert_eq!(check_loop_for(A_2_1, KIND_64, &block), rejected(1, Reason::NotPermitted));
/// assert_eq!(check_loop_for(22, KIND_64, &block), Err(Refusal::State));
/// // lr.d x6,(x5); sc.d x7,x8,(x5)
/// let block = [0x1002_b32f, 0x1882_b3af];
/// assert_eq!(check_loop_for(A_2_1, KIND_64, &block), Ok(Verdict::Accepted));
/// assert_eq!(check_loop_for(A_2_1, KIND_32, &block), rejected(0, Reason::NoLr));
/// assert_eq!(check_loop_for(A_2_1, 32, &block), Err(Refusal::State));
/// ```
///
/// # Panics
///
/// If the library is of another version, as every other call but a report.
pub fn check_loop_for(version: u64, kind: u64, words: &[u32]) -> Result<Verdict, Refusal> {
    ask_for_its_version();
    // A block of 17 or more words is refused whatever the words are, so that 17 of them say it.
    let bytes: Vec<u8> = words.iter().take(17).flat_map(|w| w.to_le_bytes()).collect();
    // SAFETY: the pointer comes from a slice of this length.
    match unsafe { floecavern_check_loop_for(version, kind, bytes.as_ptr(), bytes.len()) } {
        0 => Ok(Verdict::Accepted),
        2 => Err(Refusal::State),
        6 => Err(Refusal::Block),
        BAD_SIZE => unreachable!("the length is a multiple of 4"),
        r => {
            let reason = Reason::of(r % 256).expect("reasons are 1 to 6");
            Ok(Verdict::Rejected { place: (r / 256 - 1) as usize, reason })
        }
    }
}

/// The answer of a call that lends `value`, 8 bytes, which get the harts whose reservation a retired event broke, or a
/// trap's value.
fn answer(call: impl FnOnce(*mut u8, usize) -> u64) -> Result<Answer, Refusal> {
    let mut bytes = [0; 8];
    let r = call(bytes.as_mut_ptr(), bytes.len());
    let value = u64::from_le_bytes(bytes);
    let retired = |outcome| {
        let broke = Harts::from_bits(u8::try_from(value).expect("harts are 0 to 7"));
        Ok(Answer { outcome, broke })
    };
    match r {
        0 => retired(Outcome::Retired),
        1 => retired(Outcome::ScStored),
        2 => retired(Outcome::ScFailed),
        BAD_SIZE => bad_size(),
        r if r < REFUSED => {
            let cause = Cause::of(r - TRAP).expect("causes are 0 to 8");
            Ok(Outcome::Trap(Trap { cause, value }).into())
        }
        r => Err(refusal(r - REFUSED)),
    }
}

/// A step of a hart on the memory at `base`: fetches the word at its pc and performs it. Refusals 1 to 3.
pub fn step(state: &mut State, base: u64, mem: &mut [u8], hart: usize) -> Result<Answer, Refusal> {
    // SAFETY: the pointers come from a state of this size and from slices of these lengths; none overlap. Any bytes that
    // are written are a state, since all its fields are numbers.
    answer(|value, len| unsafe {
        floecavern_step(state.pointer(), STATE_SIZE, base, mem.as_mut_ptr(), mem.len(), hart, value, len)
    })
}

/// A device writes the `size` lowest bytes of `data` at `addr`, the lowest first. Under A 2.0 it breaks no reservation.
/// Refusals 1, 2, 4 and 5.
pub fn device_write(
    state: &mut State,
    base: u64,
    mem: &mut [u8],
    addr: u64,
    size: usize,
    data: u64,
) -> Result<Answer, Refusal> {
    let (mem, mem_len) = (mem.as_mut_ptr(), mem.len());
    // SAFETY: as in `step`.
    answer(|value, len| unsafe {
        floecavern_device_write(state.pointer(), STATE_SIZE, base, mem, mem_len, addr, size, data, value, len)
    })
}

/// A yield: drops a hart's reservation. Refusals 1 to 3.
pub fn yield_hart(state: &mut State, base: u64, mem: &mut [u8], hart: usize) -> Result<Answer, Refusal> {
    // SAFETY: as in `step`.
    answer(|value, len| unsafe {
        floecavern_yield(state.pointer(), STATE_SIZE, base, mem.as_mut_ptr(), mem.len(), hart, value, len)
    })
}

/// A run of the first `budget` events, or of all if there are fewer: how many that were. Traps don't stop it. Whose
/// reservation they broke isn't told. Refusals 1, 2 and 11.
pub fn run(state: &mut State, base: u64, mem: &mut [u8], events: &[Event], budget: usize) -> Result<usize, RefusedAt> {
    let bytes: Vec<u8> = events.iter().flat_map(|e| e.to_bytes()).collect();
    run_bytes(state, base, mem, &bytes, budget)
}

/// The same of events that are bytes already, 24 for each, such as a case file's.
pub fn run_bytes(
    state: &mut State,
    base: u64,
    mem: &mut [u8],
    events: &[u8],
    budget: usize,
) -> Result<usize, RefusedAt> {
    let mut ran = [0; 16];
    let (mem, mem_len) = (mem.as_mut_ptr(), mem.len());
    let (body, len, told, told_len) = (events.as_ptr(), events.len(), ran.as_mut_ptr(), ran.len());
    // SAFETY: as in `step`.
    let r =
        unsafe { floecavern_run(state.pointer(), STATE_SIZE, base, mem, mem_len, body, len, budget, told, told_len) };
    let number = |at: usize| u64::from_le_bytes(std::array::from_fn(|i| ran[at + i])) as usize;
    match r {
        0 => Ok(number(0)),
        BAD_SIZE => bad_size(),
        r => Err(RefusedAt { refusal: refusal(r - REFUSED), place: number(8) }),
    }
}

/// A board's step log, 48 bytes for each row, replayed: the hart of each row steps, up to the first row that doesn't agree
/// with the model. Refusals 1, 2, 12 and 13.
pub fn replay(state: &mut State, base: u64, mem: &mut [u8], log: &[u8]) -> Result<Replayed, Refusal> {
    let mut told = [0; 24];
    let (mem, mem_len) = (mem.as_mut_ptr(), mem.len());
    let (rows, len, out, out_len) = (log.as_ptr(), log.len(), told.as_mut_ptr(), told.len());
    // SAFETY: as in `step`.
    let r = unsafe { floecavern_replay(state.pointer(), STATE_SIZE, base, mem, mem_len, rows, len, out, out_len) };
    let number = |at: usize| u64::from_le_bytes(std::array::from_fn(|i| told[at + i]));
    let (board, model) = (number(8), number(16));
    let stop = match r {
        0 => Stop::Agreed,
        1 => Stop::Form,
        2 => Stop::Pc { board, model },
        3 => Stop::Word { board: board as u32, model: model as u32 },
        4 => Stop::Rd { board: board as u8, model: model as u8 },
        5 => Stop::Value { board, model },
        BAD_SIZE => bad_size(),
        r if r < REFUSED => {
            let cause = Cause::of(r - TRAP).expect("causes are 0 to 8");
            Stop::Trap(Trap { cause, value: model })
        }
        r => return Err(refusal(r - REFUSED)),
    };
    Ok(Replayed { rows: number(0) as usize, stop })
}
