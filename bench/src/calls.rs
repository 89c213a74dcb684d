//! The calls of include/floecavern.h, answered by this crate.

use crate::case::{run, EVENT};
use crate::layout;
use crate::log::{replay, Reason};
use crate::loops::{self, Verdict};
use crate::machine::{Memory, Outcome, State, A_2_1, KIND_64};
use crate::settings::{self, Board, MAX_BOARDS};

/// The answer to a size that is wrong.
pub const BAD_SIZE: u64 = u64::MAX;
const SC_STORED: u64 = 1;
const SC_FAILED: u64 = 2;
pub const TRAP: u64 = 256;
pub const REFUSED: u64 = 512;

/// A machine as it is lent to a call.
#[derive(Clone, PartialEq, Eq, Debug)]
pub struct Machine {
    pub state: Vec<u8>,
    pub base: u64,
    pub memory: Vec<u8>,
}

#[derive(Clone, PartialEq, Eq, Debug)]
pub enum Call {
    Step { hart: usize },
    DeviceWrite { addr: u64, size: usize, data: u64 },
    Yield { hart: usize },
    Run { events: Vec<u8>, budget: usize },
    Replay { log: Vec<u8> },
}

impl Call {
    /// The call for an event of a body that isn't refused.
    pub fn of_event(event: &[u8]) -> Call {
        let hart = event[1] as usize;
        match event[0] {
            1 => Call::Step { hart },
            2 => Call::DeviceWrite { addr: layout::get(event, 8), size: event[2] as usize, data: layout::get(event, 16) },
            _ => Call::Yield { hart },
        }
    }

    pub fn name(&self) -> &'static str {
        match self {
            Call::Step { .. } => "step",
            Call::DeviceWrite { .. } => "device_write",
            Call::Yield { .. } => "yield",
            Call::Run { .. } => "run",
            Call::Replay { .. } => "replay",
        }
    }

    /// The bytes it tells beside its answer: a trap's value, or the harts whose reservation a retired event broke; how many events a run
    /// performed, and the place of its refusal; how many rows of a log agreed, and the values of the next one, the board's and the model's.
    pub fn told(&self) -> usize {
        match self {
            Call::Run { .. } => 16,
            Call::Replay { .. } => 24,
            _ => 8,
        }
    }
}

/// Performs a call.
pub fn perform(machine: &mut Machine, call: &Call, told: &mut [u8]) -> u64 {
    let Some(mut state) = layout::read(&machine.state) else {
        return BAD_SIZE;
    };
    if told.len() != call.told() {
        return BAD_SIZE;
    }
    let mut memory = Memory { base: machine.base, bytes: &mut machine.memory };
    let answer = match *call {
        Call::Step { hart } => event(state.step(&mut memory, hart), told),
        Call::DeviceWrite { addr, size, data } => {
            event(state.device(&mut memory, addr, size, data).map(|broke| Outcome::Retired { broke }), told)
        }
        Call::Yield { hart } => event(state.yield_hart(&memory, hart).map(|()| Outcome::Retired { broke: 0 }), told),
        Call::Run { ref events, budget } => run_all(&mut state, &mut memory, events, budget, told),
        Call::Replay { ref log } => replay_all(&mut state, &mut memory, log, told),
    };
    // A trap stops a replay, and the rows before it have been performed.
    if answer < TRAP || answer < REFUSED && matches!(call, Call::Replay { .. }) {
        layout::write(&state, &mut machine.state);
    }
    answer
}

/// The number of an event's outcome, and the value it tells.
fn event(outcome: Result<Outcome, u8>, value: &mut [u8]) -> u64 {
    let (answer, told) = match outcome {
        Ok(Outcome::Retired { broke }) => (0, broke.into()),
        Ok(Outcome::Sc { success: true, broke }) => (SC_STORED, broke.into()),
        Ok(Outcome::Sc { success: false, broke }) => (SC_FAILED, broke.into()),
        Ok(Outcome::Trap(trap)) => (TRAP + trap.cause as u64, trap.value),
        Err(number) => (REFUSED + number as u64, 0),
    };
    layout::put(value, 0, told);
    answer
}

fn run_all(state: &mut State, memory: &mut Memory, events: &[u8], budget: usize, ran: &mut [u8]) -> u64 {
    let (answer, performed, place) = match run(state, memory, events, budget) {
        Ok(performed) => (0, performed, 0),
        Err(refusal) => (REFUSED + refusal.number as u64, 0, refusal.place),
    };
    layout::put(ran, 0, performed as u64);
    layout::put(ran, 8, place as u64);
    answer
}

fn replay_all(state: &mut State, memory: &mut Memory, log: &[u8], told: &mut [u8]) -> u64 {
    let (rows, answer, board, model) = match replay(state, memory, log) {
        Err(number) => (0, REFUSED + number as u64, 0, 0),
        Ok(replayed) => {
            let (answer, board, model) = match replayed.stop {
                None => (0, 0, 0),
                Some(Reason::Form) => (1, 0, 0),
                Some(Reason::Pc { board, model }) => (2, board, model),
                Some(Reason::Word { board, model }) => (3, board.into(), model.into()),
                Some(Reason::Rd { board, model }) => (4, board.into(), model.into()),
                Some(Reason::Value { board, model }) => (5, board, model),
                Some(Reason::Trap(trap)) => (TRAP + trap.cause as u64, 0, trap.value),
            };
            (replayed.rows as u64, answer, board, model)
        }
    };
    for (place, number) in [rows, board, model].into_iter().enumerate() {
        layout::put(told, 8 * place, number);
    }
    answer
}

/// The calls, one for each event, for an events body that isn't refused.
pub fn of_events(events: &[u8]) -> impl Iterator<Item = Call> + '_ {
    events.chunks_exact(EVENT).map(Call::of_event)
}

/// The answer for a block of words, each 4 bytes, the lowest first, under the default version and of the default kind.
pub fn check_loop(words: &[u8]) -> u64 {
    check_loop_for(A_2_1, KIND_64, words)
}

/// The answer under a version and of a kind. A length that is wrong is told before a version or a kind that is.
pub fn check_loop_for(version: u64, kind: u64, words: &[u8]) -> u64 {
    if !words.len().is_multiple_of(4) {
        return BAD_SIZE;
    }
    let words: Vec<u32> = words.chunks_exact(4).map(|w| u32::from_le_bytes(w.try_into().unwrap())).collect();
    match loops::check_loop(version, kind, &words) {
        Ok(Verdict::Accepted) => 0,
        Ok(Verdict::Rejected { place, reason }) => 256 * (place as u64 + 1) + reason as u64,
        Err(number) => number as u64,
    }
}

/// A board as it is lent: set size, version and what a misaligned atomic raises, 8 bytes each, the lowest first.
pub const BOARD: usize = 24;
/// What a settings file is read into, however many boards it has.
pub const BOARDS: usize = MAX_BOARDS * BOARD;

pub fn board_bytes(board: Board) -> [u8; BOARD] {
    let mut bytes = [0; BOARD];
    for (n, number) in [board.set_size, board.version, board.misaligned].into_iter().enumerate() {
        layout::put(&mut bytes, 8 * n, number);
    }
    bytes
}

pub fn board_of(bytes: &[u8]) -> Board {
    let [set_size, version, misaligned] = [0, 8, 16].map(|place| layout::get(bytes, place));
    Board { set_size, version, misaligned }
}

/// Reads a settings file into `boards`, zeros behind those that it has, and zeros alone where it is refused. Told are the file's format and how many
/// boards it has, or the place of the refusal and 0.
pub fn read_settings(file: &[u8], boards: &mut [u8], told: &mut [u8]) -> u64 {
    if boards.len() != BOARDS || told.len() != 16 {
        return BAD_SIZE;
    }
    boards.fill(0);
    let (answer, numbers) = match settings::read(file) {
        Ok(read) => {
            for (place, &board) in boards.chunks_exact_mut(BOARD).zip(&read.boards) {
                place.copy_from_slice(&board_bytes(board));
            }
            (0, [read.format.into(), read.boards.len() as u64])
        }
        Err(refusal) => (REFUSED + refusal.number as u64, [refusal.place as u64, 0]),
    };
    layout::put(told, 0, numbers[0]);
    layout::put(told, 8, numbers[1]);
    answer
}

/// Writes the settings file of `boards` to the start of `out`, or nothing where it is refused. Told is the file's length, or the place of the
/// refusal.
pub fn write_settings(boards: &[u8], out: &mut [u8], told: &mut [u8]) -> u64 {
    if !boards.len().is_multiple_of(BOARD) || told.len() != 8 {
        return BAD_SIZE;
    }
    let boards: Vec<Board> = boards.chunks_exact(BOARD).map(board_of).collect();
    let (answer, number) = match settings::write(&boards, out) {
        Ok(length) => (0, length),
        Err(refusal) => (REFUSED + refusal.number as u64, refusal.place),
    };
    layout::put(told, 0, number as u64);
    answer
}

#[cfg(test)]
mod tests {
    use super::*;
    use crate::generate::{scenario, Rng};
    use crate::machine::{A_2_0, KIND_32};

    /// A length that is wrong comes before a version that is, and that before refusal 6.
    #[test]
    fn loops_by_version() {
        let block: Vec<u8> = [0x1002_A32F, 0x0000_8067, 0x1882_A3AFu32].into_iter().flat_map(u32::to_le_bytes).collect();
        assert_eq!(check_loop_for(A_2_0, KIND_64, &block), 0);
        assert_eq!((check_loop_for(A_2_1, KIND_64, &block), check_loop(&block)), (256 * 2 + 2, 256 * 2 + 2));
        for (length, answer) in [(0, 6), (4, 6), (8, 256 * 3 + 6), (5, BAD_SIZE), (11, BAD_SIZE)] {
            assert_eq!(check_loop_for(A_2_0, KIND_64, &block[..length]), answer);
        }
        for (length, answer) in [(0, 2), (4, 2), (12, 2), (1, BAD_SIZE), (11, BAD_SIZE)] {
            assert_eq!(check_loop_for(256 + A_2_0, KIND_64, &block[..length]), answer);
            assert_eq!(check_loop_for(A_2_0, 2, &block[..length]), answer);
        }
    }

    /// A buffer of another length than the one wanted, and nothing is written.
    #[test]
    fn settings_lengths() {
        let file = [2u32, 1, 16, 4, 0x0114_0040].map(u32::to_le_bytes).concat();
        let (mut boards, mut told) = ([0xA5; BOARDS], [0xA5; 16]);
        assert_eq!(read_settings(&file, &mut boards, &mut told), 0);
        assert_eq!(told, [2u64, 1].map(u64::to_le_bytes).concat()[..]);
        assert_eq!(boards[..BOARD], [64u64, 20, 1].map(u64::to_le_bytes).concat()[..]);
        assert_eq!(boards[BOARD..], [0; BOARDS - BOARD]);
        assert_eq!(read_settings(&file[..19], &mut boards, &mut told), REFUSED + 21);
        assert_eq!((boards, told), ([0; BOARDS], [0; 16]));
        for (boards_len, told_len) in [(0, 16), (383, 16), (385, 16), (408, 16), (384, 0), (384, 8), (384, 15), (384, 17)] {
            let (mut boards, mut told) = (vec![0xA5; boards_len], vec![0xA5; told_len]);
            assert_eq!(read_settings(&file, &mut boards, &mut told), BAD_SIZE);
            assert!(boards.iter().chain(&told).all(|&byte| byte == 0xA5));
        }
        let one = board_bytes(Board { set_size: 64, version: 20, misaligned: 1 });
        let (mut out, mut told) = ([0xA5; 21], [0xA5; 8]);
        assert_eq!(write_settings(&one, &mut out, &mut told), 0);
        assert_eq!((&out[..20], out[20], told), (&file[..], 0xA5, 20u64.to_le_bytes()));
        for (boards_len, told_len) in [(1, 8), (23, 8), (25, 8), (24, 0), (24, 7), (24, 16)] {
            let (mut out, mut told) = ([0xA5; 64], vec![0xA5; told_len]);
            assert_eq!(write_settings(&[one, one].concat()[..boards_len], &mut out, &mut told), BAD_SIZE);
            assert!(out.iter().chain(&told).all(|&byte| byte == 0xA5));
        }
    }

    /// Whose reservation is gone after an event, as a number.
    fn lost(before: &State, after: &State) -> u64 {
        let gone = |h: &usize| before.harts[*h].reservation.is_some() && after.harts[*h].reservation.is_none();
        (0..before.harts.len()).filter(gone).map(|h| 1 << h).sum()
    }

    /// The set size has the 8 bytes from 2312 on, the version those from 2320 on, the kind those from 2328 on, what a misaligned atomic raises those
    /// from 2336 on, the lowest first; a state of any other length is no state, that of earlier versions of the library too.
    #[test]
    fn state_lengths() {
        let state = State { set_size: 4096, version: A_2_0, kind: KIND_32, misaligned: (1 << 56) + 1, ..State::default() };
        let bytes = layout::bytes(&state);
        assert_eq!((bytes.len(), &bytes[2312..]), (2344, &[4096u64, 20, 1, (1 << 56) + 1].map(u64::to_le_bytes).concat()[..]));
        assert_eq!(layout::read(&bytes), Some(state));
        for length in [0, 2304, 2311, 2312, 2319, 2320, 2321, 2327, 2328, 2329, 2335, 2336, 2337, 2343, 2345, 2352] {
            let mut machine = Machine { state: bytes.clone(), base: 0, memory: vec![0; 4096] };
            machine.state.resize(length, 0);
            let (given, mut told) = (machine.clone(), [0xA5; 8]);
            assert_eq!(perform(&mut machine, &Call::Yield { hart: 0 }, &mut told), BAD_SIZE);
            assert_eq!((machine, told), (given, [0xA5; 8]));
        }
    }

    /// A hart that doesn't step or yield itself loses its reservation by a write alone: so what a retired event tells is what is gone,
    /// without the event's own hart.
    #[test]
    fn told_is_lost() {
        let mut times = [0; 256];
        for seed in 0..1000 {
            let given = scenario(&mut Rng::new(seed));
            let mut machine = given.machine;
            for call in of_events(&given.events) {
                let (before, mut told) = (layout::read(&machine.state), [0xA5; 8]);
                let answer = perform(&mut machine, &call, &mut told);
                let (Some(before), Some(after)) = (before, layout::read(&machine.state)) else {
                    continue;
                };
                let own = match call {
                    Call::Step { hart } | Call::Yield { hart } if hart < 8 => 1 << hart,
                    _ => 0,
                };
                let value = layout::get(&told, 0);
                let settings = |state: &State| [state.set_size, state.version, state.kind, state.misaligned];
                assert_eq!(settings(&before), settings(&after));
                match answer {
                    0..TRAP => {
                        assert_eq!(value, lost(&before, &after) & !own, "seed {seed}, {call:?}");
                        times[value as usize] += 1;
                    }
                    TRAP..REFUSED => assert_eq!(lost(&before, &after), 0, "seed {seed}, {call:?}"),
                    _ => assert_eq!((value, lost(&before, &after)), (0, 0), "seed {seed}, {call:?}"),
                }
            }
        }
        // Nearly every set of harts is met, so that no bit is left out.
        assert!(times.iter().filter(|&&times| times > 0).count() > 200);
    }
}
