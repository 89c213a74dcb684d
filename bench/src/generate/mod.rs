//! Generated inputs: case files, blocks for the loop checker, machines with calls, settings files and lists of boards. The same seed gives the same
//! input.

mod blocks;
mod boards;
pub mod builder;
pub mod classes;
mod damage;
mod logs;
mod machines;
mod makers;
mod rng;
pub mod words;

use builder::Builder;
use makers::{contention, gathered, guided, program};

use crate::case::read_case;
use crate::machine::{State, A_2_0, A_2_1};

pub use blocks::loop_block;
pub use boards::{board_list, settings_file};
pub use logs::log;
pub use machines::{refused_call, run_call, scenario, Scenario};
pub use rng::Rng;

/// A case file.
pub fn case(seed: u64) -> Vec<u8> {
    let rng = &mut Rng::new(seed);
    let kind = rng.below(20);
    let maker = match kind {
        0..=5 => guided,
        6..=9 => program,
        10 | 11 => contention,
        12 | 13 => gathered,
        14..=18 => return damage::damaged_file(rng),
        _ => return damage::file_at_limit(rng),
    };
    let b = Builder::for_case(rng);
    maker(rng, b).file()
}

/// A number that is no version of the A extension: below the two, above them, or one of them in its lowest bits alone. It doesn't go by what the
/// machine allows, so that a machine that allows too much is found.
pub fn no_version(rng: &mut Rng) -> u64 {
    loop {
        let version = match rng.below(10) {
            0 => 0,
            1 => rng.below(A_2_0),
            2 | 3 => rng.pick(&[A_2_0 - 1, A_2_1 + 1]),
            4 => A_2_1 + rng.below(256 - A_2_1),
            5 => rng.pick(&[2, 200, 210, 255]),
            6 | 7 => rng.pick(&[A_2_0, A_2_1]) + (1 << (8 + rng.below(56))),
            8 => rng.value(),
            _ => rng.next(),
        };
        if version != A_2_0 && version != A_2_1 {
            return version;
        }
    }
}

/// A number that is no kind of core: just above the two, or one of them in its lowest bits alone. It doesn't go by what the machine allows either.
pub fn no_kind(rng: &mut Rng) -> u64 {
    let kind = match rng.below(8) {
        0 | 1 => 2,
        2 => rng.pick(&[3, 32, 64, 255]),
        3 | 4 => rng.below(2) + (1 << (8 + rng.below(56))),
        5 => 1 << rng.below(64),
        6 => rng.value(),
        _ => rng.next(),
    };
    kind.max(2)
}

/// A number that says of no misaligned atomic what it raises: just above the two, a cause, or one of the two in its lowest bits alone. It doesn't go
/// by what the machine allows either.
pub fn no_misaligned(rng: &mut Rng) -> u64 {
    let misaligned = match rng.below(9) {
        0 | 1 => rng.pick(&[2, 2, 3]),
        2 => rng.pick(&[4, 5, 6, 7]),
        3 => rng.pick(&[127, 128, 254, 255]),
        4 | 5 => rng.below(2) + (1 << (8 + rng.below(56))),
        6 => 1 << rng.below(64),
        7 => rng.value(),
        _ => rng.next(),
    };
    misaligned.max(2)
}

/// A case file with a log of it. The file is mostly one that isn't refused.
pub fn case_with_log(seed: u64) -> (Vec<u8>, Vec<u8>) {
    let rng = &mut Rng::new(seed);
    let mut file = case(rng.next());
    while read_case(&file).is_err() && rng.percent(90) {
        file = case(rng.next());
    }
    let Ok(case) = read_case(&file) else {
        return (file, log(rng, &State { count: 0, ..State::default() }, 0, &mut []));
    };
    let (mut memory, place) = (case.memory.to_vec(), case.memory.as_ptr() as usize - file.as_ptr() as usize);
    let log = log(rng, &case.state, case.base, &mut memory);
    file[place..place + memory.len()].copy_from_slice(&memory);
    (file, log)
}
