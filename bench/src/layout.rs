//! A state kept as bytes, as C and Rust callers of the library keep it: the count, x of every hart, pc of every hart, the reservation of
//! every hart (held: 0 for none, any other number for one; address; width), the set size, the version of the A extension, the kind of core, what a
//! misaligned atomic raises. Every number has 8 bytes, the lowest first.

use crate::machine::{Reservation, State, MAX_HARTS};

pub const SIZE: usize = 2344;
pub const COUNT: usize = 0;
/// What stands before it is all of a state as it was before request 5.
pub const SET_SIZE: usize = 2312;
/// What stands before it is all of a state as it was before request 7.
pub const VERSION: usize = 2320;
/// What stands before it is all of a state as it was before request 10.
pub const KIND: usize = 2328;
/// What stands before it is all of a state as it was before request 11.
pub const MISALIGNED: usize = 2336;

pub fn x(hart: usize, register: usize) -> usize {
    8 + 8 * (32 * hart + register)
}

pub fn pc(hart: usize) -> usize {
    2056 + 8 * hart
}

pub fn held(hart: usize) -> usize {
    2120 + 24 * hart
}

pub fn addr(hart: usize) -> usize {
    held(hart) + 8
}

pub fn width(hart: usize) -> usize {
    held(hart) + 16
}

pub fn get(bytes: &[u8], place: usize) -> u64 {
    u64::from_le_bytes(bytes[place..place + 8].try_into().unwrap())
}

pub fn put(bytes: &mut [u8], place: usize, value: u64) {
    bytes[place..place + 8].copy_from_slice(&value.to_le_bytes());
}

/// None if the size is wrong.
pub fn read(bytes: &[u8]) -> Option<State> {
    if bytes.len() != SIZE {
        return None;
    }
    let [count, set_size, version, kind, misaligned] = [COUNT, SET_SIZE, VERSION, KIND, MISALIGNED].map(|place| get(bytes, place));
    let mut state = State { count: count as usize, set_size, version, kind, misaligned, ..State::default() };
    for (h, hart) in state.harts.iter_mut().enumerate() {
        hart.x = std::array::from_fn(|r| get(bytes, x(h, r)));
        hart.pc = get(bytes, pc(h));
        hart.reservation = (get(bytes, held(h)) != 0).then(|| Reservation { addr: get(bytes, addr(h)), width: get(bytes, width(h)) });
    }
    Some(state)
}

/// Writes registers and pc of all harts and the reservations of those below the count: no call changes the count or a setting.
pub fn write(state: &State, bytes: &mut [u8]) {
    for (h, hart) in state.harts.iter().enumerate() {
        for (r, &value) in hart.x.iter().enumerate() {
            put(bytes, x(h, r), value);
        }
        put(bytes, pc(h), hart.pc);
    }
    for (h, hart) in state.harts[..state.count.min(MAX_HARTS)].iter().enumerate() {
        let numbers = hart.reservation.map_or([0; 3], |r| [1, r.addr, r.width]);
        for (n, value) in numbers.into_iter().enumerate() {
            put(bytes, held(h) + 8 * n, value);
        }
    }
}

/// The bytes of a state; zero where `write` leaves them.
pub fn bytes(state: &State) -> Vec<u8> {
    let mut bytes = vec![0; SIZE];
    let settings = [(SET_SIZE, state.set_size), (VERSION, state.version), (KIND, state.kind), (MISALIGNED, state.misaligned)];
    for (place, number) in [(COUNT, state.count as u64)].into_iter().chain(settings) {
        put(&mut bytes, place, number);
    }
    write(state, &mut bytes);
    bytes
}
