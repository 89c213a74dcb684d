//! Machines as bytes, valid and damaged, with events; and calls that are refused.

use super::builder::Builder;
use super::damage::damaged_body;
use super::makers::{contention, crowded, edges, gathered, guided, program};
use super::{no_kind, no_misaligned, no_version, Rng};
use crate::calls::{Call, Machine};
use crate::layout;
use crate::machine::{
    memory_unit, ACCESS_FAULT, ADDRESSES_32, ADDRESS_MISALIGNED, A_2_0, A_2_1, DEFAULT_SET, KIND_32, KIND_64, MAX_HARTS, SMALLEST_SET,
};

/// A machine with an events body. The body isn't refused unless the machine is.
pub struct Scenario {
    pub machine: Machine,
    pub events: Vec<u8>,
}

pub fn scenario(rng: &mut Rng) -> Scenario {
    let maker = match rng.below(20) {
        0..=3 => guided,
        4 | 5 => program,
        6..=8 => contention,
        9..=11 => gathered,
        12..=15 => edges,
        _ => crowded,
    };
    let b = Builder::for_state(rng);
    let b = maker(rng, b);
    let mut machine = Machine { state: state_bytes(rng, &b), base: b.base, memory: b.memory };
    let mut events = b.events;
    match rng.below(100) {
        0..=7 => damage_set_size(rng, &mut machine),
        8..=13 => damage_fit(rng, &mut machine, b.state.set_size),
        14..=27 => damage(rng, &mut machine),
        28..=33 => damage_version(rng, &mut machine),
        34..=37 => damage_kind(rng, &mut machine),
        38..=45 if b.state.kind == KIND_32 => damage_32(rng, &mut machine, b.state.count),
        46..=50 => damage_misaligned(rng, &mut machine),
        _ => return Scenario { machine, events },
    }
    if rng.percent(40) {
        damage(rng, &mut machine);
    }
    // All of them are refused by one number, so a few are enough.
    events.truncate(crate::case::EVENT * 6);
    Scenario { machine, events }
}

/// A set size that isn't allowed, with a length and a base as it would have them were it allowed, as they were, or wrong in themselves.
fn damage_set_size(rng: &mut Rng, m: &mut Machine) {
    let size = match rng.below(10) {
        0 => 0,
        1 => rng.pick(&[1, 2, 4]),
        2 => rng.pick(&[3, 5, 6, 7]),
        3 => rng.pick(&[24, 48, 63, 65, 96, 1000, 3000]),
        4 | 5 => (SMALLEST_SET << rng.below(11)).wrapping_add(rng.pick(&[1, u64::MAX])),
        6 => 8192 << if rng.percent(50) { rng.below(3) } else { rng.below(51) },
        // What an allowed one looks like in its lowest bits.
        7 => (SMALLEST_SET << rng.below(10)) + (1 << rng.pick(&[13, 16, 32, 48, 63])),
        8 => u64::MAX,
        _ => rng.next(),
    };
    layout::put(&mut m.state, layout::SET_SIZE, size);
    match rng.below(10) {
        0..=3 => fit(rng, m, size),
        4..=6 => damage_memory(rng, m),
        _ => {}
    }
}

/// A number that is no version, now and then beside something that 1 refuses.
fn damage_version(rng: &mut Rng, m: &mut Machine) {
    layout::put(&mut m.state, layout::VERSION, no_version(rng));
    match rng.below(10) {
        0 => damage_set_size(rng, m),
        1 => damage_memory(rng, m),
        _ => {}
    }
}

/// A number that is no kind, now and then beside something that 1 refuses, or that 1 would refuse of the 32-bit kind.
fn damage_kind(rng: &mut Rng, m: &mut Machine) {
    layout::put(&mut m.state, layout::KIND, no_kind(rng));
    match rng.below(10) {
        0 => damage_set_size(rng, m),
        1 => damage_memory(rng, m),
        2 => m.base = (1 << 40) - (1 << 20),
        _ => {}
    }
}

/// A number that says of no misaligned atomic what it raises, now and then beside something that 1 refuses or another setting that 2 does.
fn damage_misaligned(rng: &mut Rng, m: &mut Machine) {
    layout::put(&mut m.state, layout::MISALIGNED, no_misaligned(rng));
    match rng.below(10) {
        0 => damage_set_size(rng, m),
        1 => damage_memory(rng, m),
        2 => damage_version(rng, m),
        3 => damage_kind(rng, m),
        _ => {}
    }
}

/// What the 32-bit kind alone refuses: something in the upper half of a register or a pc, a reservation 8 wide, an end above 2^32. Or the same of an
/// unused hart, which isn't looked at.
fn damage_32(rng: &mut Rng, m: &mut Machine, count: usize) {
    let hart = if rng.percent(80) { rng.below(count as u64) } else { rng.below(MAX_HARTS as u64) } as usize;
    let upper = 4 + rng.below(4) as usize;
    let any = 1 + rng.below(31) as usize;
    let register = rng.pick(&[1, 5, 31, any]);
    match rng.below(8) {
        0..=2 => m.state[layout::x(hart, register) + upper] |= 1 << rng.below(8),
        3 | 4 => m.state[layout::pc(hart) + upper] |= 1 << rng.below(8),
        5 => put_reservation(&mut m.state, hart, m.base + 8 * rng.below(m.memory.len() as u64 / 8), 8),
        _ => move_up(rng, m),
    }
}

/// A base that makes the end of memory 2^32, or higher by a little or by much.
fn move_up(rng: &mut Rng, m: &mut Machine) {
    let unit = memory_unit(layout::get(&m.state, layout::SET_SIZE));
    let top = ADDRESSES_32 - m.memory.len() as u64;
    m.base = rng.pick(&[top, top + unit, top + unit, ADDRESSES_32, ADDRESSES_32 + unit, 1 << 40, 1 << 33]);
}

/// A length and a base that are multiples of 64 and of the size, if it is one that has any in a small memory.
fn fit(rng: &mut Rng, m: &mut Machine, size: u64) {
    if (1..=65_536).contains(&size) {
        let common = 1 << size.trailing_zeros().min(6);
        let unit = size * (64 / common);
        if unit <= 131_072 {
            m.memory.resize((unit * (1 + rng.below(2))) as usize, 0);
            m.base -= m.base % unit;
        }
    }
}

/// A length, a base or both that sets of 64 bytes would allow and larger ones don't. Smaller ones can't be wrong by their size alone: then a
/// length or base that is a multiple of their size and not of 64.
fn damage_fit(rng: &mut Rng, m: &mut Machine, set_size: u64) {
    let step = if set_size > DEFAULT_SET { DEFAULT_SET } else { set_size };
    let places = memory_unit(set_size) / step;
    let mut off = || if places > 1 { step * (1 + rng.below(places - 1)) } else { step / 2 };
    let (base, length) = (off(), off() as usize);
    let which = rng.below(6);
    if which < 4 {
        // Below the size, or above it.
        let whole = if which == 0 { 0 } else { m.memory.len() };
        m.memory.resize(whole + length, 0);
    }
    if which >= 3 {
        m.base += base;
    }
}

/// A length and a base, one of them wrong or both.
fn damage_memory(rng: &mut Rng, m: &mut Machine) {
    let which = rng.below(3);
    if which != 0 {
        m.memory.resize(rng.pick(&[0, 1, 32, 63, 65, 100, m.memory.len() + 8, m.memory.len() + 32]), 0);
    }
    if which != 1 {
        m.base = m.base.wrapping_add(rng.pick(&[1, 4, 8, 32, 1 << 41]));
    }
}

/// The first state as bytes, with rubbish where nothing is looked at.
fn state_bytes(rng: &mut Rng, b: &Builder) -> Vec<u8> {
    let state = &b.first;
    let mut bytes = layout::bytes(state);
    for h in 0..MAX_HARTS {
        if h >= state.count {
            if rng.percent(70) {
                put_rubbish(rng, &mut bytes, h);
            }
            if rng.percent(50) {
                seem_to_hold(rng, &mut bytes, b, h);
            }
        } else if state.harts[h].reservation.is_none() {
            if rng.percent(30) {
                layout::put(&mut bytes, layout::addr(h), rng.value());
                layout::put(&mut bytes, layout::width(h), rng.value());
            }
        } else if rng.percent(20) {
            layout::put(&mut bytes, layout::held(h), rng.pick(&[2, 255, 256, 1 << 32, 1 << 63, u64::MAX]));
        }
    }
    bytes
}

fn put_rubbish(rng: &mut Rng, bytes: &mut [u8], hart: usize) {
    for r in 0..32 {
        layout::put(bytes, layout::x(hart, r), rng.value());
    }
    for place in [layout::pc(hart), layout::held(hart), layout::addr(hart), layout::width(hart)] {
        layout::put(bytes, place, rng.value());
    }
}

/// An unused hart with a reservation of good form, mostly one that a used hart holds or will hold, so that writes touch it.
fn seem_to_hold(rng: &mut Rng, bytes: &mut [u8], b: &Builder, hart: usize) {
    let width = rng.pick(&[4, 8]);
    let used = rng.below(b.first.count as u64) as usize;
    let held = rng.pick(&[&b.first, &b.state]).harts[used].reservation;
    let any = b.base + rng.below(b.memory.len() as u64);
    let addr = held.filter(|_| rng.percent(80)).map_or(any, |r| r.addr) & !(width - 1);
    put_reservation(bytes, hart, addr, width);
}

fn put_reservation(bytes: &mut [u8], hart: usize, addr: u64, width: u64) {
    for (place, value) in [(layout::held(hart), 1), (layout::addr(hart), addr), (layout::width(hart), width)] {
        layout::put(bytes, place, value);
    }
}

/// Lengths that a state doesn't have: those of earlier versions of the library, and others about them.
const STATE_LENGTHS: [usize; 16] = [
    0,
    8,
    layout::SET_SIZE,
    2319,
    layout::VERSION,
    2321,
    2327,
    layout::KIND,
    2329,
    2335,
    layout::MISALIGNED,
    2337,
    2343,
    2345,
    2352,
    2 * layout::SIZE,
];

/// Makes something wrong that refusals 1 and 2 or the sizes are about, or right by luck.
fn damage(rng: &mut Rng, m: &mut Machine) {
    match rng.below(12) {
        0 => {
            m.base = rng.pick(&[
                m.base.wrapping_add(1),
                m.base.wrapping_add(32),
                (1 << 40) + 64,
                (1 << 40) + 1,
                1 << 41,
                1 << 63,
                u64::MAX - 63,
                u64::MAX,
            ])
        }
        1 => {
            let length = rng.pick(&[0, 1, 32, 63, 65, 100, m.memory.len().saturating_sub(1), m.memory.len() + 8]);
            m.memory.resize(length, 0);
        }
        2 if rng.percent(20) => m.memory.resize(rng.pick(&[(1 << 20) + 1, (1 << 20) + 64, 1 << 21]), 0),
        3 if rng.percent(50) => m.state.resize(rng.pick(&STATE_LENGTHS), 0),
        _ if m.state.len() == layout::SIZE => damage_state(rng, m),
        _ => {}
    }
}

fn damage_state(rng: &mut Rng, m: &mut Machine) {
    let count = layout::get(&m.state, layout::COUNT);
    // Seldom an unused hart: then nothing is wrong.
    let hart = if rng.percent(80) { rng.below(count.clamp(1, 8)) } else { rng.below(8) } as usize;
    let state = &mut m.state;
    match rng.below(12) {
        0 => layout::put(state, layout::COUNT, rng.pick(&[0, 0, 9, 10, 256, (1 << 32) + 1, 1 << 32, 1 << 63, u64::MAX])),
        1 => layout::put(state, layout::COUNT, 1 + rng.below(8)),
        2 => layout::put(state, layout::x(hart, 0), 1 << rng.below(64)),
        3 => state[layout::pc(hart)] ^= rng.pick(&[1, 2, 3]),
        4..=6 => damage_reservation(rng, m, hart),
        // Right, if length and base fit.
        7 => layout::put(state, layout::SET_SIZE, SMALLEST_SET << rng.below(10)),
        // Right.
        8 => layout::put(state, layout::VERSION, rng.pick(&[A_2_0, A_2_1])),
        // Right, if all fits.
        9 => layout::put(state, layout::KIND, rng.pick(&[KIND_64, KIND_32])),
        // Right.
        10 => layout::put(state, layout::MISALIGNED, rng.pick(&[ADDRESS_MISALIGNED, ACCESS_FAULT])),
        _ => {
            let place = rng.below(layout::SIZE as u64) as usize;
            state[place] ^= 1 << rng.below(8);
        }
    }
}

/// A reservation of a wrong width, misaligned or outside memory, or one at an edge that is right.
fn damage_reservation(rng: &mut Rng, m: &mut Machine, hart: usize) {
    let width = match rng.below(3) {
        0 => rng.pick(&[0, 1, 2, 3, 5, 6, 12, 16, 64, 256, 260, 264, (1 << 32) + 4, (1 << 63) + 8, u64::MAX]),
        _ => rng.pick(&[4, 8]),
    };
    let end = m.base.wrapping_add(m.memory.len() as u64);
    let addr = match rng.below(4) {
        0 => m.base.wrapping_add(rng.below(m.memory.len().max(1) as u64)),
        1 => rng.pick(&[m.base, end]).wrapping_add(4 * rng.below(8)).wrapping_sub(16),
        2 => rng.pick(&[0, 4, ADDRESSES_32 - 4, ADDRESSES_32, end.wrapping_add(ADDRESSES_32 - 8), 1 << 63, u64::MAX - 3, u64::MAX - 7]),
        _ => rng.next() & !7,
    };
    put_reservation(&mut m.state, hart, addr, width);
}

/// A call that 3, 4 or 5 refuses where 1 and 2 don't.
pub fn refused_call(rng: &mut Rng, m: &Machine, count: usize) -> Call {
    let hart = rng.pick(&[count, count + 1, 8, 9, 255, 256, 1 << 32, (1 << 32) + 1, usize::MAX]).max(count);
    match rng.below(4) {
        0 => Call::Step { hart },
        1 => Call::Yield { hart },
        2 => {
            let addr = m.base.wrapping_add(rng.below(64)).wrapping_sub(rng.pick(&[0, 32]));
            let size = rng.pick(&[0, 9, 10, 16, 255, 256, 257, 1 << 32, (1 << 32) + 1, 1 << 63, usize::MAX]);
            Call::DeviceWrite { addr, size, data: rng.next() }
        }
        _ => {
            let size = 1 + rng.below(8);
            let end = m.base.wrapping_add(m.memory.len() as u64);
            let before = m.base.wrapping_sub(1 + rng.below(10));
            let after = end.wrapping_sub(rng.below(size));
            let top = u64::MAX - rng.below(9);
            let addr = rng.pick(&[before, after, end, top, 1 << 63, end.wrapping_add(1 << 32)]);
            Call::DeviceWrite { addr, size: size as usize, data: rng.next() }
        }
    }
}

/// A run of the events, or of events with something changed.
pub fn run_call(rng: &mut Rng, m: &Machine, count: usize, events: &[u8]) -> Call {
    let events = if rng.percent(50) { events.to_vec() } else { damaged_body(rng, events, count as u8, m.base, m.memory.len() as u64) };
    let number = events.len() / crate::case::EVENT;
    let below = rng.below(number as u64 + 1) as usize;
    let budget = rng.pick(&[0, 1, below, below, number.saturating_sub(1), number, number + 1, 1 << 32, usize::MAX]);
    Call::Run { events, budget }
}
