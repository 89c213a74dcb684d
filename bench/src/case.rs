//! The case file, a run of its events, and the program's lines.

use crate::machine::{
    base_allowed, end_allowed, kind_allowed, length_allowed, low, HartMask, Memory, Outcome, State, DEFAULT_SET, MAX_HARTS,
};

pub const EVENT: usize = 24;
pub const TABLE: usize = 40;
pub const MAX_FILE: usize = 65_536;

#[derive(Clone, Copy, PartialEq, Eq, Debug)]
pub struct Refusal {
    pub number: u8,
    pub place: usize,
}

pub(crate) fn refuse<T>(number: u8, place: usize) -> Result<T, Refusal> {
    Err(Refusal { number, place })
}

pub(crate) fn u32_at(bytes: &[u8], place: usize) -> u32 {
    u32::from_le_bytes(bytes[place..place + 4].try_into().unwrap())
}

fn u64_at(bytes: &[u8], place: usize) -> u64 {
    u64::from_le_bytes(bytes[place..place + 8].try_into().unwrap())
}

/// A read case: the parts of the file and the state at the start. A file says no set size, no version and nothing of misaligned atomics, so it has
/// the defaults; it says the kind.
pub struct Case<'a> {
    pub state: State,
    pub base: u64,
    pub memory: &'a [u8],
    pub events: &'a [u8],
}

fn event_allowed(bytes: &[u8], count: usize, base: u64, length: usize) -> bool {
    let (kind, hart, size) = (bytes[0], bytes[1] as usize, bytes[2] as usize);
    if bytes[3..8] != [0; 5] {
        return false;
    }
    match kind {
        1 | 3 => hart < count && size == 0 && bytes[8..] == [0; 16],
        2 => {
            hart == 0
                && (1..=8).contains(&size)
                && u64_at(bytes, 8).wrapping_sub(base) <= (length - size) as u64
                && bytes[16 + size..].iter().all(|&b| b == 0)
        }
        _ => false,
    }
}

/// Refusal 11, with the place counted from the body's first byte.
fn check_events(body: &[u8], count: usize, base: u64, length: usize) -> Result<(), Refusal> {
    if !body.len().is_multiple_of(EVENT) {
        return refuse(11, 0);
    }
    for (n, bytes) in body.chunks_exact(EVENT).enumerate() {
        if !event_allowed(bytes, count, base, length) {
            return refuse(11, EVENT * n);
        }
    }
    Ok(())
}

/// "A case file states it in the zero field of the harts body: 0 is 64-bit, 1 is 32-bit, anything else is refusal 9. Registers and pc of a 32-bit
/// case with a nonzero upper half are refusal 9 too". The base keeps document 01's rule.
fn read_harts(body: &[u8]) -> Option<(State, u64)> {
    if body.len() < 16 {
        return None;
    }
    let (base, count, kind) = (u64_at(body, 0), u32_at(body, 8) as usize, u32_at(body, 12).into());
    if !base_allowed(base, DEFAULT_SET) || !(1..=MAX_HARTS).contains(&count) || !kind_allowed(kind) || body.len() != 16 + 256 * count {
        return None;
    }
    let mut state = State { count, kind, ..State::default() };
    let xlen = state.xlen();
    for (hart, bytes) in state.harts.iter_mut().zip(body[16..].chunks_exact(256)) {
        for (r, value) in hart.x[1..].iter_mut().enumerate() {
            *value = u64_at(bytes, 8 * r);
        }
        hart.pc = u64_at(bytes, 248);
        if hart.pc % 4 != 0 || hart.x.iter().chain([&hart.pc]).any(|&value| value != low(value, xlen)) {
            return None;
        }
    }
    Some((state, base))
}

pub fn read_case(file: &[u8]) -> Result<Case<'_>, Refusal> {
    if !(TABLE..=MAX_FILE).contains(&file.len()) {
        return refuse(7, 0);
    }
    if u32_at(file, 0) != 3 {
        return refuse(8, 0);
    }
    let mut next = TABLE as u64;
    let mut bodies = [(0, 0); 3];
    for (n, body) in bodies.iter_mut().enumerate() {
        let entry = 4 + 12 * n;
        let (kind, offset, length) = (u32_at(file, entry), u32_at(file, entry + 4), u32_at(file, entry + 8));
        if kind != n as u32 + 1 {
            return refuse(8, entry);
        }
        if offset as u64 != next {
            return refuse(8, entry + 4);
        }
        next += length as u64;
        *body = (offset as usize, length as usize);
    }
    if next != file.len() as u64 {
        return refuse(8, 36);
    }
    let [harts, memory, events] = bodies.map(|(offset, length)| &file[offset..offset + length]);
    let Some((state, base)) = read_harts(harts) else {
        return refuse(9, bodies[0].0);
    };
    // "Base plus length is at most 2^32 for this kind, refusal 1 in the library and 10 in a case file".
    if !length_allowed(memory.len(), DEFAULT_SET) || !end_allowed(base, memory.len(), state.kind) {
        return refuse(10, bodies[1].0);
    }
    check_events(events, state.count, base, memory.len()).map_err(|r| Refusal { number: 11, place: bodies[2].0 + r.place })?;
    Ok(Case { state, base, memory, events })
}

/// Performs the events of a checked body and hands each with its outcome to `observe`.
fn perform(state: &mut State, memory: &mut Memory, body: &[u8], mut observe: impl FnMut(usize, u8, usize, Outcome)) {
    for (n, bytes) in body.chunks_exact(EVENT).enumerate() {
        let hart = bytes[1] as usize;
        let outcome = match bytes[0] {
            1 => state.perform_step(memory, hart),
            2 => {
                let size = bytes[2] as usize;
                Outcome::Retired { broke: state.perform_device(memory, u64_at(bytes, 8), &bytes[16..16 + size]) }
            }
            _ => {
                state.perform_yield(hart);
                Outcome::Retired { broke: 0 }
            }
        };
        observe(n, bytes[0], hart, outcome);
    }
}

/// A run: how many events it performed, or its refusal.
pub fn run(state: &mut State, memory: &mut Memory, body: &[u8], budget: usize) -> Result<usize, Refusal> {
    state.accepted(memory).or_else(|number| refuse(number, 0))?;
    check_events(body, state.count, memory.base, memory.bytes.len())?;
    let performed = budget.min(body.len() / EVENT);
    perform(state, memory, &body[..EVENT * performed], |_, _, _, _| {});
    Ok(performed)
}

fn put_decimal(out: &mut Vec<u8>, mut n: usize) {
    let mut digits = [0; 20];
    let mut at = digits.len();
    loop {
        at -= 1;
        digits[at] = b'0' + (n % 10) as u8;
        n /= 10;
        if n == 0 {
            break;
        }
    }
    out.extend_from_slice(&digits[at..]);
}

/// The N lowest hex digits.
fn put_hex<const N: usize>(out: &mut Vec<u8>, value: u64) {
    let digits: [u8; N] = std::array::from_fn(|n| b"0123456789abcdef"[(value >> (4 * (N - 1 - n)) & 15) as usize]);
    out.extend_from_slice(&digits);
}

/// All that the program writes for a file.
pub fn report(file: &[u8]) -> Vec<u8> {
    let mut out = Vec::new();
    match read_case(file) {
        Ok(case) => put_case(&mut out, case),
        Err(refusal) => {
            out.extend_from_slice(b"refused ");
            put_decimal(&mut out, refusal.number as usize);
            out.push(b' ');
            put_decimal(&mut out, refusal.place);
            out.push(b'\n');
        }
    }
    out
}

fn put_case(out: &mut Vec<u8>, mut case: Case) {
    let events = case.events.len() / EVENT;
    out.reserve(64 + 16 * events);
    out.extend_from_slice(b"case ");
    put_decimal(out, case.state.count);
    out.extend_from_slice(b" harts ");
    put_decimal(out, case.memory.len());
    out.extend_from_slice(b" bytes ");
    put_decimal(out, events);
    out.extend_from_slice(b" events\n");
    let mut bytes = case.memory.to_vec();
    let mut memory = Memory { base: case.base, bytes: &mut bytes };
    perform(&mut case.state, &mut memory, case.events, |n, kind, hart, outcome| put_line(out, n, kind, hart, outcome));
    out.extend_from_slice(b"end ");
    put_decimal(out, events);
    out.push(b'\n');
}

#[inline]
fn put_line(out: &mut Vec<u8>, n: usize, kind: u8, hart: usize, outcome: Outcome) {
    put_decimal(out, n);
    match kind {
        1 => out.extend_from_slice(&[b' ', b'h', b'0' + hart as u8]),
        2 => out.extend_from_slice(b" d"),
        _ => out.extend_from_slice(&[b' ', b'y', b'0' + hart as u8]),
    }
    match outcome {
        Outcome::Retired { .. } => out.extend_from_slice(b" ok"),
        Outcome::Sc { success: true, .. } => out.extend_from_slice(b" sc 0"),
        Outcome::Sc { success: false, .. } => out.extend_from_slice(b" sc 1"),
        Outcome::Trap(trap) => {
            out.extend_from_slice(b" trap ");
            put_decimal(out, trap.cause as usize);
            out.push(b' ');
            put_hex::<16>(out, trap.value);
        }
    }
    put_broke(out, outcome.broke());
    out.push(b'\n');
}

/// "An event line gets ` broke` and two lower-case hex digits where the set isn't empty, before the line end."
#[inline]
fn put_broke(out: &mut Vec<u8>, broke: HartMask) {
    if broke != 0 {
        out.extend_from_slice(b" broke ");
        put_hex::<2>(out, broke.into());
    }
}

#[cfg(test)]
mod tests {
    use super::*;
    use crate::generate::builder::{event_bytes, file, DEVICE, STEP};

    /// The example of document 01; "Line 3 in 01's example becomes `3 h1 sc 0 broke 01`".
    #[test]
    fn example() {
        let mut harts = [0, 2u64].map(u64::to_le_bytes).concat();
        for _ in 0..2 {
            // x1 to x31 and pc.
            harts.extend((1..=32).flat_map(|r| if r == 5 { 64u64 } else { 0 }.to_le_bytes()));
        }
        let mut memory = vec![0; 128];
        memory[..8].copy_from_slice(&[0x1002_A32F, 0x1882_A3AFu32].map(u32::to_le_bytes).concat());
        let step = |hart| event_bytes(STEP, hart, 0, 0, 0);
        let events = [step(0), event_bytes(DEVICE, 0, 1, 72, 0), step(1), step(1), step(0)].concat();
        let lines = "case 2 harts 128 bytes 5 events
0 h0 ok
1 d ok
2 h1 ok
3 h1 sc 0 broke 01
4 h0 sc 1
end 5
";
        assert_eq!(String::from_utf8(report(&file(&harts, &memory, &events))).unwrap(), lines);
    }
}
