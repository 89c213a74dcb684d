//! Machines and events of several kinds.

use super::builder::Builder;
use super::words::{
    atomic, b_type, cas_width, full_width, i_type, is_pair, j_type, register_mask, s_type, some_width, store_width, word, AMOS, ATOMICS,
    CAS, D, LR, NOP, Q, SC, W,
};
use super::Rng;
use crate::machine::{memory_unit, Outcome, MAX_HARTS};
use crate::word::RV32;

/// Random words, one after another, at the pc of random harts.
pub fn guided(rng: &mut Rng, mut b: Builder) -> Builder {
    for byte in &mut b.memory {
        *byte = rng.next() as u8;
    }
    b.fill_registers(rng);
    b.start(rng);
    let steps = b.steps(rng, 80, 800);
    for _ in 0..steps {
        let hart = b.some_hart(rng);
        if stuck(rng, &b, hart) {
            continue;
        }
        match rng.below(32) {
            0 | 1 => b.random_device(rng),
            2 if rng.percent(50) => b.yield_hart(hart),
            30 | 31 => b.misaligned_atomic(rng, hart),
            3..=7 => b.compare_and_swap(rng, hart),
            8..=13 => b.reserve_or_store(rng, hart),
            14 => {
                b.step(hart);
            }
            _ => {
                let align = rng.pick(&[1, 4, 8, 16, 16]);
                let address = b.pointer(rng, hart, align);
                let w = word(rng, b.xlen(), address);
                b.perform(hart, w);
            }
        }
    }
    let (registers, words) = (rng.percent(70), rng.below(20));
    b.show(rng, registers, words);
    b
}

/// A memory full of random words; now and then the word of a hart that trapped is mended.
pub fn program(rng: &mut Rng, mut b: Builder) -> Builder {
    b.fill_registers(rng);
    let (xlen, address) = (b.xlen(), rng.reg());
    for h in 0..b.state.count {
        if address != 0 {
            b.state.harts[h].x[address as usize] = b.base + rng.below(b.memory.len() as u64 / 16) * 16;
        }
    }
    for place in b.memory.chunks_exact_mut(4) {
        let a = if rng.percent(80) { address } else { rng.reg() };
        place.copy_from_slice(&word(rng, xlen, a).to_le_bytes());
    }
    b.start(rng);
    let steps = b.steps(rng, 150, 2600);
    for _ in 0..steps {
        let hart = b.some_hart(rng);
        match rng.below(40) {
            0 => b.random_device(rng),
            1 => b.yield_hart(hart),
            _ => {
                let address = b.pointer(rng, hart, 16);
                step_and_mend(rng, &mut b, hart, 60, |rng| word(rng, xlen, address));
            }
        }
    }
    let (registers, words) = (rng.percent(30), rng.below(8));
    b.show(rng, registers, words);
    b
}

/// Whether to leave out a hart outside memory, which will trap for ever: mostly.
fn stuck(rng: &mut Rng, b: &Builder, hart: usize) -> bool {
    !b.inside(b.state.harts[hart].pc, 4) && rng.percent(90)
}

/// Steps a hart; if it traps, mostly puts another word where it is, so that it can go on.
fn step_and_mend(rng: &mut Rng, b: &mut Builder, hart: usize, percent: u64, another: impl Fn(&mut Rng) -> u32) {
    if stuck(rng, b, hart) {
        return;
    }
    if matches!(b.step(hart), Some(Outcome::Trap(_))) && rng.percent(percent) {
        b.device(b.state.harts[hart].pc, 4, another(rng) as u64);
    }
}

/// Harts in retry loops on one set or two, with plain stores, AMOs, device writes and yields between.
pub fn contention(rng: &mut Rng, mut b: Builder) -> Builder {
    b.enlarge();
    b.fill_registers(rng);
    let code = retry_loop(rng, b.xlen());
    b.put_words(&code);
    let size = b.state.set_size;
    let set = b.base + memory_unit(size) * (1 + rng.below(2));
    for h in 0..b.state.count {
        let hart = &mut b.state.harts[h];
        hart.pc = b.base + if rng.percent(70) { 0 } else { 4 * rng.below(8) };
        // In this set, in the next one, or just beside the two.
        let mut near = |p| if rng.percent(p) { set } else { set + rng.below(size / 4 + 2) * 8 - 8 };
        hart.x[5] = near(60);
        hart.x[10] = near(30);
    }
    b.start(rng);
    let steps = b.steps(rng, 200, 2600);
    let burst = rng.pick(&[0, 50, 80]);
    steps_in_bursts(rng, &mut b, steps, burst, 2);
    let (registers, words) = (rng.percent(50), rng.below(8));
    b.show(rng, registers, words);
    b
}

fn retry_loop(rng: &mut Rng, xlen: u32) -> [u32; 8] {
    // A word that RV32 hasn't keeps the harts where they are.
    let (rv32, odd) = (xlen == RV32, if xlen == RV32 { 2 } else { 15 });
    let funct3 = if rv32 && rng.percent(90) { W } else { some_width(rng, xlen) };
    let other = if rng.percent(odd) { W + D - funct3 } else { funct3 };
    let order = rng.reg() & 3;
    [
        atomic(LR, funct3, order, 6, 5, 0),
        i_type(0x13, 0, 8, 6, 1),
        if rng.percent(20) { b_type(1, 6, 9, 12) } else { NOP },
        atomic(SC, other, order, 7, 5, 8),
        b_type(1, 7, 0, -16),
        if rng.percent(40) { s_type(store_width(rng, xlen), 10, 8, 0) } else { NOP },
        if rng.percent(40) { atomic(rng.pick(&ATOMICS), funct3, 0, 12, 10, 0) } else { NOP },
        j_type(0, -28),
    ]
}

/// Steps, some of the same hart in a row so that a loop can finish, with device writes and yields between.
fn steps_in_bursts(rng: &mut Rng, b: &mut Builder, steps: u64, burst: u64, mended: u64) {
    let mut hart = 0;
    for _ in 0..steps {
        if !rng.percent(burst) {
            hart = rng.below(b.state.count as u64) as usize;
        }
        match rng.below(60) {
            0 => b.random_device(rng),
            1 => b.yield_hart(hart),
            _ => {
                let xlen = b.xlen();
                step_and_mend(rng, b, hart, mended, |rng| crowded_word(rng, xlen));
            }
        }
    }
}

/// Atomics and stores alone, by all harts on few addresses about the boundary of two sets or about the end of memory.
pub fn crowded(rng: &mut Rng, mut b: Builder) -> Builder {
    b.enlarge();
    b.fill_registers(rng);
    let mut code: Vec<u32> = (0..31).map(|_| crowded_word(rng, b.xlen())).collect();
    code.push(j_type(0, -124));
    b.put_words(&code);
    let (set, unit) = (b.state.set_size, memory_unit(b.state.set_size));
    let boundary = b.base + b.memory.len() as u64 - rng.pick(&[unit, unit, 0]);
    let few: [u64; 4] = std::array::from_fn(|_| {
        // In a set of more than 64 bytes also far from the boundary, at its other end.
        let far = if set > 64 && rng.percent(40) { rng.pick(&[boundary - unit, boundary + unit - 16]) } else { boundary };
        let place = far - 32 + 4 * rng.below(16);
        place & if rng.percent(60) { !15 } else { !0 }
    });
    for h in 0..b.state.count {
        let hart = &mut b.state.harts[h];
        hart.pc = b.base + 4 * rng.below(32);
        for r in 1..8 {
            hart.x[r] = if rng.percent(60) { rng.below(3).wrapping_sub(1) } else { rng.value() };
        }
        for r in 8..32 {
            if rng.percent(90) {
                hart.x[r] = rng.pick(&few);
            }
        }
    }
    b.start(rng);
    let steps = b.steps(rng, 150, 1200);
    let burst = rng.pick(&[0, 30, 60]);
    steps_in_bursts(rng, &mut b, steps, burst, 70);
    b
}

/// An atomic or a store that leaves x8 to x31, the addresses, as they are.
fn crowded_word(rng: &mut Rng, xlen: u32) -> u32 {
    let order = rng.reg() & 3;
    let funct3 = some_width(rng, xlen);
    let (rd, address, rs2) = (rng.reg() & 7, 8 + rng.below(24) as u32, rng.reg());
    match rng.below(20) {
        0..=5 => atomic(LR, funct3, order, rd, address, 0),
        6..=10 => atomic(SC, funct3, order, rd, address, rs2),
        11..=14 => atomic(rng.pick(&AMOS), funct3, order, rd, address, rs2),
        15..=17 => {
            let funct3 = cas_width(rng, xlen);
            let even = register_mask(funct3, xlen);
            atomic(CAS, funct3, order, rd & even, address, rs2 & even)
        }
        _ => s_type(store_width(rng, xlen), address, rs2, rng.below(5) as i64 * 8 - 16),
    }
}

/// Rounds in which harts reserve at few addresses about the boundary of two sets, and then harts and devices write there: so one write
/// breaks the reservations of many, each of them by another set, by the LR's bytes or not at all.
pub fn gathered(rng: &mut Rng, mut b: Builder) -> Builder {
    b.enlarge();
    if rng.percent(60) {
        b.state.count = MAX_HARTS;
    }
    b.fill_registers(rng);
    let (boundary, set) = (b.boundary(rng), b.state.set_size);
    let place = boundary - set + 8 * rng.below(set / 4);
    // The last 16 bytes of the set above; for sets of 8, the 16 that they are part of.
    let last = (boundary + set - 8) & !15;
    for h in 0..b.state.count {
        let hart = &mut b.state.harts[h];
        hart.pc = b.base + 4 * rng.below(15);
        let few = [place, place & !15, place ^ 4, boundary - 8, boundary, boundary - set, last, boundary - set + 4 * rng.below(set / 2)];
        hart.x[8..16].copy_from_slice(&few);
    }
    b.start(rng);
    // A round has about 24 events.
    let rounds = b.steps(rng, 300, 1800) / 24;
    for _ in 0..rounds {
        gather(rng, &mut b);
        for _ in 0..1 + rng.below(3) {
            write_or_not(rng, &mut b);
        }
    }
    let (registers, words) = (rng.percent(20), rng.below(8));
    b.show(rng, registers, words);
    b
}

/// An LR of some harts or of all, at one address or at several.
fn gather(rng: &mut Rng, b: &mut Builder) {
    let (some, same) = (rng.pick(&[50, 90, 100]), rng.pick(&[0, 60, 100]));
    for hart in 0..b.state.count {
        if rng.percent(some) {
            let address = if rng.percent(same) { 8 } else { few_pointer(rng) };
            let word = atomic(LR, some_width(rng, b.xlen()), rng.reg() & 3, rng.reg() & 7, address, 0);
            perform_in_first_line(b, hart, word);
        }
    }
}

/// One of the registers that hold the few addresses.
fn few_pointer(rng: &mut Rng) -> u32 {
    8 + rng.below(8) as u32
}

/// A write of any kind; now and then one that fails or traps, or a yield.
fn write_or_not(rng: &mut Rng, b: &mut Builder) {
    let hart = rng.below(b.state.count as u64) as usize;
    let (address, rs2, order) = (few_pointer(rng), rng.reg(), rng.reg() & 3);
    let width = some_width(rng, b.xlen());
    let word = match rng.below(20) {
        0..=3 => s_type(store_width(rng, b.xlen()), address, rs2, rng.pick(&[0, 0, 8, -8, 64, -64])),
        4..=7 => atomic(SC, width, order, rng.reg() & 7, address, rs2),
        8..=10 => atomic(rng.pick(&AMOS), width, order, rng.reg() & 7, address, rs2),
        11..=14 => {
            let width = cas_width(rng, b.xlen());
            return compare_with_loaded(rng, b, hart, address, width);
        }
        15 => return b.yield_hart(hart),
        _ => return b.random_device(rng),
    };
    perform_in_first_line(b, hart, word);
}

/// AMOCAS of what the hart has loaded just before: a device write of equal bytes would break reservations itself. Unequal by chance or where
/// the second half wasn't loaded.
fn compare_with_loaded(rng: &mut Rng, b: &mut Builder, hart: usize, address: u32, width: u32) {
    let (xlen, full) = (b.xlen(), full_width(b.xlen()));
    if rng.percent(80) {
        perform_in_first_line(b, hart, i_type(0x03, if width == W { W } else { full }, 6, address, 0));
    }
    if is_pair(width, xlen) && rng.percent(90) {
        perform_in_first_line(b, hart, i_type(0x03, full, 7, address, xlen as i64 / 8));
    }
    perform_in_first_line(b, hart, atomic(CAS, width, rng.reg() & 3, 6, address, rng.reg() & !1));
}

/// Performs a word within the first 64 bytes, where hardly anybody reserves: from the last word there the hart jumps back before.
fn perform_in_first_line(b: &mut Builder, hart: usize, word: u32) {
    if b.state.harts[hart].pc == b.base + 60 {
        b.perform(hart, j_type(0, -60));
    }
    b.perform(hart, word);
}

/// Rounds about one set: harts reserve in it or in the next one, and then harts and devices write just below it, onto its first bytes, inside,
/// onto its last bytes or just above.
pub fn edges(rng: &mut Rng, mut b: Builder) -> Builder {
    b.enlarge();
    if rng.percent(40) {
        b.state.count = MAX_HARTS;
    }
    b.fill_registers(rng);
    let (above, set) = (b.boundary(rng), b.state.set_size);
    let first = above - set;
    for h in 0..b.state.count {
        let hart = &mut b.state.harts[h];
        hart.pc = b.base + 4 * rng.below(15);
        hart.x[8..16].copy_from_slice(&about_set(rng, first, set));
    }
    b.start(rng);
    // A round has about 16 events.
    let rounds = b.steps(rng, 200, 1200) / 16;
    for _ in 0..rounds {
        gather(rng, &mut b);
        for _ in 0..1 + rng.below(2) {
            write_about_set(rng, &mut b, first);
        }
    }
    b
}

/// The registers x8 to x15 of `edges`: the first byte of the set and the first one above it; 4 and 16 bytes inside, or the 16 around a set of 8;
/// the last 8 and the last 4 bytes; the 8 bytes below; 4 bytes of the set above.
fn about_set(rng: &mut Rng, first: u64, set: u64) -> [u64; 8] {
    let mut inside = |width: u64| (first + width * rng.below((set / width).max(1))) & !(width - 1);
    let above = first + set;
    [first, above, inside(4), inside(16), above - 8, above - 4, first.wrapping_sub(8), inside(4) + set]
}

/// A write whose place is one of those about the set; now and then one that fails or traps, or a yield.
fn write_about_set(rng: &mut Rng, b: &mut Builder, first: u64) {
    let hart = rng.below(b.state.count as u64) as usize;
    let (rs2, order, set) = (rng.reg(), rng.reg() & 3, b.state.set_size);
    let (rd, address, width) = (rng.reg() & 7, few_pointer(rng), some_width(rng, b.xlen()));
    let word = match rng.below(20) {
        0..=4 => {
            // Just below the set or above it, onto its first or its last bytes: x8 and x9 are its ends.
            let funct3 = store_width(rng, b.xlen());
            s_type(funct3, 8 + rng.reg() % 2, rs2, if rng.percent(50) { 0 } else { -(1 << funct3) })
        }
        5 | 6 => {
            // Anywhere inside, as far as an offset goes.
            let funct3 = store_width(rng, b.xlen());
            s_type(funct3, 8, rs2, (rng.below(set.min(2048) >> funct3) as i64) << funct3)
        }
        7..=10 => {
            let inside = rng.pick(&[8, 10, 12, 13]);
            atomic(SC, width, order, rd, if rng.percent(60) { inside } else { address }, rs2)
        }
        11..=13 => atomic(rng.pick(&AMOS), width, order, rd, address, rs2),
        14 => return compare_with_loaded(rng, b, hart, address, width),
        // Two sets at once, if they have 8 bytes and a register has as many.
        15 | 16 => return compare_with_loaded(rng, b, hart, 11, if b.xlen() == RV32 { D } else { Q }),
        17 => return b.yield_hart(hart),
        _ => {
            let (size, edge) = (1 + rng.below(8), first + set * rng.below(2));
            return b.device(edge.wrapping_sub(rng.below(size + 1)), size as usize, rng.value());
        }
    };
    perform_in_first_line(b, hart, word);
}
