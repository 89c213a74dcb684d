//! Blocks for the checker of retry loops.

use super::words::{atomic, b_type, for_width, i_type, j_type, r_type, some_width, word, D, LR, SC, W};
use super::Rng;
use crate::word::{RV32, RV64};

/// A loop that 2.0 accepts, and 2.1 too if it has no JALR; or one without an SC, of a wrong length, or with up to three places changed. Half of them
/// are for the 32-bit kind too, but for a word now and then.
pub fn loop_block(rng: &mut Rng) -> Vec<u32> {
    let (length, sc) = shape(rng);
    let xlen = rng.pick(&[RV64, RV32]);
    let foreign = rng.percent(40);
    let funct3 = if xlen == RV64 || foreign { some_width(rng, xlen) } else { W };
    let address = if rng.percent(15) { 0 } else { rng.reg() };
    let jalrs = rng.pick(&[0, 0, 10, 50, 100]);
    let mut block = Vec::new();
    for place in 0..length {
        let other = |r: u32| if r == address { (r + 1) & 31 } else { r };
        let rd = if place < sc { other(rng.reg()) } else { rng.reg() };
        let (order, rs2) = (rng.reg() & 3, rng.reg());
        block.push(if place == 0 {
            atomic(LR, funct3, order, rd, address, 0)
        } else if place == sc {
            atomic(SC, funct3, order, rd, address, rs2)
        } else {
            let forward = 4 * (1 + rng.below(20) as i64);
            let to = if place > sc && rng.percent(50) { -4 * place } else { forward };
            match (rng.percent(jalrs), rng.percent(25)) {
                (true, true) => jalr(rng, 0, address),
                (true, false) => jalr(rng, rd, address),
                (false, _) if foreign => for_width(rng, xlen, |rng| permitted(rng, RV64, rd, rs2, to)),
                (false, _) => permitted(rng, xlen, rd, rs2, to),
            }
        });
    }
    if sc > 1 && rng.percent(10) {
        // Reason 4, unless the address is in x0.
        block[1 + rng.below(sc as u64 - 1) as usize] = jalr(rng, address, address);
    }
    for _ in 0..rng.below(3) {
        change(rng, xlen, &mut block, address);
    }
    block
}

/// How many words a block has, and the place of its SC: now and then the last one, or none.
fn shape(rng: &mut Rng) -> (i64, i64) {
    let length = match rng.below(100) {
        0..=3 => rng.pick(&[0, 1, 17, 18]),
        4..=15 => 16,
        _ => 2 + rng.below(15),
    };
    let sc = match rng.below(100) {
        0..=2 => length,
        3..=24 => length.saturating_sub(1),
        _ => 1 + rng.below(length.max(2) - 1),
    };
    (length as i64, sc.min(length) as i64)
}

/// A word that may stand in a loop; a jump goes by `to`.
fn permitted(rng: &mut Rng, xlen: u32, rd: u32, rs2: u32, to: i64) -> u32 {
    let rs1 = rng.reg();
    // The last two are of RV64 alone.
    match rng.below(if xlen == RV64 { 10 } else { 8 }) {
        0 => (rng.next() as u32 & !0xFFF) | rd << 7 | 0x37,
        1 => (rng.next() as u32 & !0xFFF) | rd << 7 | 0x17,
        2 => j_type(rd, to),
        3 | 4 => b_type(rng.pick(&[0, 1, 4, 5, 6, 7]), rs1, rs2, to),
        5 => r_type(0x33, rng.pick(&[0, 5]), rng.pick(&[0, 0x20]), rd, rs1, rs2),
        6 => i_type(0x13, rng.pick(&[0, 2, 3, 4, 6, 7]), rd, rs1, rng.below(4096) as i64),
        7 => i_type(0x13, rng.pick(&[1, 5]), rd, rs1, rng.below(xlen.into()) as i64),
        8 => r_type(0x3B, rng.pick(&[0, 5]), rng.pick(&[0, 0x20]), rd, rs1, rs2),
        _ => i_type(0x1B, 0, rd, rs1, rng.below(4096) as i64),
    }
}

/// A JALR to anywhere. Now and then its funct3 isn't 0: then it is no JALR, and no other instruction either.
fn jalr(rng: &mut Rng, rd: u32, address: u32) -> u32 {
    let rs1 = if rng.percent(30) { address } else { rng.reg() };
    i_type(0x67, if rng.percent(2) { rng.reg() & 7 } else { 0 }, rd, rs1, rng.below(4096) as i64)
}

fn change(rng: &mut Rng, xlen: u32, block: &mut [u32], address: u32) {
    if block.is_empty() {
        return;
    }
    let place = rng.below(block.len() as u64) as usize;
    let rd = rng.reg();
    block[place] = match rng.below(9) {
        0 => block[place] ^ 1 << rng.below(32),
        1 => word(rng, xlen, address),
        2 => i_type(0x13, 0, address, rd, 1),
        3 => b_type(1, rd, 0, 2 * (rng.below(64) as i64 - 32)),
        4 => j_type(rd, 2 * (rng.below(64) as i64 - 32)),
        5 => atomic(rng.pick(&[LR, SC]), rng.pick(&[W, D]), 0, rd, if rng.percent(80) { address } else { rd }, 0),
        6 => b_type(0, rd, rd, -4 * place as i64),
        _ => {
            let rd = rng.pick(&[address, address, 0, rd]);
            jalr(rng, rd, address)
        }
    };
}
