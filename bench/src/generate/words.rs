//! Words: how they are encoded, and random ones of every class.

use super::Rng;
use crate::word::{decode, RV32, RV64};

/// funct5 of the atomics.
pub const LR: u32 = 2;
pub const SC: u32 = 3;
pub const CAS: u32 = 5;
pub const AMOS: [u32; 9] = [0, 1, 4, 8, 12, 16, 20, 24, 28];
pub const ATOMICS: [u32; 12] = [0, 1, 2, 3, 4, 5, 8, 12, 16, 20, 24, 28];

/// funct3 of the atomics' widths.
pub const W: u32 = 2;
pub const D: u32 = 3;
pub const Q: u32 = 4;

pub const NOP: u32 = 0x13;

/// funct3 of a load, a store or an atomic of a whole register.
pub fn full_width(xlen: u32) -> u32 {
    if xlen == RV32 {
        W
    } else {
        D
    }
}

/// funct3 of an atomic: in RV32 mostly W, since D is no word of it.
pub fn some_width(rng: &mut Rng, xlen: u32) -> u32 {
    if xlen == RV32 && rng.percent(80) {
        W
    } else {
        rng.pick(&[W, D])
    }
}

/// funct3 of an AMOCAS: in RV32 mostly one of its two.
pub fn cas_width(rng: &mut Rng, xlen: u32) -> u32 {
    if xlen == RV32 && rng.percent(85) {
        rng.pick(&[W, D, D])
    } else {
        rng.pick(&[W, D, Q])
    }
}

/// Whether an AMOCAS of this funct3 is one of register pairs.
pub fn is_pair(funct3: u32, xlen: u32) -> bool {
    funct3 == if xlen == RV32 { D } else { Q }
}

/// What to take of a register's number for an AMOCAS of this funct3: an even one, if it is one of pairs.
pub fn register_mask(funct3: u32, xlen: u32) -> u32 {
    if is_pair(funct3, xlen) || funct3 == Q {
        !1
    } else {
        !0
    }
}

/// funct3 of a store: in RV32 seldom SD, which is no word of it.
pub fn store_width(rng: &mut Rng, xlen: u32) -> u32 {
    if xlen == RV32 && rng.percent(85) {
        rng.pick(&[0, 1, 2])
    } else {
        rng.reg() & 3
    }
}

/// A word that `make` gives: for RV32 now and then one that RV64 alone has, mostly not.
pub fn for_width(rng: &mut Rng, xlen: u32, make: impl Fn(&mut Rng) -> u32) -> u32 {
    let mut w = make(rng);
    for _ in 0..4 {
        let foreign = decode(w, xlen).is_none() && decode(w, RV64).is_some();
        if !foreign || rng.percent(15) {
            break;
        }
        w = make(rng);
    }
    w
}

pub fn r_type(opcode: u32, funct3: u32, funct7: u32, rd: u32, rs1: u32, rs2: u32) -> u32 {
    opcode | rd << 7 | funct3 << 12 | rs1 << 15 | rs2 << 20 | funct7 << 25
}

pub fn i_type(opcode: u32, funct3: u32, rd: u32, rs1: u32, imm: i64) -> u32 {
    opcode | rd << 7 | funct3 << 12 | rs1 << 15 | (imm as u32) << 20
}

pub fn s_type(funct3: u32, rs1: u32, rs2: u32, imm: i64) -> u32 {
    let imm = imm as u32;
    0x23 | (imm & 31) << 7 | funct3 << 12 | rs1 << 15 | rs2 << 20 | (imm >> 5 & 127) << 25
}

pub fn b_type(funct3: u32, rs1: u32, rs2: u32, offset: i64) -> u32 {
    let o = offset as u32;
    0x63 | (o >> 11 & 1) << 7 | (o >> 1 & 15) << 8 | funct3 << 12 | rs1 << 15 | rs2 << 20 | (o >> 5 & 63) << 25 | (o >> 12 & 1) << 31
}

pub fn u_type(opcode: u32, rd: u32, upper: u32) -> u32 {
    opcode | rd << 7 | upper << 12
}

pub fn j_type(rd: u32, offset: i64) -> u32 {
    let o = offset as u32;
    0x6F | rd << 7 | (o & 0xF_F000) | (o >> 11 & 1) << 20 | (o >> 1 & 0x3FF) << 21 | (o >> 20 & 1) << 31
}

/// `order` is aq and rl.
pub fn atomic(funct5: u32, funct3: u32, order: u32, rd: u32, rs1: u32, rs2: u32) -> u32 {
    r_type(0x2F, funct3, funct5 << 2 | order, rd, rs1, rs2)
}

/// A word of any class; `address` is the register that memory words use.
pub fn word(rng: &mut Rng, xlen: u32, address: u32) -> u32 {
    for_width(rng, xlen, |rng| any_word(rng, address))
}

/// Those of RV64.
fn any_word(rng: &mut Rng, address: u32) -> u32 {
    let (rd, rs1, rs2) = (rng.reg(), rng.reg(), rng.reg());
    let near = if rng.percent(85) { rng.below(9) as i64 * 8 - 32 } else { rng.below(4096) as i64 - 2048 };
    let jump = if rng.percent(85) { rng.below(33) as i64 * 4 - 64 } else { (rng.below(0x2000) as i64 - 0x1000) & !1 };
    match rng.below(20) {
        0 => (rng.next() as u32 & !0x7F) | 0x37,
        1 => (rng.next() as u32 & !0x7F) | 0x17,
        2 => j_type(rd, jump),
        3 => i_type(0x67, if rng.percent(5) { rng.reg() & 7 } else { 0 }, rd, if rng.percent(70) { address } else { rs1 }, near),
        4 | 5 => b_type(rng.reg() & 7, rs1, if rng.percent(30) { rs1 } else { rs2 }, jump),
        6 | 7 => i_type(0x03, rng.reg() & 7, rd, address, near),
        8 | 9 => s_type(rng.reg() & if rng.percent(5) { 7 } else { 3 }, address, rs2, near),
        10 => op_imm(rng, rd, rs1),
        11 => op_imm_32(rng, rd, rs1),
        12 | 13 => {
            let opcode = rng.pick(&[0x33, 0x3B]);
            let funct7 = if rng.percent(5) { rng.below(128) as u32 } else { rng.pick(&[0, 0, 0x20]) };
            r_type(opcode, rng.reg() & 7, funct7, rd, rs1, rs2)
        }
        14 => system_or_fence(rng),
        15 => doubtful(rng, rd, address, rs2),
        _ => any_atomic(rng, rd, address, rs2),
    }
}

fn op_imm(rng: &mut Rng, rd: u32, rs1: u32) -> u32 {
    let funct3 = rng.reg() & 7;
    let imm = match funct3 {
        1 | 5 if rng.percent(90) => rng.below(64) as i64 | if funct3 == 5 && rng.percent(50) { 0x400 } else { 0 },
        _ => rng.below(4096) as i64,
    };
    i_type(0x13, funct3, rd, rs1, imm)
}

fn op_imm_32(rng: &mut Rng, rd: u32, rs1: u32) -> u32 {
    let funct3 = if rng.percent(90) { rng.pick(&[0, 1, 5]) } else { rng.reg() & 7 };
    let imm = match funct3 {
        1 | 5 if rng.percent(90) => rng.below(33) as i64 | if funct3 == 5 && rng.percent(50) { 0x400 } else { 0 },
        _ => rng.below(4096) as i64,
    };
    i_type(0x1B, funct3, rd, rs1, imm)
}

fn system_or_fence(rng: &mut Rng) -> u32 {
    match rng.below(8) {
        0 => 0x73,
        1 => 0x0010_0073,
        2 => (rng.next() as u32 & !0x7F) | 0x73,
        3 => (rng.next() as u32 & !0x7F) | 0x0F,
        _ => (rng.next() as u32 & !0x707F) | 0x0F,
    }
}

/// An atomic with fields that may be wrong, or any word.
fn doubtful(rng: &mut Rng, rd: u32, address: u32, rs2: u32) -> u32 {
    let w = if rng.percent(50) { atomic(rng.reg(), rng.reg() & 7, rng.reg() & 3, rd, address, rs2) } else { rng.next() as u32 };
    if rng.percent(50) {
        w | 3
    } else {
        w
    }
}

fn any_atomic(rng: &mut Rng, rd: u32, address: u32, rs2: u32) -> u32 {
    let funct5 = rng.pick(&ATOMICS);
    let order = rng.reg() & 3;
    let lr = funct5 == LR && rng.percent(97);
    let funct3 = if funct5 == CAS { rng.pick(&[W, D, Q, Q]) } else { rng.pick(&[W, D]) };
    // A D is one of RV32 too, if both are even.
    let even = if funct3 == Q && rng.percent(95) || funct3 == D && rng.percent(30) { !1 } else { !0 };
    let rd = if rng.percent(10) { rs2 } else { rd };
    atomic(funct5, funct3, order, rd & even, address, if lr { 0 } else { rs2 & even })
}
