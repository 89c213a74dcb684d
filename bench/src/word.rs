//! The words: RV64I and RV32I without FENCE.I and CSRs, LR, SC, AMO and AMOCAS. What the two differ in is request 10 of document 02: "RV32I
//! words, LR.W and SC.W, the W AMOs, AMOCAS.W, and AMOCAS.D on even pairs by 001's rules, x0 pairs included. LR.D, SC.D, D AMOs and all Q are
//! cause 2."

/// The width of the registers in bits.
pub const RV32: u32 = 32;
pub const RV64: u32 = 64;

#[derive(Clone, Copy, PartialEq, Eq, Debug)]
pub enum Alu {
    Add,
    Sub,
    Sll,
    Slt,
    Sltu,
    Xor,
    Srl,
    Sra,
    Or,
    And,
}

#[derive(Clone, Copy, PartialEq, Eq, Debug)]
pub enum Cond {
    Eq,
    Ne,
    Lt,
    Ge,
    Ltu,
    Geu,
}

#[derive(Clone, Copy, PartialEq, Eq, Debug)]
pub enum AtomicOp {
    Lr,
    Sc,
    Cas,
    Swap,
    Add,
    Xor,
    Or,
    And,
    Min,
    Max,
    Minu,
    Maxu,
}

/// `width` is in bytes.
#[derive(Clone, Copy, PartialEq, Eq, Debug)]
pub struct Atomic {
    pub op: AtomicOp,
    pub width: u8,
    pub aq: bool,
    pub rl: bool,
    pub rd: u8,
    pub rs1: u8,
    pub rs2: u8,
}

impl Atomic {
    /// Whether it is an AMOCAS of register pairs, each register holding one half: AMOCAS.Q of RV64, AMOCAS.D of RV32.
    #[inline(always)]
    pub fn is_pair(self, xlen: u32) -> bool {
        self.op == AtomicOp::Cas && self.width as u32 == xlen / 4
    }
}

/// Immediates and offsets are sign-extended to 64 bits, whatever the width of the registers is.
#[derive(Clone, Copy, PartialEq, Eq, Debug)]
pub enum Instr {
    Lui { rd: u8, imm: u64 },
    Auipc { rd: u8, imm: u64 },
    Jal { rd: u8, offset: u64 },
    Jalr { rd: u8, rs1: u8, imm: u64 },
    Branch { cond: Cond, rs1: u8, rs2: u8, offset: u64 },
    Load { width: u8, signed: bool, rd: u8, rs1: u8, imm: u64 },
    Store { width: u8, rs1: u8, rs2: u8, imm: u64 },
    OpImm { op: Alu, rd: u8, rs1: u8, imm: u64 },
    Op { op: Alu, rd: u8, rs1: u8, rs2: u8 },
    OpImm32 { op: Alu, rd: u8, rs1: u8, imm: u64 },
    Op32 { op: Alu, rd: u8, rs1: u8, rs2: u8 },
    Fence,
    Ecall,
    Ebreak,
    Atomic(Atomic),
}

fn imm_i(w: u32) -> u64 {
    (w as i32 >> 20) as i64 as u64
}

fn imm_s(w: u32) -> u64 {
    ((w as i32 >> 25 << 5) | (w >> 7 & 31) as i32) as i64 as u64
}

fn imm_b(w: u32) -> u64 {
    let low = (w >> 7 & 1) << 11 | (w >> 25 & 63) << 5 | (w >> 8 & 15) << 1;
    ((w as i32 >> 31 << 12) | low as i32) as i64 as u64
}

fn imm_u(w: u32) -> u64 {
    (w & 0xFFFF_F000) as i32 as i64 as u64
}

fn imm_j(w: u32) -> u64 {
    let low = (w & 0x000F_F000) | (w >> 20 & 1) << 11 | (w >> 21 & 0x3FF) << 1;
    ((w as i32 >> 31 << 20) | low as i32) as i64 as u64
}

/// None is a word that is cause 2 for registers of `xlen` bits. Inlined, since an instruction that is handed on in memory costs a third of a
/// step, and so that a width that is known is no test.
#[inline(always)]
pub fn decode(w: u32, xlen: u32) -> Option<Instr> {
    let rv64 = xlen == RV64;
    let rd = (w >> 7 & 31) as u8;
    let funct3 = w >> 12 & 7;
    let rs1 = (w >> 15 & 31) as u8;
    let rs2 = (w >> 20 & 31) as u8;
    Some(match w & 0x7F {
        0x37 => Instr::Lui { rd, imm: imm_u(w) },
        0x17 => Instr::Auipc { rd, imm: imm_u(w) },
        0x6F => Instr::Jal { rd, offset: imm_j(w) },
        0x67 if funct3 == 0 => Instr::Jalr { rd, rs1, imm: imm_i(w) },
        0x63 => Instr::Branch { cond: cond(funct3)?, rs1, rs2, offset: imm_b(w) },
        0x03 if load(funct3, rv64) => Instr::Load { width: 1 << (funct3 & 3), signed: funct3 < 4, rd, rs1, imm: imm_i(w) },
        0x23 if funct3 < 3 || funct3 == 3 && rv64 => Instr::Store { width: 1 << funct3, rs1, rs2, imm: imm_s(w) },
        0x13 => Instr::OpImm { op: op_imm(funct3, w >> 25, rv64)?, rd, rs1, imm: imm_i(w) },
        0x1B if rv64 => Instr::OpImm32 { op: op_imm_32(funct3, w >> 25)?, rd, rs1, imm: imm_i(w) },
        0x33 => Instr::Op { op: op(funct3, w >> 25)?, rd, rs1, rs2 },
        0x3B if rv64 => Instr::Op32 { op: op_32(funct3, w >> 25)?, rd, rs1, rs2 },
        0x0F if funct3 == 0 => Instr::Fence,
        0x73 if w == 0x0000_0073 => Instr::Ecall,
        0x73 if w == 0x0010_0073 => Instr::Ebreak,
        0x2F => Instr::Atomic(atomic(w, rv64)?),
        _ => return None,
    })
}

/// LB, LH, LW, LBU, LHU; LD and LWU are of RV64 alone.
fn load(funct3: u32, rv64: bool) -> bool {
    match funct3 {
        3 | 6 => rv64,
        7 => false,
        _ => true,
    }
}

fn cond(funct3: u32) -> Option<Cond> {
    Some(match funct3 {
        0 => Cond::Eq,
        1 => Cond::Ne,
        4 => Cond::Lt,
        5 => Cond::Ge,
        6 => Cond::Ltu,
        7 => Cond::Geu,
        _ => return None,
    })
}

/// A shift amount has 6 bits in RV64, and its highest is the lowest of funct7; it has 5 in RV32.
fn op_imm(funct3: u32, funct7: u32, rv64: bool) -> Option<Alu> {
    let upper = if rv64 { funct7 & !1 } else { funct7 };
    Some(match (funct3, upper) {
        (0, _) => Alu::Add,
        (1, 0) => Alu::Sll,
        (2, _) => Alu::Slt,
        (3, _) => Alu::Sltu,
        (4, _) => Alu::Xor,
        (5, 0) => Alu::Srl,
        (5, 0x20) => Alu::Sra,
        (6, _) => Alu::Or,
        (7, _) => Alu::And,
        _ => return None,
    })
}

fn op_imm_32(funct3: u32, funct7: u32) -> Option<Alu> {
    Some(match (funct3, funct7) {
        (0, _) => Alu::Add,
        (1, 0) => Alu::Sll,
        (5, 0) => Alu::Srl,
        (5, 0x20) => Alu::Sra,
        _ => return None,
    })
}

fn op(funct3: u32, funct7: u32) -> Option<Alu> {
    Some(match (funct3, funct7) {
        (0, 0) => Alu::Add,
        (0, 0x20) => Alu::Sub,
        (1, 0) => Alu::Sll,
        (2, 0) => Alu::Slt,
        (3, 0) => Alu::Sltu,
        (4, 0) => Alu::Xor,
        (5, 0) => Alu::Srl,
        (5, 0x20) => Alu::Sra,
        (6, 0) => Alu::Or,
        (7, 0) => Alu::And,
        _ => return None,
    })
}

fn op_32(funct3: u32, funct7: u32) -> Option<Alu> {
    Some(match (funct3, funct7) {
        (0, 0) => Alu::Add,
        (0, 0x20) => Alu::Sub,
        (1, 0) => Alu::Sll,
        (5, 0) => Alu::Srl,
        (5, 0x20) => Alu::Sra,
        _ => return None,
    })
}

/// Inlined as `decode` is.
#[inline(always)]
fn atomic(w: u32, rv64: bool) -> Option<Atomic> {
    let [rd, rs1, rs2] = [7, 15, 20].map(|bit| (w >> bit & 31) as u8);
    let op = atomic_op(w >> 27, rs2)?;
    // "The instruction requires the first register in the pair to be even numbered": 001, of AMOCAS.D for RV32 as of AMOCAS.Q.
    let pair = op == AtomicOp::Cas && rd & 1 == 0 && rs2 & 1 == 0;
    let width = match w >> 12 & 7 {
        2 => 4,
        3 if rv64 || pair => 8,
        4 if rv64 && pair => 16,
        _ => return None,
    };
    Some(Atomic { op, width, aq: w >> 26 & 1 == 1, rl: w >> 25 & 1 == 1, rd, rs1, rs2 })
}

/// Inlined as `decode` is.
#[inline(always)]
fn atomic_op(funct5: u32, rs2: u8) -> Option<AtomicOp> {
    Some(match funct5 {
        0 => AtomicOp::Add,
        1 => AtomicOp::Swap,
        2 if rs2 == 0 => AtomicOp::Lr,
        3 => AtomicOp::Sc,
        4 => AtomicOp::Xor,
        5 => AtomicOp::Cas,
        8 => AtomicOp::Or,
        12 => AtomicOp::And,
        16 => AtomicOp::Min,
        20 => AtomicOp::Max,
        24 => AtomicOp::Minu,
        28 => AtomicOp::Maxu,
        _ => return None,
    })
}

#[cfg(test)]
mod tests {
    use super::*;
    use crate::generate::words::{atomic, i_type, r_type, s_type, AMOS, CAS, D, LR, Q, SC, W};

    fn legal(w: u32) -> [bool; 2] {
        [RV64, RV32].map(|xlen| decode(w, xlen).is_some())
    }

    /// What RV64 alone has is no word of RV32.
    #[test]
    fn of_rv64_alone() {
        for w in
            [i_type(0x03, 3, 1, 2, 0), i_type(0x03, 6, 1, 2, 0), s_type(3, 1, 2, 0), i_type(0x1B, 0, 1, 2, 0), i_type(0x1B, 5, 1, 2, 0x41F)]
        {
            assert_eq!(legal(w), [true, false], "{w:08x}");
        }
        for (funct3, funct7) in [(0, 0), (0, 0x20), (1, 0), (5, 0), (5, 0x20)] {
            assert_eq!(legal(r_type(0x3B, funct3, funct7, 1, 2, 3)), [true, false]);
            assert_eq!(legal(r_type(0x33, funct3, funct7, 1, 2, 3)), [true, true]);
        }
        for order in 0..4 {
            for w in [atomic(LR, D, order, 6, 5, 0), atomic(SC, D, order, 6, 5, 8), atomic(CAS, Q, order, 6, 5, 8)] {
                assert_eq!(legal(w), [true, false], "{w:08x}");
            }
            for op in AMOS {
                assert_eq!(legal(atomic(op, D, order, 6, 5, 8)), [true, false], "{op}");
                assert_eq!(legal(atomic(op, W, order, 6, 5, 8)), [true, true], "{op}");
            }
        }
    }

    /// Every amount that 6 bits hold, of each shift; the bit above them is no part of it.
    #[test]
    fn shift_amounts() {
        for amount in 0..64 {
            for (funct3, above) in [(1, 0), (5, 0), (5, 0x400)] {
                assert_eq!(legal(i_type(0x13, funct3, 1, 2, above | amount)), [true, amount < 32], "{funct3} {amount}");
                assert_eq!(legal(i_type(0x13, funct3, 1, 2, 0x800 | above | amount)), [false, false]);
            }
        }
    }

    /// AMOCAS.D of RV32 names even registers, as AMOCAS.Q of RV64 does; AMOCAS.W any.
    #[test]
    fn pairs() {
        for (rd, rs2) in (0..32).flat_map(|rd| (0..32).map(move |rs2| (rd, rs2))) {
            let even = rd % 2 == 0 && rs2 % 2 == 0;
            assert_eq!(legal(atomic(CAS, W, 0, rd, 5, rs2)), [true, true]);
            assert_eq!(legal(atomic(CAS, D, 0, rd, 5, rs2)), [true, even]);
            assert_eq!(legal(atomic(CAS, Q, 0, rd, 5, rs2)), [even, false]);
        }
        let is_pair = |funct3, xlen| matches!(decode(atomic(CAS, funct3, 0, 6, 5, 8), xlen), Some(Instr::Atomic(a)) if a.is_pair(xlen));
        assert_eq!([W, D, Q].map(|funct3| is_pair(funct3, RV64)), [false, false, true]);
        assert_eq!([W, D].map(|funct3| is_pair(funct3, RV32)), [false, true]);
    }

    /// A word of RV32 is one of RV64, and means the same but for AMOCAS.D: every opcode with any funct3 and any 12 bits above rs1.
    #[test]
    fn words_of_both() {
        for n in 0..1 << 22u32 {
            let w = (n & 0x7F) | (n >> 7 & 7) << 12 | (n >> 10) << 20 | 6 << 7 | 5 << 15;
            let narrow = decode(w, RV32);
            assert!(narrow.is_none() || narrow == decode(w, RV64), "{w:08x}");
        }
    }
}
