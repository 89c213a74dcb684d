//! All that an instruction holds, as numbers: what bench/words says of the proved decoder's instructions, said of this crate's.

use crate::word::{Alu, Atomic, AtomicOp, Instr};

/// In the order of FIELDS; 0 where the instruction holds no such thing.
pub type Described = [u64; 8];

/// The kind is the number of the variant of the proved decoder, and so is the operation; width is 0 for words and 1 for doublewords, that of each half
/// of a pair; aq and rl are 2 and 1.
pub const FIELDS: [&str; 8] = ["kind", "operation", "width", "aq-rl", "rd", "rs1", "rs2", "imm"];

pub const ILLEGAL: u64 = 0;
pub const FENCE: u64 = 12;

/// Of an instruction for registers of `xlen` bits. The fields of a FENCE are not among what this crate's decoder tells.
#[inline(always)]
pub fn described(instr: Option<Instr>, xlen: u32) -> Described {
    let Some(instr) = instr else {
        return [0; 8];
    };
    match instr {
        Instr::Lui { rd, imm } => numbers(1, 0, rd, 0, 0, imm),
        Instr::Auipc { rd, imm } => numbers(2, 0, rd, 0, 0, imm),
        Instr::Jal { rd, offset } => numbers(3, 0, rd, 0, 0, offset),
        Instr::Jalr { rd, rs1, imm } => numbers(4, 0, rd, rs1, 0, imm),
        // Conditions and operations of the ALU have the proved decoder's order.
        Instr::Branch { cond, rs1, rs2, offset } => numbers(5, cond as u64, 0, rs1, rs2, offset),
        Instr::Load { width, signed, rd, rs1, imm } => numbers(6, size(width) + 4 * !signed as u64, rd, rs1, 0, imm),
        Instr::Store { width, rs1, rs2, imm } => numbers(7, size(width), 0, rs1, rs2, imm),
        Instr::OpImm { op, rd, rs1, imm } => numbers(8, op as u64, rd, rs1, 0, operand(op, imm, 63)),
        Instr::OpImm32 { op, rd, rs1, imm } => numbers(9, op as u64, rd, rs1, 0, operand(op, imm, 31)),
        Instr::Op { op, rd, rs1, rs2 } => numbers(10, op as u64, rd, rs1, rs2, 0),
        Instr::Op32 { op, rd, rs1, rs2 } => numbers(11, op as u64, rd, rs1, rs2, 0),
        Instr::Fence => numbers(FENCE, 0, 0, 0, 0, 0),
        Instr::Ecall => numbers(13, 0, 0, 0, 0, 0),
        Instr::Ebreak => numbers(14, 0, 0, 0, 0, 0),
        Instr::Atomic(a) => atomic(a, xlen),
    }
}

fn numbers(kind: u64, operation: u64, rd: u8, rs1: u8, rs2: u8, imm: u64) -> Described {
    [kind, operation, 0, 0, rd.into(), rs1.into(), rs2.into(), imm]
}

fn size(width: u8) -> u64 {
    width.trailing_zeros().into()
}

/// This crate keeps the bits above a shift amount in the immediate, and its machine doesn't look at them.
fn operand(op: Alu, imm: u64, most: u64) -> u64 {
    match op {
        Alu::Sll | Alu::Srl | Alu::Sra => imm & most,
        _ => imm,
    }
}

/// AMOCAS of pairs has an operation of its own, on doublewords in RV64 and on words in RV32.
fn atomic(a: Atomic, xlen: u32) -> Described {
    let operation = match a.op {
        AtomicOp::Lr => 0,
        AtomicOp::Sc => 1,
        AtomicOp::Cas if !a.is_pair(xlen) => 2,
        AtomicOp::Cas => 3,
        AtomicOp::Swap => 4,
        AtomicOp::Add => 5,
        AtomicOp::Xor => 6,
        AtomicOp::And => 7,
        AtomicOp::Or => 8,
        AtomicOp::Min => 9,
        AtomicOp::Max => 10,
        AtomicOp::Minu => 11,
        AtomicOp::Maxu => 12,
    };
    let mut all = numbers(15, operation, a.rd, a.rs1, a.rs2, 0);
    all[2] = (a.width > 4 && xlen > 32).into();
    all[3] = 2 * a.aq as u64 + a.rl as u64;
    all
}

#[cfg(test)]
mod tests {
    use super::*;
    use crate::generate::words::{atomic, i_type, CAS, D, Q};
    use crate::word::{decode, RV32, RV64};

    #[test]
    fn examples() {
        let of = |word| described(decode(word, RV64), RV64);
        assert_eq!(of(0), [0; 8]);
        // LWU x7, -1(x9).
        assert_eq!(of(i_type(0x03, 6, 7, 9, -1)), [6, 6, 0, 0, 7, 9, 0, u64::MAX]);
        // SRAI x1, x2, 63 and SRAIW x1, x2, 31.
        assert_eq!(of(i_type(0x13, 5, 1, 2, 0x43F)), [8, 7, 0, 0, 1, 2, 0, 63]);
        assert_eq!(of(i_type(0x1B, 5, 1, 2, 0x41F)), [9, 7, 0, 0, 1, 2, 0, 31]);
        // AMOCAS.Q.aq x4, x6, (x5).
        assert_eq!(of(atomic(CAS, Q, 2, 4, 5, 6)), [15, 3, 1, 2, 4, 5, 6, 0]);
        assert_eq!(of(0x8330_000F), [FENCE, 0, 0, 0, 0, 0, 0, 0]);
    }

    /// Immediates are those of RV64; AMOCAS.D is a pair of words.
    #[test]
    fn examples_of_rv32() {
        let of = |word| described(decode(word, RV32), RV32);
        assert_eq!(of(i_type(0x03, 2, 7, 9, -1)), [6, 2, 0, 0, 7, 9, 0, u64::MAX]);
        assert_eq!(of(i_type(0x13, 5, 1, 2, 0x41F)), [8, 7, 0, 0, 1, 2, 0, 31]);
        assert_eq!(of(atomic(CAS, D, 1, 4, 5, 6)), [15, 3, 0, 1, 4, 5, 6, 0]);
        for word in [i_type(0x03, 6, 7, 9, -1), i_type(0x13, 5, 1, 2, 0x43F), atomic(CAS, D, 1, 4, 5, 7), atomic(CAS, Q, 2, 4, 5, 6)] {
            assert_eq!(of(word), [0; 8]);
        }
    }
}
