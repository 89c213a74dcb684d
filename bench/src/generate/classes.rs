//! Legal words, by their class in the opcode map.

use super::words::{atomic, b_type, i_type, j_type, r_type, s_type, u_type, ATOMICS, CAS, D, LR, Q, W};
use super::Rng;

/// Makes a random word.
pub type Maker = fn(&mut Rng) -> u32;

/// Each operation of a class is as likely as the others.
pub const CLASSES: [(&str, Maker); 14] = [
    ("LOAD", |rng| i_type(0x03, rng.pick(&[0, 1, 2, 3, 4, 5, 6]), rng.reg(), rng.reg(), imm(rng))),
    ("MISC-MEM", |rng| i_type(0x0F, 0, rng.reg(), rng.reg(), imm(rng))),
    ("OP-IMM", op_imm),
    ("AUIPC", |rng| u_type(0x17, rng.reg(), upper(rng))),
    ("OP-IMM-32", op_imm_32),
    ("STORE", |rng| s_type(rng.pick(&[0, 1, 2, 3]), rng.reg(), rng.reg(), imm(rng))),
    ("AMO", amo),
    ("OP", |rng| op(rng, 0x33, &[(0, 0), (0, 1), (0, 2), (0, 3), (0, 4), (0, 5), (0, 6), (0, 7), (0x20, 0), (0x20, 5)])),
    ("LUI", |rng| u_type(0x37, rng.reg(), upper(rng))),
    ("OP-32", |rng| op(rng, 0x3B, &[(0, 0), (0, 1), (0, 5), (0x20, 0), (0x20, 5)])),
    ("BRANCH", |rng| b_type(rng.pick(&[0, 1, 4, 5, 6, 7]), rng.reg(), rng.reg(), rng.below(1 << 13) as i64)),
    ("JALR", |rng| i_type(0x67, 0, rng.reg(), rng.reg(), imm(rng))),
    ("JAL", |rng| j_type(rng.reg(), rng.below(1 << 21) as i64)),
    ("SYSTEM", |rng| rng.pick(&[0x0000_0073, 0x0010_0073])),
];

fn imm(rng: &mut Rng) -> i64 {
    rng.below(1 << 12) as i64
}

fn upper(rng: &mut Rng) -> u32 {
    rng.below(1 << 20) as u32
}

fn op_imm(rng: &mut Rng) -> u32 {
    // Above the amount of a shift stands funct6.
    let (funct3, imm) = match rng.pick(&[(0, 0), (1, 0), (2, 0), (3, 0), (4, 0), (5, 0), (5, 0x10), (6, 0), (7, 0)]) {
        (funct3 @ (1 | 5), funct6) => (funct3, funct6 << 6 | rng.below(64) as i64),
        (funct3, _) => (funct3, imm(rng)),
    };
    i_type(0x13, funct3, rng.reg(), rng.reg(), imm)
}

fn op_imm_32(rng: &mut Rng) -> u32 {
    // Above the amount of a shift stands funct7.
    let (funct3, imm) = match rng.pick(&[(0, 0), (1, 0), (5, 0), (5, 0x20)]) {
        (0, _) => (0, imm(rng)),
        (funct3, funct7) => (funct3, funct7 << 5 | rng.below(32) as i64),
    };
    i_type(0x1B, funct3, rng.reg(), rng.reg(), imm)
}

/// `from` has funct7 and funct3 of every operation.
fn op(rng: &mut Rng, opcode: u32, from: &[(u32, u32)]) -> u32 {
    let (funct7, funct3) = rng.pick(from);
    r_type(opcode, funct3, funct7, rng.reg(), rng.reg(), rng.reg())
}

fn amo(rng: &mut Rng) -> u32 {
    let funct5 = rng.pick(&ATOMICS);
    let funct3 = rng.pick(if funct5 == CAS { &[W, D, Q] } else { &[W, D] });
    let rs2 = if funct5 == LR { 0 } else { rng.reg() };
    let even = if funct3 == Q { !1 } else { !0 };
    atomic(funct5, funct3, rng.reg() & 3, rng.reg() & even, rng.reg(), rs2 & even)
}

#[cfg(test)]
mod tests {
    use super::*;
    use crate::described::described;
    use crate::word::{decode, RV64};
    use std::collections::BTreeSet;

    const OPCODES: [u32; 14] = [0x03, 0x0F, 0x13, 0x17, 0x1B, 0x23, 0x2F, 0x33, 0x37, 0x3B, 0x63, 0x67, 0x6F, 0x73];

    /// What can be told apart without registers and immediate: kind, operation, width, aq and rl.
    fn operation(word: u32) -> Option<[u64; 4]> {
        decode(word, RV64).map(|instr| described(Some(instr), RV64)[..4].try_into().unwrap())
    }

    /// All operations of the words of an opcode: those that any funct3 and any 12 bits above rs1 make.
    fn operations(opcode: u32) -> BTreeSet<[u64; 4]> {
        (0..1 << 15).filter_map(|n| operation(opcode | (n & 7) << 12 | n >> 3 << 20)).collect()
    }

    /// Every word is legal and of its class, and every operation of the class is drawn.
    #[test]
    fn legal_words() {
        for ((name, make), opcode) in CLASSES.into_iter().zip(OPCODES) {
            let rng = &mut Rng::new(1);
            let words: Vec<u32> = (0..10_000).map(|_| make(rng)).collect();
            assert!(words.iter().all(|word| word & 0x7F == opcode), "{name}");
            let drawn: Option<BTreeSet<_>> = words.into_iter().map(operation).collect();
            assert_eq!(drawn, Some(operations(opcode)), "{name}");
        }
        assert_eq!(OPCODES.map(|opcode| operations(opcode).len()), [7, 1, 9, 1, 4, 4, 100, 10, 1, 5, 6, 1, 1, 2]);
    }

    /// No other opcode has a legal word.
    #[test]
    fn all_classes() {
        assert!((0..0x80).filter(|opcode| !OPCODES.contains(opcode)).all(|opcode| operations(opcode).is_empty()));
    }
}
