//! The checker of retry loops, by the version of the A extension and the kind of core: document 01's rules, and requests 7 and 10 of document 02.

use crate::machine::{kind_allowed, version_allowed, xlen, A_2_0};
use crate::word::{decode, Atomic, AtomicOp, Instr};

#[derive(Clone, Copy, PartialEq, Eq, Debug)]
pub enum Verdict {
    Accepted,
    Rejected { place: usize, reason: u8 },
}

fn atomic(instr: Option<Instr>, op: AtomicOp) -> Option<Atomic> {
    match instr {
        Some(Instr::Atomic(a)) if a.op == op => Some(a),
        _ => None,
    }
}

/// The rd of a word that a loop may hold between LR and SC.
fn destination(instr: Instr) -> Option<u8> {
    match instr {
        Instr::Lui { rd, .. }
        | Instr::Auipc { rd, .. }
        | Instr::Jal { rd, .. }
        | Instr::Jalr { rd, .. }
        | Instr::Op { rd, .. }
        | Instr::OpImm { rd, .. }
        | Instr::Op32 { rd, .. }
        | Instr::OpImm32 { rd, .. } => Some(rd),
        _ => None,
    }
}

/// Err is refusal 2, "any other version" or another kind, or after it refusal 6. "loop words are read as RV32I" for the 32-bit kind: so an LR.D is
/// no LR, an SC.D no SC, and a word of OP-32 isn't permitted.
pub fn check_loop(version: u64, kind: u64, block: &[u32]) -> Result<Verdict, u8> {
    if !version_allowed(version) || !kind_allowed(kind) {
        return Err(2);
    }
    let decode = |word| decode(word, xlen(kind));
    if !(2..=16).contains(&block.len()) {
        return Err(6);
    }
    let reject = |place, reason| Ok(Verdict::Rejected { place, reason });
    let Some(lr) = atomic(decode(block[0]), AtomicOp::Lr) else {
        return reject(0, 1);
    };
    if kept(lr, lr.rd) {
        return reject(0, 4);
    }
    let mut seen_sc = false;
    for (place, &word) in block.iter().enumerate().skip(1) {
        let instr = decode(word);
        let reason = match atomic(instr, AtomicOp::Sc) {
            Some(sc) if !seen_sc => {
                seen_sc = true;
                (sc.width != lr.width || sc.rs1 != lr.rs1).then_some(5)
            }
            _ => reason_of(version, lr, instr, place, seen_sc),
        };
        if let Some(reason) = reason {
            return reject(place, reason);
        }
    }
    if seen_sc {
        Ok(Verdict::Accepted)
    } else {
        reject(block.len(), 6)
    }
}

/// Whether rd is the register that must stay, up to the first SC.
fn kept(lr: Atomic, rd: u8) -> bool {
    lr.rs1 != 0 && rd == lr.rs1
}

/// The lowest reason against a later word that isn't the first SC. Under 2.0 "the loop rules also allow JALR as any later word, reason 4 still
/// applying": where it leads is no matter, since reason 3 is about "A JAL or branch" alone.
fn reason_of(version: u64, lr: Atomic, instr: Option<Instr>, place: usize, seen_sc: bool) -> Option<u8> {
    let Some(instr) = instr else {
        return Some(2);
    };
    match instr {
        Instr::Jal { offset, .. } | Instr::Branch { offset, .. } => {
            let offset = offset as i64;
            let back_to_start = seen_sc && offset == -4 * place as i64;
            if offset % 4 != 0 || (offset <= 0 && !back_to_start) {
                return Some(3);
            }
        }
        Instr::Jalr { .. } if version == A_2_0 => {}
        Instr::Lui { .. } | Instr::Auipc { .. } => {}
        Instr::Op { .. } | Instr::OpImm { .. } | Instr::Op32 { .. } | Instr::OpImm32 { .. } => {}
        _ => return Some(2),
    }
    (!seen_sc && destination(instr).is_some_and(|rd| kept(lr, rd))).then_some(4)
}

#[cfg(test)]
mod tests {
    use super::*;
    use crate::generate::words::{i_type, NOP};
    use crate::generate::{loop_block, Rng};
    use crate::machine::{A_2_1, KIND_32, KIND_64};
    use crate::word::RV64;

    const LR: u32 = 0x1002A32F;
    const SC: u32 = 0x1882A3AF;

    fn rejected(place: usize, reason: u8) -> Result<Verdict, u8> {
        Ok(Verdict::Rejected { place, reason })
    }

    #[test]
    fn edge_12() {
        for version in [A_2_0, A_2_1] {
            let block = [LR, 0x00731663, SC, 0xFE039AE3];
            assert_eq!(check_loop(version, KIND_64, &block), Ok(Verdict::Accepted));
            let mut other = block;
            other[0] = 0x1002A2AF;
            assert_eq!(check_loop(version, KIND_64, &other), rejected(0, 4));
            assert_eq!(check_loop(version, KIND_64, &block[..2]), rejected(2, 6));
            assert_eq!(check_loop(version, KIND_64, &block[..1]), Err(6));
            other = block;
            other[3] = 0xFE039CE3;
            assert_eq!(check_loop(version, KIND_64, &other), rejected(3, 3));
        }
    }

    /// A JALR with every rd and some offsets at every place of a block of every length, with the SC at every place before it or behind it.
    #[test]
    fn jalr() {
        for length in 3..=16 {
            for place in 1..length {
                for sc in (1..length).filter(|&sc| sc != place) {
                    let mut block = vec![NOP; length];
                    (block[0], block[sc]) = (LR, SC);
                    for (rd, rs1, imm) in (0..32).flat_map(|rd| [(rd, 1, 0), (rd, 5, -4), (rd, 0, 2), (rd, rd, 2047)]) {
                        block[place] = i_type(0x67, 0, rd, rs1, imm);
                        // x5 is the LR's rs1.
                        let under_2_0 = if place < sc && rd == 5 { rejected(place, 4) } else { Ok(Verdict::Accepted) };
                        assert_eq!(check_loop(A_2_0, KIND_64, &block), under_2_0);
                        assert_eq!(check_loop(A_2_1, KIND_64, &block), rejected(place, 2));
                    }
                    // Another funct3 is no JALR.
                    block[place] = i_type(0x67, 1 + place as u32 % 7, 1, 1, 0);
                    assert_eq!(check_loop(A_2_0, KIND_64, &block), rejected(place, 2));
                }
            }
        }
    }

    /// At place 0, without an SC, with x0 for rs1, and all words but two.
    #[test]
    fn jalr_at_the_edges() {
        let (ret, to_x0, to_x5) = (i_type(0x67, 0, 0, 1, 0), i_type(0x67, 0, 0, 0, 0), i_type(0x67, 0, 5, 1, 0));
        for version in [A_2_0, A_2_1] {
            assert_eq!(check_loop(version, KIND_64, &[ret, SC]), rejected(0, 1));
        }
        assert_eq!(check_loop(A_2_0, KIND_64, &[LR, ret]), rejected(2, 6));
        assert_eq!(check_loop(A_2_0, KIND_64, &[LR, ret, to_x5, SC]), rejected(2, 4));
        assert_eq!(check_loop(A_2_0, KIND_64, &[LR, ret, to_x5]), rejected(2, 4));
        assert_eq!(check_loop(A_2_0, KIND_64, &[0x1000232F, to_x0, 0x188023AF]), Ok(Verdict::Accepted));
        let mut block = vec![LR];
        block.extend([ret; 14]);
        block.push(SC);
        assert_eq!(check_loop(A_2_0, KIND_64, &block), Ok(Verdict::Accepted));
        block.insert(1, ret);
        assert_eq!(check_loop(A_2_0, KIND_64, &block), Err(6));
    }

    /// "for 2.0 only for loops with no JALR; show that these are exactly the loops that 2.1 accepts".
    #[test]
    fn without_a_jalr() {
        let (rng, mut met) = (&mut Rng::new(7), [[0; 2]; 2]);
        for _ in 0..20_000 {
            let block = loop_block(rng);
            let has_jalr = block.iter().any(|&word| matches!(decode(word, RV64), Some(Instr::Jalr { .. })));
            let [under_2_0, under_2_1] = [A_2_0, A_2_1].map(|version| check_loop(version, KIND_64, &block));
            let accepted = under_2_0 == Ok(Verdict::Accepted);
            assert_eq!(under_2_1 == Ok(Verdict::Accepted), accepted && !has_jalr);
            assert!(has_jalr || under_2_0 == under_2_1);
            met[has_jalr as usize][accepted as usize] += 1;
        }
        assert!(met.iter().flatten().all(|&times| times > 1000), "{met:?}");
    }

    /// "loop words are read as RV32I": LR.D, SC.D, a word of OP-32 or of OP-IMM-32, a shift by 32 and all else that RV32I hasn't.
    #[test]
    fn of_rv32() {
        let both = |block: &[u32]| [KIND_64, KIND_32].map(|kind| check_loop(A_2_1, kind, block));
        let (lr_d, sc_d) = (LR | 1 << 12, SC | 1 << 12);
        assert_eq!(both(&[LR, NOP, SC]), [Ok(Verdict::Accepted); 2]);
        assert_eq!(both(&[lr_d, NOP, sc_d]), [Ok(Verdict::Accepted), rejected(0, 1)]);
        // An SC.D is the first SC of RV64 and of another width; it is no SC of RV32.
        assert_eq!(both(&[LR, sc_d]), [rejected(1, 5), rejected(1, 2)]);
        assert_eq!(both(&[LR, SC, sc_d]), [rejected(2, 2); 2]);
        let alone = [0x1B, 0x1B | 5 << 12, 0x3B, 0x3B | 5 << 12 | 0x20 << 25, i_type(0x13, 1, 6, 6, 32), i_type(0x13, 5, 6, 6, 0x43F)];
        for word in alone {
            assert_eq!(both(&[LR, word, SC]), [Ok(Verdict::Accepted), rejected(1, 2)], "{word:08x}");
            assert_eq!(both(&[LR, SC, word]), [Ok(Verdict::Accepted), rejected(2, 2)], "{word:08x}");
        }
        for word in [i_type(0x13, 1, 6, 6, 31), i_type(0x13, 5, 6, 6, 0x41F)] {
            assert_eq!(both(&[LR, word, SC]), [Ok(Verdict::Accepted); 2], "{word:08x}");
        }
        // 2.0's JALR, of both kinds.
        assert_eq!(check_loop(A_2_0, KIND_32, &[LR, i_type(0x67, 0, 0, 1, 0), SC]), Ok(Verdict::Accepted));
    }

    /// What the 32-bit kind accepts the 64-bit kind accepts.
    #[test]
    fn accepted_by_both_kinds() {
        let (rng, mut met) = (&mut Rng::new(3), [[0; 2]; 2]);
        for _ in 0..10_000 {
            let (block, version) = (loop_block(rng), rng.pick(&[A_2_0, A_2_1]));
            let [wide, narrow] = [KIND_64, KIND_32].map(|kind| check_loop(version, kind, &block) == Ok(Verdict::Accepted));
            met[wide as usize][narrow as usize] += 1;
        }
        assert_eq!(met[0][1], 0);
        assert!(met[1].iter().all(|&times| times > 500), "{met:?}");
    }

    /// A kind that is neither is 2 as well, under every version, and before 6.
    #[test]
    fn kinds() {
        for kind in [2, 3, 32, 64, 255, 256, 257, (1 << 32) + 1, 1 << 63, u64::MAX] {
            for (version, block) in [(A_2_0, &[][..]), (A_2_1, &[LR]), (A_2_1, &[LR, SC]), (A_2_0, &[SC, LR]), (22, &[LR; 17])] {
                assert_eq!(check_loop(version, kind, block), Err(2), "{kind}");
            }
        }
    }

    /// "Refusals: any other version is 2", and before 6.
    #[test]
    fn versions() {
        for version in [0, 1, 2, 19, 22, 200, 210, 255, 256 + 20, 256 + 21, (1 << 32) + 20, (1 << 32) + 21, (1 << 63) + 20, u64::MAX] {
            for block in [&[][..], &[LR], &[LR, SC], &[SC, LR], &[LR; 17]] {
                assert_eq!(check_loop(version, KIND_64, block), Err(2), "{version}");
            }
        }
    }
}
