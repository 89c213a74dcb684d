//! The 32-bit kind by examples: request 10 of document 02 and source document 001.

use bench::generate::words::{atomic, b_type, i_type, j_type, r_type, s_type, u_type, AMOS, CAS, D, LR, Q, SC, W};
use bench::generate::Rng;
use bench::machine::{Memory, Outcome, Reservation, State, Trap, ADDRESSES_32, KIND_32, KIND_64};

const RETIRED: Result<Outcome, u8> = Ok(Outcome::Retired { broke: 0 });

fn trap(cause: u8, value: u64) -> Result<Outcome, u8> {
    Ok(Outcome::Trap(Trap { cause, value }))
}

/// Two harts of the 32-bit kind at the start of 256 bytes.
#[derive(Clone)]
struct Machine {
    state: State,
    base: u64,
    bytes: Vec<u8>,
}

impl Machine {
    fn at(base: u64) -> Self {
        let mut machine = Machine { state: State { count: 2, kind: KIND_32, ..State::default() }, base, bytes: vec![0; 256] };
        for hart in &mut machine.state.harts[..2] {
            hart.pc = base;
        }
        machine
    }

    /// The topmost memory.
    fn at_top() -> Self {
        Machine::at(ADDRESSES_32 - 256)
    }

    fn x(&self, register: usize) -> u64 {
        self.state.harts[0].x[register]
    }

    fn pc(&self) -> u64 {
        self.state.harts[0].pc
    }

    fn with(mut self, registers: &[(usize, u64)]) -> Self {
        for &(register, value) in registers {
            self.state.harts[0].x[register] = value;
        }
        self
    }

    /// A step of hart 0 with the word at its pc.
    fn step(&mut self, word: u32) -> Result<Outcome, u8> {
        let place = (self.pc() - self.base) as usize;
        self.bytes[place..place + 4].copy_from_slice(&word.to_le_bytes());
        self.state.step(&mut Memory { base: self.base, bytes: &mut self.bytes }, 0)
    }

    fn words_at(&self, place: usize) -> [u32; 2] {
        [0, 4].map(|n| u32::from_le_bytes(self.bytes[place + n..place + n + 4].try_into().unwrap()))
    }

    /// A step, a device write and a yield refuse alike, and leave all as it was.
    fn refusal(&self) -> Option<u8> {
        let [mut a, mut b, mut c] = [(); 3].map(|()| self.clone());
        let base = self.base;
        let refusals = [
            a.state.step(&mut Memory { base, bytes: &mut a.bytes }, 0).err(),
            b.state.device(&mut Memory { base, bytes: &mut b.bytes }, base, 1, 0).err(),
            c.state.yield_hart(&Memory { base, bytes: &mut c.bytes }, 0).err(),
        ];
        assert!(refusals.iter().all(|refusal| *refusal == refusals[0]));
        assert!(refusals[0].is_none() || [a, b, c].iter().all(|after| after.state == self.state && after.bytes == self.bytes));
        refusals[0]
    }
}

/// Sums are taken modulo 2^32: the next pc, links, targets and addresses.
#[test]
fn sums() {
    let mut last = Machine::at_top();
    last.state.harts[0].pc = ADDRESSES_32 - 4;
    let mut next = last.clone();
    assert_eq!((next.step(0x13), next.pc()), (RETIRED, 0));
    let mut link = last.clone();
    assert_eq!((link.step(j_type(1, -252)), link.pc(), link.x(1)), (RETIRED, ADDRESSES_32 - 256, 0));
    let mut branch = last.clone();
    assert_eq!((branch.step(b_type(0, 0, 0, 12)), branch.pc()), (RETIRED, 8));
    assert_eq!(last.clone().step(b_type(0, 0, 0, 10)), trap(0, 6));
    let mut jalr = last.clone().with(&[(5, 0xFFFF_FFFF)]);
    assert_eq!((jalr.step(i_type(0x67, 0, 5, 5, 6)), jalr.pc(), jalr.x(5)), (RETIRED, 4, 0));
    let mut auipc = last.clone();
    assert_eq!((auipc.step(u_type(0x17, 6, 0xFFFFF)), auipc.x(6)), (RETIRED, 0xFFFF_EFFC));
    let mut lui = last.clone();
    assert_eq!((lui.step(u_type(0x37, 6, 0x80000)), lui.x(6)), (RETIRED, 0x8000_0000));
    // From 4 down to the topmost word, and from that up past the end.
    let mut load = last.clone().with(&[(5, 4)]);
    assert_eq!((load.step(i_type(0x03, 2, 6, 5, -8)), load.x(6)), (RETIRED, i_type(0x03, 2, 6, 5, -8).into()));
    assert_eq!(last.clone().with(&[(5, 0xFFFF_FFFC)]).step(i_type(0x03, 2, 6, 5, 4)), trap(5, 0));
    assert_eq!(last.with(&[(5, 0xFFFF_FFFC)]).step(s_type(1, 5, 6, 5)), trap(6, 1));
}

/// What RV32 computes, with 32-bit numbers of this language.
#[test]
fn operations() {
    let rng = &mut Rng::new(1);
    for _ in 0..20_000 {
        let (a, b) = (rng.value() as u32, rng.value() as u32);
        let (funct3, funct7, expected) = match rng.below(10) {
            0 => (0, 0, a.wrapping_add(b)),
            1 => (0, 0x20, a.wrapping_sub(b)),
            2 => (1, 0, a.wrapping_shl(b)),
            3 => (2, 0, ((a as i32) < b as i32) as u32),
            4 => (3, 0, (a < b) as u32),
            5 => (4, 0, a ^ b),
            6 => (5, 0, a.wrapping_shr(b)),
            7 => (5, 0x20, (a as i32).wrapping_shr(b) as u32),
            8 => (6, 0, a | b),
            _ => (7, 0, a & b),
        };
        let machine = Machine::at(0).with(&[(5, a.into()), (6, b.into())]);
        let mut of_registers = machine.clone();
        assert_eq!(of_registers.step(r_type(0x33, funct3, funct7, 7, 5, 6)), RETIRED);
        assert_eq!(of_registers.x(7), expected.into(), "{funct3} {funct7:#x} {a:08x} {b:08x}");
        // The same with an immediate, if it has that.
        let imm = (b as i32) << 20 >> 20;
        if imm == b as i32 && matches!((funct3, funct7), (0, 0) | (2..=4, _) | (6 | 7, _)) || matches!(funct3, 1 | 5) && b < 32 {
            let mut with_imm = machine.clone();
            assert_eq!(with_imm.step(i_type(0x13, funct3, 7, 5, (imm | (funct7 << 5) as i32).into())), RETIRED);
            assert_eq!(with_imm.x(7), expected.into(), "{funct3} {funct7:#x} {a:08x} {b:08x}");
        }
        let mut branch = machine;
        let taken = [a == b, a != b, (a as i32) < b as i32, a as i32 >= b as i32, a < b, a >= b];
        let n = rng.below(6) as usize;
        assert_eq!(branch.step(b_type([0, 1, 4, 5, 6, 7][n], 5, 6, 64)), RETIRED);
        assert_eq!(branch.pc(), if taken[n] { 64 } else { 4 });
    }
}

/// AMOs, LR.W and loads: rd gets 32 bits and no more.
#[test]
fn upper_halves_stay_zero() {
    for word in AMOS.into_iter().map(|op| atomic(op, W, 0, 7, 5, 6)).chain([
        atomic(LR, W, 0, 7, 5, 0),
        atomic(CAS, W, 0, 7, 5, 6),
        i_type(0x03, 2, 7, 5, 0),
    ]) {
        let mut machine = Machine::at(0).with(&[(5, 64), (6, 0xFFFF_FFFE)]);
        machine.bytes[64..68].fill(0xFF);
        assert_eq!(machine.step(word), RETIRED);
        assert_eq!((machine.x(7), machine.refusal()), (0xFFFF_FFFF, None), "{word:08x}");
    }
}

/// 001's operation of AMOCAS.D for RV32: rd, rs2, then what the pair holds, the two words in memory, and the same afterwards.
#[test]
fn pairs() {
    let of = |rd: u32, rs2: u32, registers: &[(usize, u64)], memory: [u32; 2]| {
        let mut machine = Machine::at(0).with(&[(5, 64)]).with(registers);
        machine.bytes[64..72].copy_from_slice(&memory.map(u32::to_le_bytes).concat());
        assert_eq!(machine.step(atomic(CAS, D, 3, rd, 5, rs2)), RETIRED);
        let x: Vec<u64> = [rd, rd + 1].iter().map(|&r| machine.x(r as usize)).collect();
        (x, machine.words_at(64))
    };
    let both = [(6, 1), (7, 2), (8, 0xFFFF_FFFF), (9, 4)];
    assert_eq!(of(6, 8, &both, [1, 2]), (vec![1, 2], [0xFFFF_FFFF, 4]));
    assert_eq!(of(6, 8, &both, [1, 3]), (vec![1, 3], [1, 3]));
    assert_eq!(of(6, 8, &both, [0x8000_0000, 2]), (vec![0x8000_0000, 2], [0x8000_0000, 2]));
    assert_eq!(of(6, 6, &both, [1, 2]), (vec![1, 2], [1, 2]));
    // x1 is neither read nor written.
    assert_eq!(of(0, 8, &[(1, 9), (8, 3), (9, 4)], [0, 0]), (vec![0, 9], [3, 4]));
    assert_eq!(of(0, 8, &[(1, 9), (8, 3)], [0, 9]), (vec![0, 9], [0, 9]));
    assert_eq!(of(6, 0, &[(1, 9), (6, 5), (7, 6)], [5, 6]), (vec![5, 6], [0, 0]));
    assert_eq!(of(30, 28, &[(28, 1), (29, 2), (30, 3), (31, 4)], [3, 4]), (vec![3, 4], [1, 2]));
    // rs1 is one of those that are written.
    assert_eq!(of(4, 8, &[(4, 1), (8, 2)], [1, 64]), (vec![1, 64], [2, 0]));
}

/// It is aligned to 8 and inside memory, and breaks what a write of 8 bytes breaks.
#[test]
fn pairs_in_memory() {
    let cas = atomic(CAS, D, 0, 6, 5, 8);
    assert_eq!(Machine::at_top().with(&[(5, 0xFFFF_FFF8)]).step(cas), RETIRED);
    assert_eq!(Machine::at_top().with(&[(5, 0xFFFF_FFFC)]).step(cas), trap(6, 0xFFFF_FFFC));
    assert_eq!(Machine::at_top().with(&[(5, 0)]).step(cas), trap(7, 0));
    for (set_size, addr, broke) in [(8, 0x48, 0b10), (8, 0x4C, 0b10), (8, 0x50, 0), (64, 0x7C, 0b10), (64, 0x80, 0)] {
        let mut machine = Machine::at(0).with(&[(5, 0x48)]);
        machine.state.set_size = set_size;
        machine.state.harts[1].reservation = Some(Reservation { addr, width: 4 });
        assert_eq!(machine.clone().with(&[(7, 1)]).step(cas), RETIRED);
        assert_eq!(machine.step(cas), Ok(Outcome::Retired { broke }));
    }
    for word in [atomic(CAS, D, 0, 7, 5, 8), atomic(CAS, D, 0, 6, 5, 9), atomic(CAS, Q, 0, 6, 5, 8), atomic(LR, D, 0, 6, 5, 0)] {
        assert_eq!(Machine::at(0).with(&[(5, 0x48)]).step(word), trap(2, word.into()));
    }
}

/// LR.W and SC.W on the topmost set.
#[test]
fn reservations() {
    let mut machine = Machine::at_top().with(&[(5, 0xFFFF_FFC0), (6, 7), (8, 0xFFFF_FFFC)]);
    assert_eq!(machine.step(atomic(LR, W, 0, 7, 5, 0)), RETIRED);
    assert_eq!(machine.state.harts[0].reservation, Some(Reservation { addr: 0xFFFF_FFC0, width: 4 }));
    assert_eq!(machine.step(atomic(SC, D, 0, 7, 8, 6)), trap(2, atomic(SC, D, 0, 7, 8, 6).into()));
    assert_eq!(machine.step(atomic(SC, W, 0, 7, 8, 6)), Ok(Outcome::Sc { success: true, broke: 0 }));
    assert_eq!(machine.words_at(248), [0, 7]);
}

/// Registers and pc of used harts have no upper half; "A reservation 8 wide is refusal 2 here". Nothing of it is asked of the 64-bit kind.
#[test]
fn refused_by_2() {
    let refused = |change: &dyn Fn(&mut Machine)| {
        let mut machine = Machine::at(0x1000);
        change(&mut machine);
        let narrow = machine.refusal();
        machine.state.kind = KIND_64;
        [narrow, machine.refusal()]
    };
    for bit in 32..64 {
        for (hart, register) in [(0, 1), (1, 5), (1, 31)] {
            assert_eq!(refused(&|m| m.state.harts[hart].x[register] |= 1 << bit), [Some(2), None]);
        }
        assert_eq!(refused(&|m| m.state.harts[1].pc |= 1 << bit), [Some(2), None]);
        // Unused.
        assert_eq!(refused(&|m| (m.state.harts[2].x[0], m.state.harts[7].pc) = (1 << bit, 1 << bit | 1)), [None, None]);
    }
    for (width, refusals) in [(4, [None, None]), (8, [Some(2), None]), (16, [Some(2), Some(2)])] {
        assert_eq!(refused(&|m| m.state.harts[1].reservation = Some(Reservation { addr: 0x1040, width })), refusals);
        assert_eq!(refused(&|m| m.state.harts[2].reservation = Some(Reservation { addr: 0x1040, width })), [None, None]);
    }
    assert_eq!(refused(&|m| m.state.harts[0].x = [0xFFFF_FFFF; 32]), [Some(2), Some(2)]);
}

/// "Base plus length is at most 2^32 for this kind, refusal 1"; a kind that is neither is 2, whatever the end is.
#[test]
fn refused_by_1() {
    let refused = |base, length, kind| {
        let mut machine = Machine::at(base);
        machine.bytes.resize(length, 0);
        (machine.state.kind, machine.state.harts[0].pc, machine.state.harts[1].pc) = (kind, 0, 0);
        machine.refusal()
    };
    let top = ADDRESSES_32;
    for (base, length, refusals) in [
        (top - 64, 64, [None, None]),
        (top - (1 << 20), 1 << 20, [None, None]),
        (top - 64, 128, [None, Some(1)]),
        (top, 64, [None, Some(1)]),
        (1 << 40, 64, [None, Some(1)]),
        ((1 << 40) + 64, 64, [Some(1), Some(1)]),
        (top - 32, 64, [Some(1), Some(1)]),
    ] {
        assert_eq!([KIND_64, KIND_32].map(|kind| refused(base, length, kind)), refusals, "{length} bytes at {base:#x}");
        for kind in [2, 3, 32, 64, 255, 256, 257, (1 << 32) + 1, 1 << 63, u64::MAX] {
            assert_eq!(refused(base, length, kind), refusals[0].or(Some(2)), "kind {kind}, {length} bytes at {base:#x}");
        }
    }
    assert_eq!(State::default().kind, KIND_64);
}
