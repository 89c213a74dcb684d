//! Harts, memory, steps, device writes and yields. What breaks a reservation is quoted from document 01, who is told of it from request 3 of
//! document 02, the size of the sets from request 5, what the two versions of the A extension differ in from request 7, what the two kinds of
//! core differ in from request 10, by which causes a misaligned atomic traps from request 11.
//!
//! It is one machine over the width of its registers, `xlen` bits. Registers, pc and addresses of 32 bits are kept as 64-bit numbers whose upper
//! half is zero, and sums of them are taken modulo 2^32.

use crate::word::{decode, Alu, Atomic, AtomicOp, Cond, Instr, RV32, RV64};

pub const MAX_HARTS: usize = 8;
/// "a power of two from 8 to 4,096, the same for all harts, default 64".
pub const SMALLEST_SET: u64 = 8;
pub const LARGEST_SET: u64 = 4096;
pub const DEFAULT_SET: u64 = 64;
/// The versions of the A extension, ten times their number: "Keep both versions, chosen in the state, 2.1 the default".
pub const A_2_0: u64 = 20;
pub const A_2_1: u64 = 21;
/// The kinds of core: "0 is 64-bit, 1 is 32-bit".
pub const KIND_64: u64 = 0;
pub const KIND_32: u64 = 1;
/// What a misaligned LR, SC, AMO or AMOCAS raises, which 000 leaves to the implementation: "If the address is not naturally aligned, an
/// address-misaligned exception or an access-fault exception will be generated". "0 where a misaligned LR, SC or AMO gives 4 and 6, 1 where it
/// gives, as 000 permits, 5 and 7".
pub const ADDRESS_MISALIGNED: u64 = 0;
pub const ACCESS_FAULT: u64 = 1;
/// "Base plus length is at most 2^32 for this kind".
pub const ADDRESSES_32: u64 = 1 << 32;

#[derive(Clone, Copy, PartialEq, Eq, Debug)]
pub struct Reservation {
    pub addr: u64,
    pub width: u64,
}

#[derive(Clone, Copy, PartialEq, Eq, Debug, Default)]
pub struct Hart {
    pub x: [u64; 32],
    pub pc: u64,
    pub reservation: Option<Reservation>,
}

#[derive(Clone, PartialEq, Eq, Debug)]
pub struct State {
    pub count: usize,
    pub harts: [Hart; MAX_HARTS],
    /// How many bytes the set of every reservation has. Any number may be given; what is performed has an allowed one.
    pub set_size: u64,
    /// That of the A extension. Any number may be given; what is performed has an allowed one.
    pub version: u64,
    /// That of the core. Any number may be given; what is performed has an allowed one.
    pub kind: u64,
    /// What a misaligned atomic raises. Any number may be given; what is performed has an allowed one.
    pub misaligned: u64,
}

/// The lent memory.
pub struct Memory<'a> {
    pub base: u64,
    pub bytes: &'a mut [u8],
}

#[derive(Clone, Copy, PartialEq, Eq, Debug)]
pub struct Trap {
    pub cause: u8,
    pub value: u64,
}

/// Harts as a number: "one bit each, bit 0 for hart 0".
pub type HartMask = u8;

/// `broke` is "the set of harts whose reservation it broke": empty for all but a write.
#[derive(Clone, Copy, PartialEq, Eq, Debug)]
pub enum Outcome {
    Retired { broke: HartMask },
    Sc { success: bool, broke: HartMask },
    Trap(Trap),
}

impl Outcome {
    /// A trap has written nothing.
    #[inline]
    pub fn broke(self) -> HartMask {
        match self {
            Outcome::Retired { broke } | Outcome::Sc { broke, .. } => broke,
            Outcome::Trap(_) => 0,
        }
    }
}

/// Looks on at a step, and can stop it before anything has changed. Each watcher has a step compiled for it, so that one without a
/// watcher costs nothing; what is inlined always is inlined in both.
pub trait Watch {
    type Stop: From<Trap>;

    /// The word at pc is wholly in memory, and this is it.
    fn fetched(&mut self, word: u32) -> Result<(), Self::Stop>;

    /// The step doesn't trap. It puts `value` in `rd`, which changes nothing if that is x0; both are 0 where the word has no rd.
    fn retires(&mut self, rd: u8, value: u64) -> Result<(), Self::Stop>;
}

/// Nobody looks on.
struct Unwatched;

impl Watch for Unwatched {
    type Stop = Trap;

    #[inline]
    fn fetched(&mut self, _: u32) -> Result<(), Trap> {
        Ok(())
    }

    #[inline]
    fn retires(&mut self, _: u8, _: u64) -> Result<(), Trap> {
        Ok(())
    }
}

pub fn set_size_allowed(size: u64) -> bool {
    (SMALLEST_SET..=LARGEST_SET).contains(&size) && size.is_power_of_two()
}

pub fn version_allowed(version: u64) -> bool {
    version == A_2_0 || version == A_2_1
}

pub fn kind_allowed(kind: u64) -> bool {
    kind == KIND_64 || kind == KIND_32
}

pub fn misaligned_allowed(misaligned: u64) -> bool {
    misaligned == ADDRESS_MISALIGNED || misaligned == ACCESS_FAULT
}

/// The causes of a misaligned atomic under an allowed setting: those of a load for an LR, those of a store for all others. AMOCAS is among these,
/// by 001: "the same exception options apply if the address is not naturally aligned". A plain load or store isn't asked: it has 4 or 6.
#[inline]
fn misaligned_cause(op: AtomicOp, misaligned: u64) -> u8 {
    match (op, misaligned) {
        (AtomicOp::Lr, ACCESS_FAULT) => 5,
        (AtomicOp::Lr, _) => 4,
        (_, ACCESS_FAULT) => 7,
        (_, _) => 6,
    }
}

/// The width of the registers of an allowed kind.
#[inline]
pub fn xlen(kind: u64) -> u32 {
    if kind == KIND_32 {
        RV32
    } else {
        RV64
    }
}

/// "Memory base and length are now multiples of the larger of 64 and the size."
pub fn memory_unit(set_size: u64) -> u64 {
    set_size.max(64)
}

/// For sets of an allowed size, as `length_allowed`.
pub fn base_allowed(base: u64, set_size: u64) -> bool {
    aligned(base, memory_unit(set_size)) && base <= 1 << 40
}

pub fn length_allowed(len: usize, set_size: u64) -> bool {
    (64..=1 << 20).contains(&len) && aligned(len as u64, memory_unit(set_size))
}

/// For a base and a length that are allowed. Another kind than the two has no such limit: it is refused by 2.
pub fn end_allowed(base: u64, len: usize, kind: u64) -> bool {
    kind != KIND_32 || base + len as u64 <= ADDRESSES_32
}

/// The lowest `xlen` bits: what a register holds of a number.
#[inline(always)]
pub fn low(value: u64, xlen: u32) -> u64 {
    value & (u64::MAX >> (64 - xlen))
}

/// The signed meaning of the lowest `xlen` bits.
#[inline(always)]
fn signed(value: u64, xlen: u32) -> i64 {
    let shift = 64 - xlen;
    (value << shift) as i64 >> shift
}

/// `width` is a power of two.
#[inline]
fn aligned(addr: u64, width: u64) -> bool {
    addr & (width - 1) == 0
}

/// Whether two addresses lie in the same one of the aligned blocks of `size` bytes, a power of two: then they differ in the bits below the
/// size alone.
#[inline]
fn in_one_block(a: u64, b: u64, size: u64) -> bool {
    (a ^ b) < size
}

impl Memory<'_> {
    /// The place in `bytes` of `width` bytes at `addr`, if all are in memory. `width` is at most 64.
    #[inline]
    fn place(&self, addr: u64, width: u64) -> Option<usize> {
        let offset = addr.wrapping_sub(self.base);
        (offset <= self.bytes.len() as u64 - width).then_some(offset as usize)
    }

    /// The word at `pc`, if it is wholly in memory.
    #[inline]
    pub fn word(&self, pc: u64) -> Option<u32> {
        self.place(pc, 4).map(|place| read(&self.bytes[place..], 4) as u32)
    }

    pub fn contains(&self, addr: u64, width: u64) -> bool {
        self.place(addr, width).is_some()
    }

    #[inline(always)]
    fn fetch<W: Watch>(&self, pc: u64, xlen: u32, watch: &mut W) -> Result<Instr, W::Stop> {
        let Some(word) = self.word(pc) else {
            return trap(1, pc);
        };
        watch.fetched(word)?;
        match decode(word, xlen) {
            Some(instr) => Ok(instr),
            None => trap(2, word as u64),
        }
    }

    #[inline(always)]
    fn load(&self, addr: u64, width: u8) -> Result<u64, Trap> {
        if !aligned(addr, width as u64) {
            return trap(4, addr);
        }
        match self.place(addr, width as u64) {
            Some(place) => Ok(read(&self.bytes[place..], width)),
            None => trap(5, addr),
        }
    }

    /// The bytes that a store writes to.
    #[inline(always)]
    fn target(&mut self, addr: u64, width: u8) -> Result<&mut [u8], Trap> {
        if !aligned(addr, width as u64) {
            return trap(6, addr);
        }
        match self.place(addr, width as u64) {
            Some(place) => Ok(&mut self.bytes[place..]),
            None => trap(7, addr),
        }
    }

    /// "a size not allowed is 1, tried before base and length"; and "Base plus length is at most 2^32 for this kind, refusal 1 in the library".
    fn check(&self, set_size: u64, kind: u64) -> Result<(), u8> {
        let length = self.bytes.len();
        let allowed = set_size_allowed(set_size) && base_allowed(self.base, set_size) && length_allowed(length, set_size);
        if allowed && end_allowed(self.base, length, kind) {
            Ok(())
        } else {
            Err(1)
        }
    }
}

#[inline(always)]
fn read(bytes: &[u8], width: u8) -> u64 {
    match width {
        1 => bytes[0] as u64,
        2 => u16::from_le_bytes(bytes[..2].try_into().unwrap()) as u64,
        4 => u32::from_le_bytes(bytes[..4].try_into().unwrap()) as u64,
        _ => u64::from_le_bytes(bytes[..8].try_into().unwrap()),
    }
}

#[inline]
fn write(bytes: &mut [u8], width: u8, value: u64) {
    match width {
        1 => bytes[0] = value as u8,
        2 => bytes[..2].copy_from_slice(&(value as u16).to_le_bytes()),
        4 => bytes[..4].copy_from_slice(&(value as u32).to_le_bytes()),
        _ => bytes[..8].copy_from_slice(&value.to_le_bytes()),
    }
}

#[inline]
fn sign_extend(value: u64, width: u8) -> u64 {
    let shift = 64 - 8 * width as u32;
    ((value << shift) as i64 >> shift) as u64
}

/// An operation on numbers of `bits` bits, of which a and b may have more; a shift is by as many of b's bits as number the bits.
#[inline(always)]
fn alu(op: Alu, a: u64, b: u64, bits: u32) -> u64 {
    let amount = b & (bits - 1) as u64;
    let result = match op {
        Alu::Add => a.wrapping_add(b),
        Alu::Sub => a.wrapping_sub(b),
        Alu::Sll => a << amount,
        Alu::Slt => (signed(a, bits) < signed(b, bits)) as u64,
        Alu::Sltu => (low(a, bits) < low(b, bits)) as u64,
        Alu::Xor => a ^ b,
        Alu::Srl => low(a, bits) >> amount,
        Alu::Sra => (signed(a, bits) >> amount) as u64,
        Alu::Or => a | b,
        Alu::And => a & b,
    };
    low(result, bits)
}

/// OP-32 and OP-IMM-32, which RV64 alone has: rd gets the 32 bits sign-extended.
#[inline(always)]
fn alu32(op: Alu, a: u64, b: u64) -> u64 {
    sign_extend(alu(op, a, b, 32), 4)
}

/// Of registers of `xlen` bits.
#[inline(always)]
fn taken(cond: Cond, a: u64, b: u64, xlen: u32) -> bool {
    match cond {
        Cond::Eq => a == b,
        Cond::Ne => a != b,
        Cond::Lt => signed(a, xlen) < signed(b, xlen),
        Cond::Ge => signed(a, xlen) >= signed(b, xlen),
        Cond::Ltu => a < b,
        Cond::Geu => a >= b,
    }
}

/// What an AMO stores. Both operands are sign-extended from their width, so one 64-bit comparison serves both widths.
fn amo(op: AtomicOp, old: u64, arg: u64) -> u64 {
    match op {
        AtomicOp::Swap => arg,
        AtomicOp::Add => old.wrapping_add(arg),
        AtomicOp::Xor => old ^ arg,
        AtomicOp::Or => old | arg,
        AtomicOp::And => old & arg,
        AtomicOp::Min => (old as i64).min(arg as i64) as u64,
        AtomicOp::Max => (old as i64).max(arg as i64) as u64,
        AtomicOp::Minu => old.min(arg),
        AtomicOp::Maxu => old.max(arg),
        AtomicOp::Lr | AtomicOp::Sc | AtomicOp::Cas => unreachable!(),
    }
}

impl Hart {
    /// What refusal 2 asks of a used hart: also that registers and pc have no more than `xlen` bits, and "A reservation 8 wide is refusal 2 here".
    fn sound(&self, memory: &Memory, xlen: u32) -> bool {
        let reservable =
            |r: Reservation| (r.width == 4 || r.width == 8 && xlen == RV64) && aligned(r.addr, r.width) && memory.contains(r.addr, r.width);
        self.x[0] == 0
            && self.pc.is_multiple_of(4)
            && self.x.iter().chain([&self.pc]).all(|&value| value == low(value, xlen))
            && self.reservation.is_none_or(reservable)
    }

    #[inline]
    fn get(&self, r: u8) -> u64 {
        self.x[r as usize]
    }

    #[inline]
    fn set(&mut self, rd: u8, value: u64) {
        if rd != 0 {
            self.x[rd as usize] = value;
        }
    }

    /// The sum of a register and an immediate, as an address of `xlen` bits.
    #[inline(always)]
    fn address(&self, rs1: u8, imm: u64, xlen: u32) -> u64 {
        low(self.get(rs1).wrapping_add(imm), xlen)
    }

    /// The sum of pc and an offset.
    #[inline(always)]
    fn beyond(&self, offset: u64, xlen: u32) -> u64 {
        low(self.pc.wrapping_add(offset), xlen)
    }

    /// Retires a word that changes nothing but rd and pc.
    #[inline(always)]
    fn retire<W: Watch>(&mut self, watch: &mut W, rd: u8, value: u64) -> Result<(), W::Stop> {
        watch.retires(rd, value)?;
        self.set(rd, value);
        Ok(())
    }

    /// A jump that leaves the address after it, `next`, in rd.
    #[inline(always)]
    fn link<W: Watch>(&mut self, watch: &mut W, rd: u8, next: u64, target: u64) -> Result<u64, W::Stop> {
        let target = jump(target)?;
        self.retire(watch, rd, next)?;
        Ok(target)
    }

    /// The numbers of a register pair: 001's "When the first register of a source register pair is `x0`, then both halves of the pair read as
    /// zero".
    #[inline(always)]
    fn pair(&self, first: u8) -> (u64, u64) {
        match first as usize {
            0 => (0, 0),
            r => (self.x[r], self.x[r + 1]),
        }
    }
}

/// The target of a jump or of a taken branch, if it is allowed.
#[inline]
fn jump(target: u64) -> Result<u64, Trap> {
    if target.is_multiple_of(4) {
        Ok(target)
    } else {
        trap(0, target)
    }
}

#[inline]
fn trap<T, E: From<Trap>>(cause: u8, value: u64) -> Result<T, E> {
    Err(Trap { cause, value }.into())
}

impl Default for State {
    fn default() -> Self {
        State {
            count: 1,
            harts: [Hart::default(); MAX_HARTS],
            set_size: DEFAULT_SET,
            version: A_2_1,
            kind: KIND_64,
            misaligned: ADDRESS_MISALIGNED,
        }
    }
}

impl State {
    /// "any other version is 2", as all that is wrong with a state: so after 1 and before 3. The same of a kind that is neither, and of what a
    /// misaligned atomic raises: "default 0, any other value refusal 2".
    fn check(&self, memory: &Memory) -> Result<(), u8> {
        memory.check(self.set_size, self.kind)?;
        let settings = version_allowed(self.version) && kind_allowed(self.kind) && misaligned_allowed(self.misaligned);
        let numbers = settings && (1..=MAX_HARTS).contains(&self.count);
        if numbers && self.harts[..self.count].iter().all(|hart| hart.sound(memory, self.xlen())) {
            Ok(())
        } else {
            Err(2)
        }
    }

    /// The width of its registers.
    #[inline]
    pub fn xlen(&self) -> u32 {
        xlen(self.kind)
    }

    fn check_hart(&self, hart: usize) -> Result<(), u8> {
        if hart < self.count {
            Ok(())
        } else {
            Err(3)
        }
    }

    /// One step of a hart. Err is the number of the refusal, here and below.
    pub fn step(&mut self, memory: &mut Memory, hart: usize) -> Result<Outcome, u8> {
        self.check(memory)?;
        self.check_hart(hart)?;
        Ok(self.perform_step(memory, hart))
    }

    /// A device write of the low `size` bytes of `data`: whose reservations it broke.
    pub fn device(&mut self, memory: &mut Memory, addr: u64, size: usize, data: u64) -> Result<HartMask, u8> {
        self.check(memory)?;
        if !(1..=8).contains(&size) {
            return Err(4);
        }
        if !memory.contains(addr, size as u64) {
            return Err(5);
        }
        Ok(self.perform_device(memory, addr, &data.to_le_bytes()[..size]))
    }

    /// It breaks no reservation but its own hart's, which isn't told: "A yield sets none".
    pub fn yield_hart(&mut self, memory: &Memory, hart: usize) -> Result<(), u8> {
        self.check(memory)?;
        self.check_hart(hart)?;
        self.perform_yield(hart);
        Ok(())
    }

    /// Refusals 1 and 2 alone.
    pub fn accepted(&self, memory: &Memory) -> Result<(), u8> {
        self.check(memory)
    }

    /// "a device write that touches a byte the LR read". But "Under 2.0 a device write breaks no reservation, because 004 speaks only of harts".
    pub(crate) fn perform_device(&mut self, memory: &mut Memory, addr: u64, data: &[u8]) -> HartMask {
        let place = (addr - memory.base) as usize;
        memory.bytes[place..place + data.len()].copy_from_slice(data);
        if self.version == A_2_0 {
            return 0;
        }
        let end = addr + data.len() as u64;
        self.break_those(|_, r| r.addr < end && addr < r.addr + r.width)
    }

    pub(crate) fn perform_yield(&mut self, hart: usize) {
        self.harts[hart].reservation = None;
    }

    /// Whether two addresses lie in one set.
    #[inline]
    pub fn in_one_set(&self, a: u64, b: u64) -> bool {
        in_one_block(a, b, self.set_size)
    }

    /// "a retired write by another hart that touches a byte of the set". What is written and the set are aligned blocks of powers of two: they
    /// share a byte exactly if one lies in the other, so if both addresses lie in one block of the larger size. That is the set's, but for 16
    /// bytes written over sets of 8. "The writing hart's own bit is never set by its own write", as its own write breaks nothing of its own.
    fn break_others(&mut self, writer: usize, addr: u64, width: u8) -> HartMask {
        let larger = self.set_size.max(width.into());
        self.break_those(|number, r| number != writer && in_one_block(r.addr, addr, larger))
    }

    /// Breaks the reservations for which `broken` holds, of harts below the count.
    #[inline]
    fn break_those(&mut self, broken: impl Fn(usize, Reservation) -> bool) -> HartMask {
        let mut broke = 0;
        for (number, hart) in self.harts[..self.count].iter_mut().enumerate() {
            if hart.reservation.is_some_and(|r| broken(number, r)) {
                hart.reservation = None;
                broke |= 1 << number;
            }
        }
        broke
    }

    #[inline]
    pub(crate) fn perform_step(&mut self, memory: &mut Memory, number: usize) -> Outcome {
        match self.watched_step(memory, number, &mut Unwatched) {
            Ok(outcome) => outcome,
            Err(trap) => Outcome::Trap(trap),
        }
    }

    /// A step of a hart below the count while `watch` looks on. Err leaves state and memory as they were. Each width has a step compiled for it.
    #[inline]
    pub(crate) fn watched_step<W: Watch>(&mut self, memory: &mut Memory, number: usize, watch: &mut W) -> Result<Outcome, W::Stop> {
        match self.xlen() {
            RV32 => self.execute::<RV32, W>(memory, number, watch),
            _ => self.execute::<RV64, W>(memory, number, watch),
        }
    }

    fn execute<const XLEN: u32, W: Watch>(&mut self, memory: &mut Memory, number: usize, watch: &mut W) -> Result<Outcome, W::Stop> {
        let hart = &mut self.harts[number];
        let instr = memory.fetch(hart.pc, XLEN, watch)?;
        let mut next = hart.beyond(4, XLEN);
        let mut outcome = Outcome::Retired { broke: 0 };
        match instr {
            Instr::Lui { rd, imm } => hart.retire(watch, rd, low(imm, XLEN))?,
            Instr::Auipc { rd, imm } => hart.retire(watch, rd, hart.beyond(imm, XLEN))?,
            Instr::Jal { rd, offset } => next = hart.link(watch, rd, next, hart.beyond(offset, XLEN))?,
            Instr::Jalr { rd, rs1, imm } => next = hart.link(watch, rd, next, hart.address(rs1, imm, XLEN) & !1)?,
            Instr::Branch { cond, rs1, rs2, offset } => {
                if taken(cond, hart.get(rs1), hart.get(rs2), XLEN) {
                    next = jump(hart.beyond(offset, XLEN))?;
                }
                watch.retires(0, 0)?;
            }
            Instr::Load { width, signed, rd, rs1, imm } => {
                let value = memory.load(hart.address(rs1, imm, XLEN), width)?;
                hart.retire(watch, rd, if signed { low(sign_extend(value, width), XLEN) } else { value })?;
            }
            Instr::Store { width, rs1, rs2, imm } => {
                let addr = hart.address(rs1, imm, XLEN);
                let target = memory.target(addr, width)?;
                watch.retires(0, 0)?;
                write(target, width, hart.get(rs2));
                outcome = Outcome::Retired { broke: self.break_others(number, addr, width) };
            }
            Instr::OpImm { op, rd, rs1, imm } => hart.retire(watch, rd, alu(op, hart.get(rs1), imm, XLEN))?,
            Instr::Op { op, rd, rs1, rs2 } => hart.retire(watch, rd, alu(op, hart.get(rs1), hart.get(rs2), XLEN))?,
            Instr::OpImm32 { op, rd, rs1, imm } => hart.retire(watch, rd, alu32(op, hart.get(rs1), imm))?,
            Instr::Op32 { op, rd, rs1, rs2 } => hart.retire(watch, rd, alu32(op, hart.get(rs1), hart.get(rs2)))?,
            Instr::Fence => watch.retires(0, 0)?,
            Instr::Ecall => return trap(8, 0),
            Instr::Ebreak => return trap(3, 0),
            Instr::Atomic(a) => outcome = self.atomic::<XLEN, W>(memory, number, a, watch)?,
        }
        self.harts[number].pc = next;
        Ok(outcome)
    }

    fn atomic<const XLEN: u32, W: Watch>(
        &mut self,
        memory: &mut Memory,
        number: usize,
        a: Atomic,
        watch: &mut W,
    ) -> Result<Outcome, W::Stop> {
        let hart = &mut self.harts[number];
        let width = a.width as u64;
        let addr = hart.get(a.rs1);
        if !aligned(addr, width) {
            return trap(misaligned_cause(a.op, self.misaligned), addr);
        }
        let Some(place) = memory.place(addr, width) else {
            return trap(if a.op == AtomicOp::Lr { 5 } else { 7 }, addr);
        };
        let bytes = &mut memory.bytes[place..place + width as usize];
        if a.op == AtomicOp::Sc {
            return self.store_conditional(bytes, number, a, watch);
        }
        let wrote = if a.is_pair(XLEN) {
            watch.retires(a.rd, read(bytes, a.width / 2))?;
            cas_pair(hart, bytes, a)
        } else {
            let old = sign_extend(read(bytes, a.width), a.width);
            watch.retires(a.rd, low(old, XLEN))?;
            let wrote = read_modify_write(hart, bytes, a, addr, old);
            hart.set(a.rd, low(old, XLEN));
            wrote
        };
        Ok(Outcome::Retired { broke: if wrote { self.break_others(number, addr, a.width) } else { 0 } })
    }

    /// An SC on its bytes, which are aligned and in memory. They are 4 or 8 and so in one set, the one around its address.
    /// Inlined, since an outcome that is handed on in memory costs a tenth of a report.
    #[inline(always)]
    fn store_conditional<W: Watch>(&mut self, bytes: &mut [u8], number: usize, a: Atomic, watch: &mut W) -> Result<Outcome, W::Stop> {
        let set_size = self.set_size;
        let hart = &mut self.harts[number];
        let addr = hart.get(a.rs1);
        let success = hart.reservation.is_some_and(|r| in_one_block(r.addr, addr, set_size));
        watch.retires(a.rd, !success as u64)?;
        hart.reservation = None;
        let value = hart.get(a.rs2);
        hart.set(a.rd, !success as u64);
        let mut broke = 0;
        if success {
            write(bytes, a.width, value);
            broke = self.break_others(number, addr, a.width);
        }
        Ok(Outcome::Sc { success, broke })
    }
}

/// LR, AMO and AMOCAS of one register on their bytes, which hold `old`, before rd is written; whether they wrote them.
#[inline(always)]
fn read_modify_write(hart: &mut Hart, bytes: &mut [u8], a: Atomic, addr: u64, old: u64) -> bool {
    let arg = sign_extend(hart.get(a.rs2), a.width);
    let new = match a.op {
        AtomicOp::Lr => {
            hart.reservation = Some(Reservation { addr, width: a.width as u64 });
            None
        }
        AtomicOp::Cas => (old == sign_extend(hart.get(a.rd), a.width)).then_some(arg),
        op => Some(amo(op, old, arg)),
    };
    if let Some(new) = new {
        write(bytes, a.width, new);
    }
    new.is_some()
}

/// AMOCAS of register pairs on its bytes, a half for each register; whether it wrote them.
#[inline(always)]
fn cas_pair(hart: &mut Hart, bytes: &mut [u8], a: Atomic) -> bool {
    let half = a.width / 2;
    let (first, second) = bytes.split_at_mut(half as usize);
    let old = (read(first, half), read(second, half));
    let new = hart.pair(a.rs2);
    let equal = old == hart.pair(a.rd);
    if equal {
        write(first, half, new.0);
        write(second, half, new.1);
    }
    // "then the entire register result is discarded and neither destination register is written".
    if a.rd != 0 {
        hart.x[a.rd as usize] = old.0;
        hart.x[a.rd as usize + 1] = old.1;
    }
    equal
}

#[cfg(test)]
mod tests {
    use super::*;
    use crate::generate::words::{atomic, i_type, s_type, AMOS, CAS, D, LR, Q, SC, W};

    const SIZES: [u64; 10] = [8, 16, 32, 64, 128, 256, 512, 1024, 2048, 4096];
    const BAD_SIZES: [u64; 25] = [
        0,
        1,
        2,
        3,
        4,
        5,
        6,
        7,
        9,
        12,
        24,
        48,
        63,
        65,
        96,
        192,
        4095,
        4097,
        6144,
        8192,
        65_536,
        (1 << 32) + 64,
        1 << 63,
        (1 << 63) + 8,
        u64::MAX,
    ];

    /// Two harts at pc 0 and 12,288 bytes at base 0: three of the largest sets.
    struct Machine {
        state: State,
        bytes: Vec<u8>,
        base: u64,
    }

    impl Machine {
        fn new(set_size: u64) -> Self {
            Machine { state: State { count: 2, set_size, ..State::default() }, bytes: vec![0; 12_288], base: 0 }
        }

        /// Hart 0 holds the reservation of an LR.
        fn reserved(set_size: u64, addr: u64, width: u64) -> Self {
            let mut machine = Machine::new(set_size);
            machine.state.harts[0].reservation = Some(Reservation { addr, width });
            machine
        }

        /// A step of a hart that has the word at its pc and an address in x5.
        fn step(&mut self, hart: usize, word: u32, addr: u64) -> Result<Outcome, u8> {
            let place = self.state.harts[hart].pc as usize;
            self.bytes[place..place + 4].copy_from_slice(&word.to_le_bytes());
            self.state.harts[hart].x[5] = addr;
            self.state.step(&mut Memory { base: self.base, bytes: &mut self.bytes }, hart)
        }

        fn device(&mut self, addr: u64, size: usize) -> Result<HartMask, u8> {
            self.state.device(&mut Memory { base: self.base, bytes: &mut self.bytes }, addr, size, 0)
        }

        fn yield_hart(&mut self) -> Result<(), u8> {
            self.state.yield_hart(&Memory { base: self.base, bytes: &mut self.bytes }, 0)
        }

        /// A step, a device write and a yield refuse alike.
        fn refusal(&self) -> Option<u8> {
            let again = || Machine { state: self.state.clone(), bytes: self.bytes.clone(), base: self.base };
            let memory = &mut Memory { base: self.base, bytes: &mut again().bytes };
            let refused = again().state.step(memory, 0).err();
            assert_eq!(again().device(self.base, 1).err(), refused);
            assert_eq!(again().yield_hart().err(), refused);
            refused
        }
    }

    const NONE: Result<Outcome, u8> = Ok(Outcome::Retired { broke: 0 });
    const HART_0: Result<Outcome, u8> = Ok(Outcome::Retired { broke: 1 });

    /// "The next core reserves 16 bytes, a customer's reserves 4,096": another hart's byte just below the set, its first, its last, just above.
    #[test]
    fn another_harts_store() {
        let sb = s_type(0, 5, 0, 0);
        for (set_size, lr, below, first, last, above) in [
            (8, 0x1004, 0x0FFF, 0x1000, 0x1007, 0x1008),
            (8, 0x100C, 0x1007, 0x1008, 0x100F, 0x1010),
            (16, 0x1008, 0x0FFF, 0x1000, 0x100F, 0x1010),
            (16, 0x1010, 0x100F, 0x1010, 0x101F, 0x1020),
            (32, 0x103C, 0x101F, 0x1020, 0x103F, 0x1040),
            (64, 0x1040, 0x103F, 0x1040, 0x107F, 0x1080),
            (128, 0x10F8, 0x107F, 0x1080, 0x10FF, 0x1100),
            (256, 0x1200, 0x11FF, 0x1200, 0x12FF, 0x1300),
            (512, 0x1604, 0x15FF, 0x1600, 0x17FF, 0x1800),
            (1024, 0x17FC, 0x13FF, 0x1400, 0x17FF, 0x1800),
            (2048, 0x1800, 0x17FF, 0x1800, 0x1FFF, 0x2000),
            (4096, 0x1800, 0x0FFF, 0x1000, 0x1FFF, 0x2000),
        ] {
            for (at, broke) in [(below, NONE), (first, HART_0), (last, HART_0), (above, NONE)] {
                let mut machine = Machine::reserved(set_size, lr, 4);
                assert_eq!(machine.step(1, sb, at), broke, "sets of {set_size}, {at:#x}");
                assert_eq!(machine.state.harts[0].reservation.is_none(), broke == HART_0, "sets of {set_size}, {at:#x}");
                // "Not: a hart's own plain store".
                assert_eq!(Machine::reserved(set_size, lr, 4).step(0, sb, at), NONE);
            }
        }
    }

    /// 16 bytes touch two sets of 8, and lie in one set of every other size.
    #[test]
    fn sixteen_bytes() {
        let cas = atomic(CAS, Q, 0, 6, 5, 0);
        for (lr, broke) in [(0x1018, NONE), (0x1020, HART_0), (0x1024, HART_0), (0x1028, HART_0), (0x102C, HART_0), (0x1030, NONE)] {
            // x6 and x7 are zeros, as memory: equal.
            assert_eq!(Machine::reserved(8, lr, 4).step(1, cas, 0x1020), broke, "{lr:#x}");
            assert_eq!(Machine::reserved(16, lr, 4).step(1, cas, 0x1020), broke, "{lr:#x}");
            // "an unequal AMOCAS of another hart" breaks nothing.
            let mut unequal = Machine::reserved(8, lr, 4);
            unequal.state.harts[1].x[7] = 1;
            assert_eq!(unequal.step(1, cas, 0x1020), NONE, "{lr:#x}");
        }
        assert_eq!(Machine::reserved(32, 0x1030, 4).step(1, cas, 0x1020), HART_0);
        assert_eq!(Machine::reserved(32, 0x1040, 4).step(1, cas, 0x1020), NONE);
        // Both of two harts that hold sets of 8.
        let mut two = Machine::reserved(8, 0x1020, 8);
        two.state.count = 3;
        two.state.harts[2].reservation = Some(Reservation { addr: 0x1028, width: 8 });
        assert_eq!(two.step(1, cas, 0x1020), Ok(Outcome::Retired { broke: 0b101 }));
    }

    /// "succeeds if this hart holds a reservation whose set contains all its bytes, whatever the LR's address and width were".
    #[test]
    fn store_conditional() {
        let (word, double) = (atomic(SC, W, 0, 7, 5, 8), atomic(SC, D, 0, 7, 5, 8));
        for (set_size, lr, sc, at, success) in [
            (8, 0x1044, double, 0x1040, true),
            (8, 0x1044, word, 0x1040, true),
            (8, 0x1044, word, 0x103C, false),
            (8, 0x1044, word, 0x1048, false),
            (16, 0x1048, double, 0x1040, true),
            (16, 0x1048, word, 0x104C, true),
            (16, 0x1048, double, 0x1050, false),
            (16, 0x1048, double, 0x1038, false),
            (32, 0x1048, double, 0x1058, true),
            (32, 0x1048, double, 0x1060, false),
            (64, 0x1048, word, 0x107C, true),
            (64, 0x1048, word, 0x1080, false),
            (128, 0x1048, word, 0x107C, true),
            (128, 0x1048, word, 0x1080, false),
            (4096, 0x1048, word, 0x1000, true),
            (4096, 0x1048, double, 0x1FF8, true),
            (4096, 0x1048, double, 0x2000, false),
            (4096, 0x1048, double, 0x0FF8, false),
        ] {
            let mut machine = Machine::reserved(set_size, lr, 4);
            machine.state.harts[0].x[8] = u64::MAX;
            assert_eq!(machine.step(0, sc, at), Ok(Outcome::Sc { success, broke: 0 }), "sets of {set_size}, {at:#x}");
            assert_eq!((machine.state.harts[0].x[7], machine.state.harts[0].reservation), (!success as u64, None));
            let written = &machine.bytes[at as usize..][..if sc == word { 4 } else { 8 }];
            assert!(written.iter().all(|&byte| byte == if success { 0xFF } else { 0 }));
        }
    }

    /// Its own SC elsewhere in a big set breaks another hart's reservation of that set, and none of the next.
    #[test]
    fn store_conditional_elsewhere() {
        let sc = atomic(SC, W, 0, 7, 5, 8);
        for (other, broke) in [(0x1FF8, 0b10), (0x2000, 0), (0x0FF8, 0)] {
            let mut machine = Machine::reserved(4096, 0x1400, 8);
            machine.state.harts[1].reservation = Some(Reservation { addr: other, width: 8 });
            assert_eq!(machine.step(0, sc, 0x1000), Ok(Outcome::Sc { success: true, broke }));
        }
    }

    /// "a device write that touches a byte the LR read": whatever the size.
    #[test]
    fn device_write() {
        for set_size in SIZES {
            for (at, size, broke) in [(0x1003, 1, 0), (0x1000, 4, 0), (0x1003, 2, 1), (0x1007, 1, 1), (0x1007, 8, 1), (0x1008, 8, 0)] {
                assert_eq!(Machine::reserved(set_size, 0x1004, 4).device(at, size), Ok(broke), "sets of {set_size}, {at:#x}");
            }
        }
    }

    const BAD_VERSIONS: [u64; 14] =
        [0, 1, 2, 19, 22, 200, 210, 255, 256 + 20, 256 + 21, (1 << 32) + 20, (1 << 32) + 21, (1 << 63) + 21, u64::MAX];

    /// "Under 2.0 a device write breaks no reservation": of several harts neither, and the bytes are written all the same. Every offset about the
    /// bytes of an LR.
    #[test]
    fn device_write_by_version() {
        for (width, size) in [4, 8].into_iter().flat_map(|width| (1..=8).map(move |size| (width, size))) {
            for at in 0x1000 - size..=0x1000 + width {
                let touches = at + size > 0x1000 && at < 0x1000 + width;
                for (version, broke) in [(A_2_1, if touches { 0b101 } else { 0 }), (A_2_0, 0)] {
                    let mut machine = Machine::reserved(64, 0x1000, width);
                    (machine.state.version, machine.state.count) = (version, 3);
                    machine.state.harts[2].reservation = Some(Reservation { addr: 0x1000, width });
                    machine.bytes.fill(0xFF);
                    let before = machine.state.clone();
                    assert_eq!(machine.device(at, size as usize), Ok(broke), "{version}, {size} bytes at {at:#x}");
                    assert_eq!(machine.state == before, broke == 0);
                    let written = machine.bytes.iter().enumerate().filter(|(_, &byte)| byte == 0).map(|(place, _)| place as u64);
                    assert!(written.eq(at..at + size));
                }
            }
        }
    }

    /// "All else is the same": what harts write breaks, an SC and a yield drop their own, and the SC behind a device write stores.
    #[test]
    fn harts_under_2_0() {
        let reserved = || {
            let mut machine = Machine::reserved(64, 0x1040, 4);
            machine.state.version = A_2_0;
            machine
        };
        assert_eq!(reserved().step(1, s_type(0, 5, 0, 0), 0x107F), HART_0);
        assert_eq!(reserved().step(1, s_type(0, 5, 0, 0), 0x1080), NONE);
        assert_eq!(reserved().step(1, atomic(AMOS[0], W, 0, 6, 5, 7), 0x1040), HART_0);
        assert_eq!(reserved().step(1, atomic(CAS, D, 0, 6, 5, 7), 0x1048), HART_0);
        let mut other = reserved();
        other.state.harts[1].reservation = Some(Reservation { addr: 0x1044, width: 4 });
        assert_eq!(other.step(1, atomic(SC, W, 0, 7, 5, 8), 0x1044), Ok(Outcome::Sc { success: true, broke: 1 }));
        let mut machine = reserved();
        assert_eq!(machine.device(0x1040, 4), Ok(0));
        assert_eq!(machine.step(0, atomic(SC, W, 0, 7, 5, 8), 0x1040), Ok(Outcome::Sc { success: true, broke: 0 }));
        assert_eq!(machine.state.harts[0].reservation, None);
        let mut machine = reserved();
        assert_eq!(machine.yield_hart(), Ok(()));
        assert_eq!((machine.state.harts[0].reservation, machine.state.version), (None, A_2_0));
    }

    /// "any other version is 2": after 1, whatever else is wrong with the state, and before 3, 4 and 5.
    #[test]
    fn versions() {
        let of = |version| {
            let mut machine = Machine::new(64);
            machine.state.version = version;
            machine
        };
        assert_eq!((of(A_2_0).refusal(), of(A_2_1).refusal()), (None, None));
        assert_eq!(State::default().version, A_2_1);
        for version in BAD_VERSIONS {
            assert_eq!(of(version).refusal(), Some(2), "{version}");
            let (mut size, mut base, mut count) = (of(version), of(version), of(version));
            (size.state.set_size, base.base, count.state.count) = (48, 32, 9);
            assert_eq!((size.refusal(), base.refusal(), count.refusal()), (Some(1), Some(1), Some(2)), "{version}");
            let mut bytes = vec![0; 4096];
            let memory = &mut Memory { base: 0, bytes: &mut bytes };
            assert_eq!(of(version).state.step(memory, 2), Err(2));
            assert_eq!(of(version).state.yield_hart(memory, 8), Err(2));
            assert_eq!(of(version).state.device(memory, 0, 9, 0), Err(2));
            assert_eq!(of(version).state.device(memory, 4096, 1, 0), Err(2));
        }
    }

    const BAD_MISALIGNED: [u64; 14] = [2, 3, 4, 5, 6, 7, 255, 256, 257, (1 << 32) + 1, 1 << 32, 1 << 63, (1 << 63) + 1, u64::MAX];

    /// Every atomic that `kind` has, with its width and whether it is an LR. Pairs are even.
    fn atomics(kind: u64) -> Vec<(u32, u64, bool)> {
        let widths: &[(u32, u64)] = if kind == KIND_32 { &[(W, 4)] } else { &[(W, 4), (D, 8)] };
        let of_widths =
            |funct5, rs2| widths.iter().map(move |&(funct3, width)| (atomic(funct5, funct3, 0, 6, 5, rs2), width, funct5 == LR));
        let plain = AMOS.into_iter().chain([SC, CAS]).flat_map(|funct5| of_widths(funct5, 8));
        let pair = if kind == KIND_32 { (D, 8) } else { (Q, 16) };
        of_widths(LR, 0).chain(plain).chain([(atomic(CAS, pair.0, 0, 6, 5, 8), pair.1, false)]).collect()
    }

    /// "0 where a misaligned LR, SC or AMO gives 4 and 6, 1 where it gives, as 000 permits, 5 and 7": every atomic at every misaligned offset,
    /// inside memory, over its end and outside it, with a reservation and without, under both versions. A trap leaves all as it was.
    #[test]
    fn misaligned_atomics() {
        let mut tried = 0;
        for (kind, version) in [(KIND_64, A_2_1), (KIND_64, A_2_0), (KIND_32, A_2_1), (KIND_32, A_2_0)] {
            for (word, width, lr) in atomics(kind) {
                for near in [0x1000, 12_288 - width, 12_288, 0x8000_0000] {
                    for at in near + 1..near + width {
                        for (misaligned, cause) in [(ADDRESS_MISALIGNED, if lr { 4 } else { 6 }), (ACCESS_FAULT, if lr { 5 } else { 7 })] {
                            for held in [None, Some(Reservation { addr: 0x1000, width: 4 })] {
                                let mut machine = Machine::new(64);
                                (machine.state.kind, machine.state.version, machine.state.misaligned) = (kind, version, misaligned);
                                machine.state.harts[0].reservation = held;
                                machine.state.harts[0].x[5] = at;
                                machine.bytes[..4].copy_from_slice(&word.to_le_bytes());
                                let (state, bytes) = (machine.state.clone(), machine.bytes.clone());
                                let trap = Ok(Outcome::Trap(Trap { cause, value: at }));
                                assert_eq!(machine.step(0, word, at), trap, "{word:#010x} at {at:#x}, {misaligned}");
                                assert!(machine.state == state && machine.bytes == bytes, "{word:#010x} at {at:#x}, {misaligned}");
                                tried += 1;
                            }
                        }
                    }
                }
            }
        }
        // 12 W of 3 bytes and 12 D of 7 and Q of 15, or 12 W and the pair of 7; four places, four ways, two versions.
        assert_eq!(tried, 2 * 4 * 4 * (12 * 3 + 12 * 7 + 15 + 12 * 3 + 7));
    }

    /// Aligned atomics are as they were: in memory they retire alike, outside it they give 5 and 7 whatever the setting.
    #[test]
    fn aligned_atomics() {
        for kind in [KIND_64, KIND_32] {
            for (word, _, lr) in atomics(kind) {
                let [one, other] = [ADDRESS_MISALIGNED, ACCESS_FAULT].map(|misaligned| {
                    let mut machine = Machine::reserved(64, 0x1000, 4);
                    (machine.state.kind, machine.state.misaligned) = (kind, misaligned);
                    let outside = machine.step(0, word, 12_288);
                    assert_eq!(outside, Ok(Outcome::Trap(Trap { cause: if lr { 5 } else { 7 }, value: 12_288 })));
                    let retired = machine.step(0, word, 0x1000);
                    assert!(matches!(retired, Ok(Outcome::Retired { .. } | Outcome::Sc { .. })), "{word:#010x}");
                    machine.state.misaligned = 0;
                    (retired, machine.state, machine.bytes)
                });
                assert!(one == other, "{word:#010x}");
            }
        }
    }

    /// "a misaligned LR, SC or AMO" alone: plain loads and stores are 4 and 6 under both.
    #[test]
    fn misaligned_loads_and_stores() {
        for (funct3, width) in [(1, 2), (2, 4), (3, 8)] {
            for (word, cause) in [(i_type(3, funct3, 6, 5, 0), 4), (s_type(funct3, 5, 6, 0), 6)] {
                for near in [0x1000, 12_288, 12_288 - width] {
                    for (at, misaligned) in (near + 1..near + width).flat_map(|at| [(at, ADDRESS_MISALIGNED), (at, ACCESS_FAULT)]) {
                        let mut machine = Machine::new(64);
                        machine.state.misaligned = misaligned;
                        assert_eq!(machine.step(0, word, at), Ok(Outcome::Trap(Trap { cause, value: at })), "{word:#010x}, {misaligned}");
                    }
                }
            }
        }
    }

    /// "any other value refusal 2": after 1, whatever else is wrong with the state, and before 3, 4 and 5.
    #[test]
    fn misaligned_numbers() {
        let of = |misaligned| {
            let mut machine = Machine::new(64);
            machine.state.misaligned = misaligned;
            machine
        };
        assert_eq!((of(0).refusal(), of(1).refusal()), (None, None));
        assert_eq!(State::default().misaligned, 0);
        for misaligned in BAD_MISALIGNED {
            assert_eq!(of(misaligned).refusal(), Some(2), "{misaligned}");
            let (mut size, mut base, mut count) = (of(misaligned), of(misaligned), of(misaligned));
            (size.state.set_size, base.base, count.state.count) = (48, 32, 9);
            assert_eq!((size.refusal(), base.refusal(), count.refusal()), (Some(1), Some(1), Some(2)), "{misaligned}");
            let mut bytes = vec![0; 4096];
            let memory = &mut Memory { base: 0, bytes: &mut bytes };
            assert_eq!(of(misaligned).state.step(memory, 2), Err(2));
            assert_eq!(of(misaligned).state.yield_hart(memory, 8), Err(2));
            assert_eq!(of(misaligned).state.device(memory, 0, 9, 0), Err(2));
            assert_eq!(of(misaligned).state.device(memory, 4096, 1, 0), Err(2));
        }
    }

    /// An LR keeps its own address and width, which make the set.
    #[test]
    fn load_reserved() {
        for set_size in SIZES {
            let mut machine = Machine::new(set_size);
            assert_eq!(machine.step(0, atomic(LR, D, 0, 6, 5, 0), 0x1008), NONE);
            assert_eq!(machine.state.harts[0].reservation, Some(Reservation { addr: 0x1008, width: 8 }));
            assert_eq!(machine.yield_hart(), Ok(()));
            assert_eq!(machine.state.harts[0].reservation, None);
            assert_eq!(machine.state.set_size, set_size);
        }
    }

    #[test]
    fn set_sizes() {
        for set_size in SIZES {
            assert_eq!(Machine::new(set_size).refusal(), None, "{set_size}");
        }
        for set_size in BAD_SIZES {
            assert_eq!(Machine::new(set_size).refusal(), Some(1), "{set_size}");
            // Before 2, and whatever the memory is.
            for (count, base, length) in [(0, 0, 4096), (2, 32, 4096), (2, 0, 100), (9, 1 << 41, 0)] {
                let mut machine = Machine::new(set_size);
                machine.state.count = count;
                machine.base = base;
                machine.bytes.resize(length, 0);
                assert_eq!(machine.refusal(), Some(1), "{set_size}");
            }
        }
    }

    /// "Memory base and length are now multiples of the larger of 64 and the size"; "The memory limit in 01 is otherwise kept".
    #[test]
    fn memories() {
        let refusal = |set_size, base, length| {
            let mut machine = Machine::new(set_size);
            (machine.base, machine.state.harts[0].pc, machine.state.harts[1].pc) = (base, base, base);
            machine.bytes.resize(length, 0);
            machine.refusal()
        };
        let highest = 1 << 40;
        for (set_size, base, length) in [
            (8, 0, 64),
            (8, 64, 192),
            (32, highest, 1 << 20),
            (64, 64, 64),
            (128, 128, 128),
            (256, 768, 512),
            (1024, 3072, 5120),
            (4096, highest, 4096),
            (4096, highest - 4096, 1 << 20),
        ] {
            assert_eq!(refusal(set_size, base, length), None, "sets of {set_size}, {length} bytes at {base:#x}");
        }
        for (set_size, base, length) in [
            (8, 8, 64),
            (8, 0, 72),
            (16, 0, 0),
            (32, 32, 64),
            (32, 0, 96),
            (64, 32, 64),
            (128, 64, 128),
            (128, 0, 64),
            (128, 0, 192),
            (256, 128, 256),
            (4096, 0, 64),
            (4096, 0, 2048),
            (4096, 0, 4160),
            (4096, 2048, 4096),
            (4096, 64, 64),
            (4096, highest + 4096, 4096),
            (64, highest + 64, 64),
            (4096, 0, (1 << 20) + 4096),
            (8, 0, (1 << 20) + 64),
        ] {
            assert_eq!(refusal(set_size, base, length), Some(1), "sets of {set_size}, {length} bytes at {base:#x}");
        }
    }
}
