//! A machine and events that it allows.
//!
//! The events are performed as they are made, so every pc is known and the next word can be put there by a device write.

use super::words::{
    atomic, cas_width, full_width, i_type, is_pair, r_type, register_mask, s_type, some_width, store_width, AMOS, CAS, LR, NOP, SC, W,
};
use super::Rng;
use crate::case::{EVENT, MAX_FILE, TABLE};
use crate::machine::{
    low, memory_unit, Memory, Outcome, Reservation, State, ACCESS_FAULT, ADDRESSES_32, ADDRESS_MISALIGNED, A_2_0, A_2_1, DEFAULT_SET,
    KIND_32, KIND_64, SMALLEST_SET,
};
use crate::word::RV32;

pub const STEP: u8 = 1;
pub const DEVICE: u8 = 2;
pub const YIELD: u8 = 3;

/// An event as it stands in an events body.
pub fn event_bytes(kind: u8, hart: u8, size: u8, addr: u64, data: u64) -> [u8; EVENT] {
    let mut bytes = [0; EVENT];
    bytes[..3].copy_from_slice(&[kind, hart, size]);
    bytes[8..16].copy_from_slice(&addr.to_le_bytes());
    bytes[16..].copy_from_slice(&data.to_le_bytes());
    bytes
}

/// The low `size` bytes of a number.
pub fn low_bytes(data: u64, size: usize) -> u64 {
    if size < 8 {
        data & ((1 << (8 * size)) - 1)
    } else {
        data
    }
}

pub struct Builder {
    pub base: u64,
    /// State and memory before the first event.
    pub first: State,
    pub memory: Vec<u8>,
    pub events: Vec<u8>,
    /// State and memory after the events so far.
    pub state: State,
    bytes: Vec<u8>,
    /// Whether it is for a case file: then it fits in one, sets have 64 bytes, the version is 2.1, a misaligned atomic gives 4 or 6, and nobody holds
    /// a reservation at the start.
    case_file: bool,
}

impl Builder {
    pub fn for_case(rng: &mut Rng) -> Self {
        let kind = rng.pick(&[KIND_64, KIND_32]);
        let count = if rng.percent(30) { 1 } else { 1 + rng.below(8) as usize };
        let lines = if rng.percent(90) { 1 + rng.below(8) } else { 1 + rng.below(64) } as usize;
        let mut b = Builder {
            base: some_base(rng, kind),
            first: State::default(),
            memory: vec![0; 64 * lines],
            events: Vec::new(),
            state: State { count, kind, ..State::default() },
            bytes: Vec::new(),
            case_file: true,
        };
        b.fit_below_top();
        b
    }

    pub fn xlen(&self) -> u32 {
        self.state.xlen()
    }

    /// "Base plus length is at most 2^32" for the 32-bit kind: a lower base, if it has to be. It keeps all addresses that were in memory.
    fn fit_below_top(&mut self) {
        if self.xlen() == RV32 {
            self.base = self.base.min(ADDRESSES_32 - self.memory.len() as u64);
        }
    }

    /// For calls on a state: sets of any allowed size, either version, either exception of misaligned atomics, a memory up to the largest,
    /// reservations at the start.
    pub fn for_state(rng: &mut Rng) -> Self {
        let mut b = Builder::for_case(rng);
        b.case_file = false;
        b.state.set_size = if rng.percent(5) { DEFAULT_SET } else { SMALLEST_SET << rng.below(10) };
        b.state.version = rng.pick(&[A_2_0, A_2_1]);
        b.state.misaligned = rng.pick(&[ADDRESS_MISALIGNED, ACCESS_FAULT]);
        let unit = memory_unit(b.state.set_size);
        b.base &= !(unit - 1);
        if unit > 64 {
            b.memory.resize((unit * (1 + rng.below(4))) as usize, 0);
        }
        if rng.below(400) == 0 {
            let most = (1 << 20) / unit;
            let units = if rng.percent(50) { most } else { 1 + rng.below(most) };
            b.memory.resize((unit * units) as usize, 0);
        }
        b.fit_below_top();
        b
    }

    /// Memory for three sets, whatever their size is, and for four lines of 64 bytes.
    pub fn enlarge(&mut self) {
        let least = (3 * memory_unit(self.state.set_size)).max(256);
        self.memory.resize(self.memory.len().max(least as usize), 0);
        self.fit_below_top();
    }

    /// The end of one set and the start of the next, both in memory and mostly behind the first line. Case files have it at few places.
    pub fn boundary(&self, rng: &mut Rng) -> u64 {
        let (set, length) = (self.state.set_size, self.memory.len() as u64);
        if self.case_file {
            return self.base + rng.pick(&[128, length - 64]);
        }
        let (first, last) = (64 / set + 1, length / set - 1);
        self.base + set * if first < last && rng.percent(80) { first + rng.below(last - first + 1) } else { 1 + rng.below(last) }
    }

    /// An address about an edge of a set.
    fn about_edge(&self, rng: &mut Rng) -> u64 {
        let sets = self.memory.len() as u64 / self.state.set_size;
        let edge = self.base + self.state.set_size * rng.below(sets + 1);
        edge.wrapping_add(4 * rng.below(8)).wrapping_sub(16)
    }

    /// A place of `width` bytes in the set around an address, more often than by chance the first or the last one.
    fn in_set_of(&self, rng: &mut Rng, addr: u64, width: u64) -> u64 {
        let (set, places) = (self.state.set_size, self.state.set_size / width);
        let place = match rng.below(4) {
            0 => 0,
            1 => places - 1,
            _ => rng.below(places),
        };
        (addr & !(set - 1)) + width * place
    }

    fn address(&self, rng: &mut Rng) -> u64 {
        let length = self.memory.len() as u64;
        if !self.case_file && rng.percent(20) {
            return self.about_edge(rng);
        }
        match rng.below(20) {
            0 => self.base.wrapping_add(rng.below(length)),
            1 => self.base.wrapping_add(length).wrapping_sub(rng.below(17)),
            2 => self.base.wrapping_sub(rng.below(17)),
            3 => u64::MAX - rng.below(17),
            4..=7 => self.base + rng.below(length / 4) * 4,
            8..=12 => self.base + rng.below(8) * 8,
            _ => self.base + rng.below(length / 16) * 16,
        }
    }

    pub fn fill_registers(&mut self, rng: &mut Rng) {
        for h in 0..self.state.count {
            for r in 1..32 {
                self.state.harts[h].x[r] = if rng.percent(40) { self.address(rng) } else { rng.value() };
            }
            let place = rng.below(self.memory.len() as u64 / 4) * 4;
            self.state.harts[h].pc = match rng.below(60) {
                0 => rng.next() & !3,
                1 => self.base.wrapping_sub(4),
                2 => self.base + self.memory.len() as u64,
                _ => self.base + place,
            };
        }
    }

    pub fn put_words(&mut self, words: &[u32]) {
        for (place, w) in self.memory.chunks_exact_mut(4).zip(words) {
            place.copy_from_slice(&w.to_le_bytes());
        }
    }

    /// Fixes the start; events come after it. Registers and pc keep what fits into them.
    pub fn start(&mut self, rng: &mut Rng) {
        let xlen = self.xlen();
        for hart in &mut self.state.harts[..self.state.count] {
            hart.x = hart.x.map(|value| low(value, xlen));
            hart.pc = low(hart.pc, xlen);
        }
        if !self.case_file {
            self.reserve(rng);
        }
        self.first = self.state.clone();
        self.bytes = self.memory.clone();
    }

    /// Reservations of some harts or of all, most of them where a register points, or where the hart before has its own, or elsewhere in the set
    /// of that one.
    fn reserve(&mut self, rng: &mut Rng) {
        let (some, same) = (rng.pick(&[30, 60, 60, 100]), rng.pick(&[0, 30, 80]));
        let mut before = None;
        for h in 0..self.state.count {
            if !rng.percent(some) {
                continue;
            }
            let width = if self.xlen() == RV32 { 4 } else { rng.pick(&[4, 8]) };
            let pointer = self.state.harts[h].x[self.pointer(rng, h, 4) as usize];
            let any = self.base + rng.below(self.memory.len() as u64);
            let near = if self.inside(pointer, 1) && rng.percent(80) { pointer } else { any };
            let addr = match before.filter(|_| rng.percent(same)) {
                Some(before) if rng.percent(40) => self.in_set_of(rng, before, width),
                Some(before) => before & !(width - 1),
                None => near & !(width - 1),
            };
            self.state.harts[h].reservation = Some(Reservation { addr, width });
            before = Some(addr);
        }
    }

    /// How many more events there may be.
    pub fn room(&self) -> usize {
        if self.case_file {
            (MAX_FILE - TABLE - 16 - 256 * self.state.count - self.memory.len() - self.events.len()) / EVENT
        } else {
            usize::MAX
        }
    }

    /// How many steps to make: mostly few, at times many, seldom more than a case file holds.
    pub fn steps(&self, rng: &mut Rng, few: u64, many: u64) -> u64 {
        match rng.below(1000) {
            0 if !self.case_file => rng.below(50_000),
            n if n < 120 => rng.below(many),
            _ => rng.below(few),
        }
    }

    pub fn inside(&self, addr: u64, size: u64) -> bool {
        addr.wrapping_sub(self.base) <= self.memory.len() as u64 - size
    }

    pub fn step(&mut self, hart: usize) -> Option<Outcome> {
        if self.room() == 0 {
            return None;
        }
        self.events.extend(event_bytes(STEP, hart as u8, 0, 0, 0));
        let mut memory = Memory { base: self.base, bytes: &mut self.bytes };
        Some(self.state.step(&mut memory, hart).expect("a step that isn't refused"))
    }

    pub fn device(&mut self, addr: u64, size: usize, data: u64) {
        if self.room() == 0 || !self.inside(addr, size as u64) {
            return;
        }
        let data = low_bytes(data, size);
        self.events.extend(event_bytes(DEVICE, 0, size as u8, addr, data));
        let mut memory = Memory { base: self.base, bytes: &mut self.bytes };
        self.state.device(&mut memory, addr, size, data).expect("a device write that isn't refused");
    }

    pub fn yield_hart(&mut self, hart: usize) {
        if self.room() == 0 {
            return;
        }
        self.events.extend(event_bytes(YIELD, hart as u8, 0, 0, 0));
        let memory = Memory { base: self.base, bytes: &mut self.bytes };
        self.state.yield_hart(&memory, hart).expect("a yield that isn't refused");
    }

    /// Puts a word at the hart's pc and steps it.
    pub fn perform(&mut self, hart: usize, word: u32) -> Option<Outcome> {
        self.device(self.state.harts[hart].pc, 4, word as u64);
        self.step(hart)
    }

    /// A device write around a reservation, or anywhere.
    pub fn random_device(&mut self, rng: &mut Rng) {
        let size = 1 + rng.below(8) as usize;
        let hart = rng.below(self.state.count as u64) as usize;
        let addr = match self.state.harts[hart].reservation {
            Some(r) if !self.case_file && rng.percent(20) => self.in_set_of(rng, r.addr, 1).wrapping_sub(rng.below(2)),
            Some(r) if rng.percent(70) => r.addr.wrapping_add(rng.below(24)).wrapping_sub(12),
            _ => self.base + rng.below(self.memory.len() as u64),
        };
        let data = rng.value();
        self.device(addr, size, data);
    }

    /// A hart, most of the time one whose pc is in memory.
    pub fn some_hart(&self, rng: &mut Rng) -> usize {
        let mut hart = 0;
        for _ in 0..8 {
            hart = rng.below(self.state.count as u64) as usize;
            if self.inside(self.state.harts[hart].pc, 4) {
                break;
            }
        }
        hart
    }

    /// A register of the hart that points into memory, if one is found.
    pub fn pointer(&self, rng: &mut Rng, hart: usize, align: u64) -> u32 {
        let x = &self.state.harts[hart].x;
        let mut last = 0;
        for _ in 0..40 {
            last = rng.reg();
            let addr = x[last as usize];
            if addr.is_multiple_of(align) && self.inside(addr, 16) {
                break;
            }
        }
        last
    }

    /// A register of the hart that points, so aligned, into the set it has reserved.
    fn reserved_pointer(&self, hart: usize, align: u64) -> Option<u32> {
        let hart = &self.state.harts[hart];
        let reserved = hart.reservation?.addr;
        (1..32).find(|&r| hart.x[r as usize].is_multiple_of(align) && self.state.in_one_set(hart.x[r as usize], reserved))
    }

    /// A register of the hart that points outside memory, aligned to 8: x0 too, where address 0 isn't in memory.
    fn outside_pointer(&self, rng: &mut Rng, hart: usize) -> Option<u32> {
        let x = &self.state.harts[hart].x;
        let first = rng.reg();
        (0..32).map(|r| (first + r) % 32).find(|&r| x[r as usize].is_multiple_of(8) && !self.inside(x[r as usize], 8))
    }

    /// AMOCAS, half of the time over equal bytes.
    pub fn compare_and_swap(&mut self, rng: &mut Rng, hart: usize) {
        let xlen = self.xlen();
        let funct3 = cas_width(rng, xlen);
        let even = if rng.percent(95) { register_mask(funct3, xlen) } else { !0 };
        let rd = if rng.percent(10) { 0 } else { rng.reg() & even };
        let rs2 = if rng.percent(10) { rd } else { rng.reg() & even };
        let rs1 = self.pointer(rng, hart, 16);
        let x = &self.state.harts[hart].x;
        let addr = x[rs1 as usize];
        let (first, second) = match rd {
            0 => (0, 0),
            r => (x[r as usize], x[(r as usize + 1) & 31]),
        };
        if rng.percent(60) {
            let (pair, half) = (is_pair(funct3, xlen), xlen as usize / 8);
            self.device(addr, if funct3 == W { 4 } else { half }, first);
            if pair && rng.percent(90) {
                self.device(addr.wrapping_add(half as u64), half, second);
            }
        }
        let order = rng.reg() & 3;
        self.perform(hart, atomic(CAS, funct3, order, rd, rs1, rs2));
    }

    /// LR, SC, a store or an AMO.
    pub fn reserve_or_store(&mut self, rng: &mut Rng, hart: usize) {
        let order = rng.reg() & 3;
        let funct3 = some_width(rng, self.xlen());
        let address = self.pointer(rng, hart, 8);
        let (rd, rs2) = (if rng.percent(30) { 0 } else { rng.reg() }, rng.reg());
        let w = match rng.below(8) {
            0..=2 => atomic(LR, funct3, order, rd, address, 0),
            3 => s_type(store_width(rng, self.xlen()), address, rs2, rng.below(16) as i64 * 8 - 64),
            4 => atomic(rng.pick(&AMOS), funct3, order, rd, address, rs2),
            _ => {
                // Outside memory it traps and keeps the reservation, which a later SC shows.
                let near = match rng.below(10) {
                    0..=6 => self.reserved_pointer(hart, 1),
                    7 | 8 => self.outside_pointer(rng, hart),
                    _ => None,
                };
                atomic(SC, funct3, order, rd, near.unwrap_or(address), rs2)
            }
        };
        self.perform(hart, w);
    }

    /// An atomic at an address that isn't aligned to its width, in memory or not wholly so: of a register that holds one, or that is given one just
    /// before.
    pub fn misaligned_atomic(&mut self, rng: &mut Rng, hart: usize) {
        let xlen = self.xlen();
        let amo = rng.pick(&AMOS);
        let funct5 = rng.pick(&[LR, LR, SC, SC, CAS, CAS, amo, amo]);
        let funct3 = if funct5 == CAS { cas_width(rng, xlen) } else { some_width(rng, xlen) };
        let (even, width) = (register_mask(funct3, xlen), 1 << funct3);
        let (rd, rs2) = (rng.reg() & even, if funct5 == LR { 0 } else { rng.reg() & even });
        let (first, inside) = (rng.reg(), rng.percent(70));
        let x = &self.state.harts[hart].x;
        let wanted = |r: &u32| !x[*r as usize].is_multiple_of(width) && self.inside(x[*r as usize], width) == inside;
        let found = (0..32).map(|r| (first + r) % 32).find(wanted);
        let rs1 = found.filter(|_| rng.percent(60)).unwrap_or_else(|| self.point_beside(rng, hart, width));
        self.perform(hart, atomic(funct5, funct3, rng.reg() & 3, rd, rs1, rs2));
    }

    /// A register that has just been given an address some bytes beside an aligned one: in memory, at its end or outside.
    fn point_beside(&mut self, rng: &mut Rng, hart: usize, width: u64) -> u32 {
        let (near, register) = (self.pointer(rng, hart, width), 1 + rng.below(31) as u32);
        let beside = 1 + rng.below(width - 1) as i64;
        // To the last bytes of memory, if the immediate reaches them.
        let end = self.base.wrapping_add(self.memory.len() as u64 - width).wrapping_sub(self.state.harts[hart].x[near as usize]);
        let imm = if end < 2032 && rng.percent(30) { end as i64 + beside } else { beside };
        self.perform(hart, i_type(0x13, 0, register, near, imm));
        register
    }

    /// Ends a case with events whose lines show reservations, then registers, then some of the memory. A trap carries the value of a
    /// register, if the word at pc is `lb x0, 0(xN)` and xN lies outside memory. Nothing for calls on a state, where all can be seen.
    pub fn show(&mut self, rng: &mut Rng, registers: bool, words: u64) {
        if !self.case_file {
            return;
        }
        for hart in 0..self.state.count {
            let address = self.reserved_pointer(hart, 8).unwrap_or_else(|| self.pointer(rng, hart, 8));
            self.perform(hart, atomic(SC, full_width(self.xlen()), 0, 0, address, 1));
        }
        if registers {
            self.show_registers();
        }
        self.show_memory(rng, words);
    }

    fn show_registers(&mut self) {
        for hart in 0..self.state.count {
            for r in 1..32 {
                if self.inside(self.state.harts[hart].x[r], 1) || !self.inside(self.state.harts[hart].pc, 4) {
                    continue;
                }
                self.perform(hart, i_type(0x03, 0, 0, r as u32, 0));
            }
        }
    }

    fn show_memory(&mut self, rng: &mut Rng, words: u64) {
        let hart = self.some_hart(rng);
        for _ in 0..words {
            if !self.inside(self.state.harts[hart].pc, 4) {
                break;
            }
            self.perform(hart, r_type(0x17, 0, 0, 1, 0, 0));
            let pc = self.state.harts[hart].x[1];
            let span = (self.memory.len() as u64).min(1024);
            let offset = (rng.below(span / 8) * 8).wrapping_add(self.base).wrapping_sub(pc) as i64;
            if (-2048..2048).contains(&offset) {
                self.perform(hart, i_type(0x03, full_width(self.xlen()), 2, 1, offset));
                self.perform(hart, i_type(0x03, 0, 0, 2, 0));
                // Past it, if it trapped.
                self.perform(hart, NOP);
            }
        }
    }

    /// Another memory in place of the first; before any event.
    pub fn resize(&mut self, length: usize) {
        self.memory.resize(length, 0);
        self.fit_below_top();
        self.bytes = self.memory.clone();
    }

    pub fn file(&self) -> Vec<u8> {
        file(&harts_body(self.base, &self.first), &self.memory, &self.events)
    }
}

/// The harts body of a case file. The kind stands in the zero field.
pub fn harts_body(base: u64, state: &State) -> Vec<u8> {
    let head = [base, state.count as u64 | state.kind << 32];
    let harts = state.harts[..state.count].iter().flat_map(|hart| hart.x[1..].iter().copied().chain([hart.pc]));
    head.into_iter().chain(harts).flat_map(u64::to_le_bytes).collect()
}

/// A base that is allowed for sets of 64 bytes; for the 32-bit kind more often than by chance near 0 or near the top, where the length may ask for
/// a lower one.
fn some_base(rng: &mut Rng, kind: u64) -> u64 {
    let lines = |rng: &mut Rng, n| 64 * rng.below(n);
    match (kind, rng.below(8)) {
        (_, 0) => 0,
        (_, 1) => lines(rng, 4),
        (KIND_32, 2..=4) => ADDRESSES_32 - lines(rng, 12),
        (KIND_32, _) => lines(rng, ADDRESSES_32 / 64),
        (_, 2) => 1 << 40,
        // About where the 32-bit kind has its end.
        (_, 3) => ADDRESSES_32 - 256 + lines(rng, 8),
        _ => lines(rng, 1 << 34),
    }
}

/// A case file of these bodies.
pub fn file(harts: &[u8], memory: &[u8], events: &[u8]) -> Vec<u8> {
    let mut file = 3u32.to_le_bytes().to_vec();
    let mut offset = TABLE;
    for (kind, body) in [(1u32, harts), (2, memory), (3, events)] {
        file.extend_from_slice(&kind.to_le_bytes());
        file.extend_from_slice(&(offset as u32).to_le_bytes());
        file.extend_from_slice(&(body.len() as u32).to_le_bytes());
        offset += body.len();
    }
    for body in [harts, memory, events] {
        file.extend_from_slice(body);
    }
    file
}
