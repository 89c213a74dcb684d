//! The state of the machine, laid out as the header's `floecavern_state`.

use std::array::from_fn;

/// How many harts a state has places for.
pub const MAX_HARTS: usize = 8;

/// The bytes of a state.
pub const STATE_SIZE: usize = 2344;

/// The set size that a state has by default, and that the machine of a case file always has.
pub const SET_SIZE: u64 = 64;

/// Version 2.0 of the extension A: a device write breaks no reservation, and a retry loop may have a JALR.
pub const A_2_0: u64 = 20;

/// Version 2.1 of the extension A, which a state has by default, and the machine of a case file always.
pub const A_2_1: u64 = 21;

/// The kind of the 64-bit core, which a state has by default.
pub const KIND_64: u64 = 0;

/// The kind of the 32-bit core: RV32I, LR.W, SC.W, the W AMOs, AMOCAS.W, and AMOCAS.D on pairs of registers. [`State`] says
/// what it asks of a state.
pub const KIND_32: u64 = 1;

/// A misaligned LR gives cause 4, a misaligned SC, AMO or AMOCAS cause 6: what a state has by default.
pub const MISALIGNED_4_AND_6: u64 = 0;

/// A misaligned LR gives cause 5, a misaligned SC, AMO or AMOCAS cause 7, as the text of A 2.1 permits. A misaligned load is 4 and
/// a misaligned store 6 in either case.
pub const MISALIGNED_5_AND_7: u64 = 1;

/// What an LR made: the `width` bytes, 4 or 8, at `addr`; of the 32-bit kind 4.
#[derive(Clone, Copy, Debug, PartialEq, Eq)]
pub struct Reservation {
    pub addr: u64,
    pub width: u64,
}

/// A reservation as the library keeps it: `held` is 0 for none, and the others mean nothing then.
#[repr(C)]
#[derive(Clone, Copy, Debug, Default)]
struct Slot {
    held: u64,
    addr: u64,
    width: u64,
}

/// The state: of harts 0 to `count - 1`, 1 to 8 of them, the registers `x[hart][register]`, the pc and the reservation; and
/// for all of them `set_size`, how many bytes the set of a reservation has, a power of two from 8 to 4,096, `version`, that of
/// A which the machine follows, [`A_2_0`] or [`A_2_1`], `kind`, that of the core, [`KIND_64`] or [`KIND_32`], and `misaligned`,
/// what a misaligned LR, SC, AMO or AMOCAS gives, [`MISALIGNED_4_AND_6`] or [`MISALIGNED_5_AND_7`]. A set lies at a multiple of
/// its size, around the LR's address. No call changes these four.
///
/// The registers and pcs of a 32-bit core have 32 bits, and an upper half that is zero: in a used hart any other is refused by
/// 2, and so is a reservation 8 wide. Every event keeps the upper halves zero.
///
/// Two states are equal if all of this is, of unused harts too. How a reservation is written down in bytes doesn't count.
///
/// ```
/// use floecavern::{Reservation, State};
/// let mut state = State::new(2);
/// state.set_reservation(1, Some(Reservation { addr: 64, width: 8 }));
/// assert_eq!(State::from_bytes(&state.to_bytes()), state);
/// assert_eq!(state.reservation(0), None);
/// ```
///
/// A core that reserves 16 bytes:
///
/// ```
/// use floecavern::{Harts, Machine, Refusal};
/// // lr.w x6,(x5) for hart 0 and sw x8,0(x5) for hart 1, which stores 16 bytes above.
/// let mut machine = Machine::new(2, 0, 128)?;
/// machine.put_words(0, &[0x1002_a32f, 0x0082_a023])?;
/// (machine.state.x[0][5], machine.state.x[1][5], machine.state.pc[1]) = (64, 80, 4);
/// let mut narrow = machine.clone().with_set_size(16)?;
///
/// machine.step(0)?;
/// assert_eq!(machine.step(1)?.broke, Harts::from_bits(1));
/// narrow.step(0)?;
/// assert_eq!(narrow.step(1)?.broke, Harts::NONE);
///
/// // The field can be set too: the next call refuses a size that isn't allowed.
/// narrow.state.set_size = 24;
/// assert_eq!(narrow.step(0), Err(Refusal::Memory));
/// # Ok::<(), Refusal>(())
/// ```
///
/// A board that follows A 2.0, where a device write breaks no reservation:
///
/// ```
/// use floecavern::{Harts, Machine, Outcome, Refusal, A_2_0};
/// // lr.w x6,(x5) and sc.w x7,x8,(x5), with a device write to the bytes that the LR read between them.
/// let mut machine = Machine::new(1, 0, 128)?;
/// machine.put_words(0, &[0x1002_a32f, 0x1882_a3af])?;
/// machine.state.x[0][5] = 64;
/// let mut old = machine.clone().with_version(A_2_0)?;
///
/// machine.step(0)?;
/// assert_eq!(machine.device_write(64, 4, 7)?.broke, Harts::from_bits(1));
/// assert_eq!(machine.step(0)?.outcome, Outcome::ScFailed);
/// old.step(0)?;
/// assert_eq!(old.device_write(64, 4, 7)?.broke, Harts::NONE);
/// assert_eq!(old.step(0)?.outcome, Outcome::ScStored);
/// # Ok::<(), Refusal>(())
/// ```
///
/// A 32-bit core, where AMOCAS.D compares and swaps pairs of registers:
///
/// ```
/// use floecavern::{Machine, Refusal, KIND_32};
/// let mut machine = Machine::new(1, 0, 128)?.with_kind(KIND_32)?;
/// machine.put_words(0, &[0x28a2_b42f])?; // amocas.d x8,x10,(x5)
/// machine.put_words(64, &[1, 2])?;
/// machine.state.x[0][5] = 64;
/// machine.state.x[0][8..12].copy_from_slice(&[1, 2, u32::MAX.into(), 7]);
/// machine.step(0)?;
/// assert_eq!(machine.bytes(64, 8), Some(&[0xff, 0xff, 0xff, 0xff, 7, 0, 0, 0][..]));
///
/// // A register of 32 bits has no upper half: -1 is u32::MAX.
/// machine.state.x[0][8] = u64::MAX;
/// assert_eq!(machine.step(0), Err(Refusal::State));
/// # Ok::<(), Refusal>(())
/// ```
#[repr(C)]
#[derive(Clone, Copy, Debug)]
pub struct State {
    pub count: u64,
    pub x: [[u64; 32]; MAX_HARTS],
    pub pc: [u64; MAX_HARTS],
    slots: [Slot; MAX_HARTS],
    pub set_size: u64,
    pub version: u64,
    pub kind: u64,
    pub misaligned: u64,
}

const _: () = assert!(std::mem::size_of::<State>() == STATE_SIZE);
const _: () = assert!(std::mem::offset_of!(State, x) == 8);
const _: () = assert!(std::mem::offset_of!(State, pc) == 2056);
const _: () = assert!(std::mem::offset_of!(State, slots) == 2120);
const _: () = assert!(std::mem::offset_of!(State, set_size) == 2312);
const _: () = assert!(std::mem::offset_of!(State, version) == 2320);
const _: () = assert!(std::mem::offset_of!(State, kind) == 2328);
const _: () = assert!(std::mem::offset_of!(State, misaligned) == 2336);
const _: () = assert!(cfg!(all(target_arch = "x86_64", target_os = "linux")), "libcapi.a is for x86-64 Linux");

/// No harts, all registers and pcs 0, no reservations, the set size [`SET_SIZE`], the version [`A_2_1`], the kind [`KIND_64`],
/// misaligned [`MISALIGNED_4_AND_6`]. A state of zeros is another one: its set size is 0, which is refused by 1.
impl Default for State {
    fn default() -> State {
        State {
            count: 0,
            x: [[0; 32]; MAX_HARTS],
            pc: [0; MAX_HARTS],
            slots: [Slot::default(); MAX_HARTS],
            set_size: SET_SIZE,
            version: A_2_1,
            kind: KIND_64,
            misaligned: MISALIGNED_4_AND_6,
        }
    }
}

impl State {
    /// `count` harts, all registers and pcs 0, no reservations, the settings of [`State::default`]. A count that isn't 1 to 8 is refused by 2 when it is used.
    pub fn new(count: u64) -> State {
        State { count, ..State::default() }
    }

    /// The reservation that a hart holds.
    ///
    /// # Panics
    ///
    /// If `hart` isn't below [`MAX_HARTS`], as `x[hart]` does.
    pub fn reservation(&self, hart: usize) -> Option<Reservation> {
        let slot = self.slots[hart];
        (slot.held != 0).then_some(Reservation { addr: slot.addr, width: slot.width })
    }

    /// Gives a hart a reservation, or none.
    ///
    /// # Panics
    ///
    /// If `hart` isn't below [`MAX_HARTS`].
    pub fn set_reservation(&mut self, hart: usize, reservation: Option<Reservation>) {
        self.slots[hart] = reservation.map_or(Slot::default(), |r| Slot { held: 1, addr: r.addr, width: r.width });
    }

    /// Its bytes, as the header says: every number 8 bytes, the lowest first.
    pub fn to_bytes(&self) -> [u8; STATE_SIZE] {
        let slots = self.slots.iter().flat_map(|s| [s.held, s.addr, s.width]);
        let harts = self.x.into_iter().flatten().chain(self.pc).chain(slots);
        let numbers =
            [self.count].into_iter().chain(harts).chain([self.set_size, self.version, self.kind, self.misaligned]);
        let mut bytes = [0; STATE_SIZE];
        for (place, number) in bytes.chunks_exact_mut(8).zip(numbers) {
            place.copy_from_slice(&number.to_le_bytes());
        }
        bytes
    }

    /// The state that has these bytes: any bytes are one.
    pub fn from_bytes(bytes: &[u8; STATE_SIZE]) -> State {
        let number = |at: usize| u64::from_le_bytes(from_fn(|i| bytes[at + i]));
        let slot = |at: usize| Slot { held: number(at), addr: number(at + 8), width: number(at + 16) };
        State {
            count: number(0),
            x: from_fn(|h| from_fn(|r| number(8 + 8 * (32 * h + r)))),
            pc: from_fn(|h| number(2056 + 8 * h)),
            slots: from_fn(|h| slot(2120 + 24 * h)),
            set_size: number(2312),
            version: number(2320),
            kind: number(2328),
            misaligned: number(2336),
        }
    }

    /// Where its bytes are.
    pub(crate) fn pointer(&mut self) -> *mut u8 {
        self as *mut State as *mut u8
    }
}

impl PartialEq for State {
    fn eq(&self, other: &State) -> bool {
        let reservations = |s: &State| -> [Option<Reservation>; MAX_HARTS] { from_fn(|h| s.reservation(h)) };
        self.count == other.count
            && self.x == other.x
            && self.pc == other.pc
            && reservations(self) == reservations(other)
            && self.set_size == other.set_size
            && self.version == other.version
            && self.kind == other.kind
            && self.misaligned == other.misaligned
    }
}

impl Eq for State {}
