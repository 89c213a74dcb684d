//! A machine that owns its state and its memory.

use crate::{calls, Answer, Board, Event, Refusal, RefusedAt, Replayed, State, MAX_HARTS};

/// The longest memory that a machine can have, in bytes.
pub const MAX_MEMORY: usize = 1_048_576;

/// A state and the memory at `base`. All of it may be read and written between calls: what the model doesn't take is refused
/// by the next call.
#[derive(Clone, Debug, PartialEq, Eq)]
pub struct Machine {
    pub state: State,
    pub base: u64,
    pub mem: Vec<u8>,
}

impl Machine {
    /// `harts` harts with their pc at `base`, registers 0 and no reservations; `len` bytes of memory, all 0; the set size
    /// [`SET_SIZE`](crate::SET_SIZE), the version [`A_2_1`](crate::A_2_1), the kind [`KIND_64`](crate::KIND_64) and the causes of
    /// [`MISALIGNED_4_AND_6`](crate::MISALIGNED_4_AND_6). Refusals 1 and 2.
    ///
    /// ```
    /// use floecavern::{Machine, Refusal};
    /// assert!(Machine::new(8, 0x8000_0000, 4096).is_ok());
    /// assert_eq!(Machine::new(9, 0, 64), Err(Refusal::State));
    /// assert_eq!(Machine::new(1, 0, 65), Err(Refusal::Memory));
    /// ```
    pub fn new(harts: u64, base: u64, len: usize) -> Result<Machine, Refusal> {
        // Before so much is allocated.
        if len > MAX_MEMORY {
            return Err(Refusal::Memory);
        }
        let mut state = State::new(harts);
        for pc in state.pc.iter_mut().take(harts.min(MAX_HARTS as u64) as usize) {
            *pc = base;
        }
        Machine::from_parts(state, base, vec![0; len])
    }

    /// A machine of a state and a memory that are there already. Refusals 1 and 2.
    pub fn from_parts(state: State, base: u64, mem: Vec<u8>) -> Result<Machine, Refusal> {
        let mut machine = Machine { state, base, mem };
        // A run of no events tries both refusals and changes nothing.
        machine.run_bytes(&[], 0).map_err(|refused| refused.refusal)?;
        Ok(machine)
    }

    /// The machine with another set size: the set of a reservation has so many bytes. Refusals 1 and 2: 1 if the size isn't
    /// a power of two from 8 to 4,096, or if the memory's length or base isn't a multiple of it.
    ///
    /// ```
    /// use floecavern::{Machine, Refusal};
    /// assert_eq!(Machine::new(1, 0, 4096)?.with_set_size(4096)?.state.set_size, 4096);
    /// assert_eq!(Machine::new(1, 0, 64)?.with_set_size(4096), Err(Refusal::Memory));
    /// # Ok::<(), Refusal>(())
    /// ```
    pub fn with_set_size(mut self, set_size: u64) -> Result<Machine, Refusal> {
        self.state.set_size = set_size;
        Machine::from_parts(self.state, self.base, self.mem)
    }

    /// The machine with another version of A that it follows. Refusals 1 and 2: 2 if the version is neither
    /// [`A_2_0`](crate::A_2_0) nor [`A_2_1`](crate::A_2_1).
    ///
    /// ```
    /// use floecavern::{Machine, Refusal, A_2_0};
    /// assert_eq!(Machine::new(1, 0, 64)?.with_version(A_2_0)?.state.version, 20);
    /// assert_eq!(Machine::new(1, 0, 64)?.with_version(22), Err(Refusal::State));
    /// # Ok::<(), Refusal>(())
    /// ```
    pub fn with_version(mut self, version: u64) -> Result<Machine, Refusal> {
        self.state.version = version;
        Machine::from_parts(self.state, self.base, self.mem)
    }

    /// The machine with a core of another kind: [`KIND_64`](crate::KIND_64) or [`KIND_32`](crate::KIND_32). Refusals 1 and 2:
    /// 1 if a 32-bit machine's memory would end above 2^32; 2 if the kind is neither of the two, or if a used hart has what no
    /// 32-bit one can have, an upper half of a register or a pc or a reservation 8 wide.
    ///
    /// ```
    /// use floecavern::{Machine, Refusal, KIND_32};
    /// assert_eq!(Machine::new(1, 0xffff_ffc0, 64)?.with_kind(KIND_32)?.state.kind, 1);
    /// assert_eq!(Machine::new(1, 0xffff_ffc0, 128)?.with_kind(KIND_32), Err(Refusal::Memory));
    /// assert_eq!(Machine::new(1, 0, 64)?.with_kind(32), Err(Refusal::State));
    /// # Ok::<(), Refusal>(())
    /// ```
    pub fn with_kind(mut self, kind: u64) -> Result<Machine, Refusal> {
        self.state.kind = kind;
        Machine::from_parts(self.state, self.base, self.mem)
    }

    /// The machine with other causes for a misaligned LR, SC, AMO or AMOCAS: those of
    /// [`MISALIGNED_4_AND_6`](crate::MISALIGNED_4_AND_6) or [`MISALIGNED_5_AND_7`](crate::MISALIGNED_5_AND_7). Refusals 1 and 2:
    /// 2 if the number is neither of the two.
    ///
    /// ```
    /// use floecavern::{Cause, Machine, Outcome, Refusal, Trap, MISALIGNED_5_AND_7};
    /// // lr.w x6,(x5) at an address that isn't a multiple of 4.
    /// let mut machine = Machine::new(1, 0, 64)?;
    /// machine.put_words(0, &[0x1002_a32f])?;
    /// machine.state.x[0][5] = 34;
    /// let trap = |cause| Outcome::Trap(Trap { cause, value: 34 });
    /// assert_eq!(machine.step(0)?.outcome, trap(Cause::LoadAddressMisaligned));
    /// let mut machine = machine.with_misaligned(MISALIGNED_5_AND_7)?;
    /// assert_eq!(machine.step(0)?.outcome, trap(Cause::LoadAccessFault));
    /// assert_eq!(machine.with_misaligned(2), Err(Refusal::State));
    /// # Ok::<(), Refusal>(())
    /// ```
    pub fn with_misaligned(mut self, misaligned: u64) -> Result<Machine, Refusal> {
        self.state.misaligned = misaligned;
        Machine::from_parts(self.state, self.base, self.mem)
    }

    /// The machine set to what a board is set to: its set size, its version and its causes. The kind stays. Refusals 1 and 2.
    ///
    /// ```
    /// use floecavern::{Board, Machine, Refusal, A_2_0, MISALIGNED_5_AND_7};
    /// let board = Board { set_size: 128, version: A_2_0, misaligned: MISALIGNED_5_AND_7 };
    /// assert_eq!(Machine::new(1, 0, 128)?.with_board(board)?.state.version, 20);
    /// assert_eq!(Machine::new(1, 0, 64)?.with_board(board), Err(Refusal::Memory));
    /// # Ok::<(), Refusal>(())
    /// ```
    pub fn with_board(mut self, board: Board) -> Result<Machine, Refusal> {
        self.state.set_size = board.set_size;
        self.state.version = board.version;
        self.state.misaligned = board.misaligned;
        Machine::from_parts(self.state, self.base, self.mem)
    }

    /// Puts words into memory from `addr` on, 4 bytes each with the lowest first. This is no event: it breaks no
    /// reservation. Refusal 5, and nothing is written, if they aren't wholly in memory.
    pub fn put_words(&mut self, addr: u64, words: &[u32]) -> Result<(), Refusal> {
        let place = addr.checked_sub(self.base).and_then(|offset| usize::try_from(offset).ok());
        let room = place.and_then(|place| self.mem.get_mut(place..)?.get_mut(..words.len().checked_mul(4)?));
        for (place, word) in room.ok_or(Refusal::DeviceAddress)?.chunks_exact_mut(4).zip(words) {
            place.copy_from_slice(&word.to_le_bytes());
        }
        Ok(())
    }

    /// The `len` bytes from `addr` on, if they are wholly in memory.
    pub fn bytes(&self, addr: u64, len: usize) -> Option<&[u8]> {
        let place = usize::try_from(addr.checked_sub(self.base)?).ok()?;
        self.mem.get(place..)?.get(..len)
    }

    /// A step of a hart: fetches the word at its pc and performs it. Refusals 1 to 3.
    pub fn step(&mut self, hart: usize) -> Result<Answer, Refusal> {
        calls::step(&mut self.state, self.base, &mut self.mem, hart)
    }

    /// A device writes the `size` lowest bytes of `data` at `addr`, the lowest first. Under A 2.0 it breaks no reservation.
    /// Refusals 1, 2, 4 and 5.
    pub fn device_write(&mut self, addr: u64, size: usize, data: u64) -> Result<Answer, Refusal> {
        calls::device_write(&mut self.state, self.base, &mut self.mem, addr, size, data)
    }

    /// A yield: drops a hart's reservation. Refusals 1 to 3.
    pub fn yield_hart(&mut self, hart: usize) -> Result<Answer, Refusal> {
        calls::yield_hart(&mut self.state, self.base, &mut self.mem, hart)
    }

    /// An event by itself.
    pub fn perform(&mut self, event: Event) -> Result<Answer, Refusal> {
        match event {
            Event::Step { hart } => self.step(hart.into()),
            Event::DeviceWrite { addr, size, data } => self.device_write(addr, size.into(), data),
            Event::Yield { hart } => self.yield_hart(hart.into()),
        }
    }

    /// A run of the first `budget` events, or of all if there are fewer: how many that were. Traps don't stop it. Whose
    /// reservation they broke isn't told; [`perform`](Machine::perform) tells it of an event. Refusals 1, 2 and 11.
    ///
    /// ```
    /// use floecavern::{Event, Machine, Refusal, RefusedAt};
    /// let mut machine = Machine::new(1, 0, 64)?;
    /// let events = [Event::Yield { hart: 0 }, Event::Step { hart: 1 }];
    /// let refused = RefusedAt { refusal: Refusal::Events, place: 24 };
    /// assert_eq!(machine.run(&events, usize::MAX), Err(refused));
    /// assert_eq!(machine.run(&events[..1], usize::MAX), Ok(1));
    /// # Ok::<(), Refusal>(())
    /// ```
    pub fn run(&mut self, events: &[Event], budget: usize) -> Result<usize, RefusedAt> {
        calls::run(&mut self.state, self.base, &mut self.mem, events, budget)
    }

    /// The same of events that are bytes already, 24 for each, such as a case file's.
    pub fn run_bytes(&mut self, events: &[u8], budget: usize) -> Result<usize, RefusedAt> {
        calls::run_bytes(&mut self.state, self.base, &mut self.mem, events, budget)
    }

    /// A board's step log, 48 bytes for each row, replayed: the hart of each row steps, up to the first row that doesn't
    /// agree with the model. The machine is then the one after exactly the rows before that. Refusals 1, 2, 12 and 13.
    ///
    /// ```
    /// use floecavern::{Machine, Refusal, Replayed, Stop};
    /// let mut machine = Machine::new(1, 0, 64)?;
    /// machine.put_words(0, &[0x0070_0293, 0x0012_8313])?; // addi x5,x0,7; addi x6,x5,1
    /// let log = b"0 0000000000000000 00700293 05 0000000000000007\n\
    ///             0 0000000000000004 00128313 06 0000000000000009\n";
    /// let stop = Stop::Value { board: 9, model: 8 };
    /// assert_eq!(machine.replay(log)?, Replayed { rows: 1, stop });
    /// assert_eq!(stop.to_string(), "value 0000000000000009 0000000000000008");
    /// // The second row is not performed.
    /// assert_eq!((machine.state.pc[0], machine.state.x[0][6]), (4, 0));
    /// assert_eq!(machine.replay(&[]), Err(Refusal::LogEmpty));
    /// # Ok::<(), Refusal>(())
    /// ```
    pub fn replay(&mut self, log: &[u8]) -> Result<Replayed, Refusal> {
        calls::replay(&mut self.state, self.base, &mut self.mem, log)
    }
}
