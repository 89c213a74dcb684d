//! What calls answer: outcomes, refusals, and the names of their numbers.

use crate::Harts;
use std::error::Error;
use std::fmt;

/// An enum of numbers, each with a short text, which is the header's.
macro_rules! numbered {
    ($(#[$doc:meta])* $name:ident, $what:literal, $($(#[$item:meta])* $variant:ident = $number:literal, $text:literal;)+) => {
        $(#[$doc])*
        #[derive(Clone, Copy, Debug, PartialEq, Eq, PartialOrd, Ord, Hash)]
        pub enum $name {
            $($(#[$item])* $variant = $number,)+
        }

        impl $name {
            /// All of them, in the order of their numbers.
            pub const ALL: &'static [$name] = &[$($name::$variant),+];

            /// The one that has this number, if one has.
            pub fn of(number: u64) -> Option<Self> {
                Self::ALL.iter().copied().find(|one| one.number() == number)
            }

            pub fn number(self) -> u64 {
                self as u64
            }

            /// A short text, the same as the header's.
            pub fn text(self) -> &'static str {
                match self {
                    $($name::$variant => $text,)+
                }
            }
        }

        impl fmt::Display for $name {
            fn fmt(&self, f: &mut fmt::Formatter) -> fmt::Result {
                write!(f, "{} {}: {}", $what, self.number(), self.text())
            }
        }

        impl Error for $name {}
    };
}

numbered! {
    /// Why a step trapped, by the names that the privileged manual has for the causes.
    ///
    /// ```
    /// use floecavern::Cause;
    /// assert_eq!(Cause::of(2), Some(Cause::IllegalInstruction));
    /// assert_eq!(Cause::IllegalInstruction.to_string(), "cause 2: illegal instruction");
    /// assert_eq!(Cause::of(9), None);
    /// ```
    Cause, "cause",
    /// A jump or taken branch to a target that isn't a multiple of 4.
    InstructionAddressMisaligned = 0, "instruction address misaligned";
    /// The word at pc isn't wholly in memory.
    InstructionAccessFault = 1, "instruction access fault";
    /// The word is no instruction of the core: one of the 64-bit kind may be none of the 32-bit kind.
    IllegalInstruction = 2, "illegal instruction";
    Breakpoint = 3, "breakpoint";
    LoadAddressMisaligned = 4, "load address misaligned";
    LoadAccessFault = 5, "load access fault";
    StoreAddressMisaligned = 6, "store/AMO address misaligned";
    StoreAccessFault = 7, "store/AMO access fault";
    EnvironmentCall = 8, "environment call";
}

numbered! {
    /// Why a call is refused. Nothing has changed then.
    ///
    /// ```
    /// use floecavern::Refusal;
    /// assert_eq!(Refusal::Hart.to_string(), "refusal 3: the hart is not below the count");
    /// let error: Box<dyn std::error::Error> = Refusal::Hart.into();
    /// ```
    #[must_use = "a refused call did nothing"]
    Refusal, "refusal",
    /// The set size isn't a power of two from 8 to 4,096; or the memory's length isn't 64 to 1,048,576, its base is above
    /// 2^40, or one of them isn't a multiple of the larger of 64 and the set size; or, of the 32-bit kind, their sum is above
    /// 2^32.
    Memory = 1, "the set size or the memory's length or base is wrong";
    /// The version of A is neither 2.0 nor 2.1, or the kind of core neither the 64-bit nor the 32-bit one, of a state or of a
    /// check of a loop; `misaligned` is neither 0 nor 1; the count isn't 1 to 8; or, of a used hart, x0, the pc or the
    /// reservation is wrong, or, of the 32-bit kind, a register has an upper half that isn't zero.
    State = 2, "a setting other than the set size, or the state, is wrong";
    Hart = 3, "the hart is not below the count";
    DeviceSize = 4, "a device write of 0 or more than 8 bytes";
    DeviceAddress = 5, "a device write not wholly in memory";
    Block = 6, "a block of fewer than 2 or more than 16 words";
    FileLength = 7, "the file's length is not 40 to 65536";
    Table = 8, "the table of contents is wrong";
    HartsBody = 9, "the harts body is wrong";
    MemoryBody = 10, "the memory body's length, or base plus length, is wrong";
    Events = 11, "an event or the length of the events is wrong";
    LogLength = 12, "the log's length is not a multiple of 48";
    LogEmpty = 13, "the log has no rows";
    /// Fewer than 8 bytes, a number of boards that isn't 1 to 16, a table or an end that is wrong; of a file to be written, its
    /// number of boards or a buffer that is too short.
    SettingsTable = 21, "the settings file's length, number of boards, table or room is wrong";
    SettingsFormat = 22, "the settings file's format is not 1 or 2";
    SettingsBoard = 23, "a board's set size, version of A or misaligned is wrong";
}

numbered! {
    /// Why a block is rejected. `docs/USING.md` has each in full.
    Reason, "reason",
    NoLr = 1, "place 0 is not an LR";
    NotPermitted = 2, "a word that a retry loop may not hold";
    Jump = 3, "a jump or branch that a retry loop may not make";
    WritesRs1 = 4, "the LR's rs1 is written before the SC";
    OtherSc = 5, "the SC has another width or rs1 than the LR";
    NoSc = 6, "no SC";
}

/// A refusal with its place: of a run, in bytes from its first event; of a report, in bytes from the file's first. Refusals
/// 1 and 2 of a run have the place 0.
#[must_use = "a refused call did nothing"]
#[derive(Clone, Copy, Debug, PartialEq, Eq)]
pub struct RefusedAt {
    pub refusal: Refusal,
    pub place: usize,
}

impl fmt::Display for RefusedAt {
    fn fmt(&self, f: &mut fmt::Formatter) -> fmt::Result {
        write!(f, "refusal {} at {}: {}", self.refusal.number(), self.place, self.refusal.text())
    }
}

impl Error for RefusedAt {
    fn source(&self) -> Option<&(dyn Error + 'static)> {
        Some(&self.refusal)
    }
}

/// What a step that traps gives. State and memory are as they were. Of the 32-bit kind the value's upper half is zero.
#[derive(Clone, Copy, Debug, PartialEq, Eq)]
pub struct Trap {
    pub cause: Cause,
    pub value: u64,
}

impl fmt::Display for Trap {
    fn fmt(&self, f: &mut fmt::Formatter) -> fmt::Result {
        write!(f, "trap {} {:016x}: {}", self.cause.number(), self.value, self.cause.text())
    }
}

impl Error for Trap {
    fn source(&self) -> Option<&(dyn Error + 'static)> {
        Some(&self.cause)
    }
}

/// What an event that isn't refused came to.
#[derive(Clone, Copy, Debug, PartialEq, Eq)]
pub enum Outcome {
    /// A step that is no SC, a device write or a yield.
    Retired,
    /// A step that retired an SC, which stored; also where its rd is x0.
    ScStored,
    /// A step that retired an SC, which failed.
    ScFailed,
    Trap(Trap),
}

impl fmt::Display for Outcome {
    fn fmt(&self, f: &mut fmt::Formatter) -> fmt::Result {
        match self {
            Outcome::Retired => f.write_str("retired"),
            Outcome::ScStored => f.write_str("sc stored"),
            Outcome::ScFailed => f.write_str("sc failed"),
            Outcome::Trap(trap) => trap.fmt(f),
        }
    }
}

/// The answer to an event that isn't refused: what it came to, and whose reservation it broke.
///
/// ```
/// use floecavern::{Machine, Outcome, Refusal};
/// // lr.w x6,(x5) for hart 0 and sw x8,0(x5) for hart 1.
/// let mut machine = Machine::new(2, 0, 128)?;
/// machine.put_words(0, &[0x1002_a32f, 0x0082_a023])?;
/// (machine.state.x[0][5], machine.state.x[1][5], machine.state.pc[1]) = (64, 100, 4);
///
/// // An outcome becomes an answer that broke no reservation.
/// assert_eq!(machine.step(0)?, Outcome::Retired.into());
/// let answer = machine.step(1)?;
/// assert_eq!(answer.outcome, Outcome::Retired);
/// assert!(answer.broke.contains(0) && answer.broke.len() == 1);
/// assert_eq!(answer.to_string(), "retired broke 01");
/// # Ok::<(), Refusal>(())
/// ```
///
/// It isn't compared with an outcome, so that a test can't pass over what was broken:
///
/// ```compile_fail
/// use floecavern::{Machine, Outcome};
/// let mut machine = Machine::new(1, 0, 64).unwrap();
/// assert_eq!(machine.yield_hart(0).unwrap(), Outcome::Retired);
/// ```
#[derive(Clone, Copy, Debug, PartialEq, Eq)]
pub struct Answer {
    pub outcome: Outcome,
    /// The harts whose reservation the event broke. A retired write of another hart (a store, an AMO, an equal AMOCAS, an SC
    /// that stored) breaks a reservation if it touches a byte of its set, the aligned bytes around the LR's address, as many
    /// as the state's `set_size`; a device write if it touches a byte that the LR read; both also where they write the bytes
    /// that were there. Under A 2.0 a device write breaks none. A step never has its own hart in it, also where it drops that
    /// hart's reservation (an SC) or replaces it (an LR). A yield, a trap and everything else that writes nothing has none.
    /// Only harts below the count are ever in it; what an unused hart seems to hold isn't looked at.
    pub broke: Harts,
}

/// An outcome that broke no reservation.
impl From<Outcome> for Answer {
    fn from(outcome: Outcome) -> Answer {
        Answer { outcome, broke: Harts::NONE }
    }
}

/// The outcome's text; behind it ` broke ` and two hex digits, as on a report's line, where a reservation was broken.
impl fmt::Display for Answer {
    fn fmt(&self, f: &mut fmt::Formatter) -> fmt::Result {
        self.outcome.fmt(f)?;
        if self.broke.is_empty() {
            return Ok(());
        }
        write!(f, " broke {:02x}", self.broke)
    }
}

/// Why a replay ended: every row agreed, or the first reason, in this order, that the next row gives. Of a difference, the
/// board's value and the model's.
#[derive(Clone, Copy, Debug, PartialEq, Eq)]
pub enum Stop {
    Agreed,
    /// The row is badly formed, or its hart isn't below the count.
    Form,
    Pc {
        board: u64,
        model: u64,
    },
    Word {
        board: u32,
        model: u32,
    },
    Trap(Trap),
    Rd {
        board: u8,
        model: u8,
    },
    Value {
        board: u64,
        model: u64,
    },
}

impl fmt::Display for Stop {
    fn fmt(&self, f: &mut fmt::Formatter) -> fmt::Result {
        match self {
            Stop::Agreed => f.write_str("agreed"),
            Stop::Form => f.write_str("form"),
            Stop::Pc { board, model } => write!(f, "pc {board:016x} {model:016x}"),
            Stop::Word { board, model } => write!(f, "word {board:08x} {model:08x}"),
            Stop::Trap(trap) => trap.fmt(f),
            Stop::Rd { board, model } => write!(f, "rd {board:02} {model:02}"),
            Stop::Value { board, model } => write!(f, "value {board:016x} {model:016x}"),
        }
    }
}

/// What a replay that isn't refused came to: how many rows there are before the stop, and the stop. State and memory are the
/// ones after exactly those rows.
#[must_use]
#[derive(Clone, Copy, Debug, PartialEq, Eq)]
pub struct Replayed {
    pub rows: usize,
    pub stop: Stop,
}

/// What the checker says of a block of words.
#[must_use]
#[derive(Clone, Copy, Debug, PartialEq, Eq)]
pub enum Verdict {
    Accepted,
    /// The lowest place that has a reason, counted in words from 0, and the lowest reason there.
    Rejected {
        place: usize,
        reason: Reason,
    },
}
