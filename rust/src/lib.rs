//! Safe calls of Floecavern's static library, a proved reference model of RISC-V atomics. `include/floecavern.h` says what
//! each function does.
//!
//! From the repository's root: `tools/build capi`, then `cargo test --offline` in `rust/`. x86-64 Linux only.
//!
//! A [`Machine`] owns a state and a memory. An event gives an [`Answer`], its [`Outcome`] and the [`Harts`] whose reservation
//! it broke; or it is refused: an `Err` of a [`Refusal`], and state and memory are as they were.
//!
//! ```
//! use floecavern::{Answer, Cause, Event, Harts, Machine, Outcome, Refusal, Reservation, Trap};
//!
//! # fn main() -> Result<(), Box<dyn std::error::Error>> {
//! // Two harts with their pc at 0, and 128 bytes of memory there: lr.w x6,(x5) and sc.w x7,x8,(x5).
//! let mut machine = Machine::new(2, 0, 128)?;
//! machine.put_words(0, &[0x1002_a32f, 0x1882_a3af])?;
//! machine.state.x[0][5] = 64;
//! machine.state.x[1][5] = 64;
//!
//! assert_eq!(machine.step(0)?.outcome, Outcome::Retired);
//! assert_eq!(machine.state.reservation(0), Some(Reservation { addr: 64, width: 4 }));
//! machine.device_write(72, 1, 0xff)?;
//! machine.step(1)?;
//!
//! // Hart 1's SC stores, and breaks the reservation of hart 0, whose SC fails.
//! let answer = machine.step(1)?;
//! assert_eq!(answer, Answer { outcome: Outcome::ScStored, broke: Harts::from_bits(1) });
//! assert_eq!(answer.to_string(), "sc stored broke 01");
//! assert_eq!(machine.state.reservation(0), None);
//! assert_eq!(machine.step(0)?, Outcome::ScFailed.into());
//!
//! // The word behind them is 0: a trap is an outcome, no error.
//! let trap = Trap { cause: Cause::IllegalInstruction, value: 0 };
//! assert_eq!(machine.step(0)?, Outcome::Trap(trap).into());
//! assert_eq!(machine.step(2), Err(Refusal::Hart));
//!
//! // Traps don't stop a run.
//! assert_eq!(machine.run(&[Event::Step { hart: 0 }, Event::Yield { hart: 1 }], usize::MAX)?, 2);
//! # Ok(())
//! # }
//! ```
//!
//! The set of a reservation has 64 bytes, [`SET_SIZE`], or as many as [`Machine::with_set_size`] says. The machine follows
//! A 2.1, [`A_2_1`], or the version that [`Machine::with_version`] says. Its core is the 64-bit one, [`KIND_64`], or of the
//! kind that [`Machine::with_kind`] says, such as [`KIND_32`]. [`State`] has an example of each. A misaligned LR, SC, AMO or
//! AMOCAS gives cause 4 or 6, or what [`Machine::with_misaligned`] says. What boards are set to can be kept in a settings
//! file: [`read_settings`], [`write_settings`], [`Machine::with_board`].
//!
//! A refusal can't be passed over by mistake:
//!
//! ```compile_fail
//! #![deny(unused_must_use)]
//! let mut machine = floecavern::Machine::new(1, 0, 64).unwrap();
//! machine.step(0);
//! ```

mod answers;
mod boards;
mod calls;
mod event;
mod harts;
mod machine;
pub mod raw;
mod state;

pub use answers::{Answer, Cause, Outcome, Reason, Refusal, RefusedAt, Replayed, Stop, Trap, Verdict};
pub use boards::{read_settings, write_settings, Board, SettingsFile, MAX_BOARDS, SETTINGS_ROOM};
pub use calls::{
    check_loop, check_loop_for, device_write, replay, report, report_text, run, run_bytes, step, yield_hart,
    REPORT_ROOM, ROW_SIZE,
};
pub use event::Event;
pub use harts::Harts;
pub use machine::{Machine, MAX_MEMORY};
pub use state::{
    Reservation, State, A_2_0, A_2_1, KIND_32, KIND_64, MAX_HARTS, MISALIGNED_4_AND_6, MISALIGNED_5_AND_7, SET_SIZE,
    STATE_SIZE,
};

/// The version of this interface, which is also that of `include/floecavern.h`. Those of the extension A are [`A_2_0`] and
/// [`A_2_1`].
pub const VERSION: &str = env!("CARGO_PKG_VERSION");
