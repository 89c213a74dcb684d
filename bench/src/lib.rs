//! A second implementation of document 01 and of requests 1, 2, 3, 5, 7, 10 and 11 of document 02, written from the papers alone, to compare the
//! proved one with and to measure it against.
//!
//! The implementation is `word`, `machine`, `case`, `log`, `loops` and `settings`; `layout` and `calls` put it behind the calls of
//! include/floecavern.h. `floecavern` is the proved library itself. `generate` and `work` make inputs for both; `described` says all that an
//! instruction holds; `reached` counts what generated logs reach, `broken` what the writes of generated events break, `sizes` what calls reach with
//! each set size, `versions` what calls, events and blocks reach under each version of the A extension, `kinds` what calls, events and case files
//! reach of each kind of core, `misaligned` what calls, events and logs reach under each setting of misaligned atomics, `boards` what settings
//! files and lists of boards reach. `shared` opens two versions of the library or of a crate side by side, and times them.

pub mod boards;
pub mod broken;
pub mod calls;
pub mod case;
pub mod clock;
pub mod described;
pub mod floecavern;
pub mod generate;
pub mod kinds;
pub mod layout;
pub mod log;
pub mod loops;
pub mod machine;
pub mod misaligned;
pub mod reached;
pub mod settings;
pub mod shared;
pub mod sizes;
pub mod versions;
pub mod word;
pub mod work;

pub use case::{report, run};
pub use loops::check_loop;
