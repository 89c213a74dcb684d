//! What several tests use.

use floecavern::{Answer, Harts, Machine, Outcome, Refusal};

/// The harts that hold a reservation, unused ones too: bit 0 for hart 0.
pub fn held(machine: &Machine) -> u8 {
    (0..8).fold(0, |bits, h| bits | u8::from(machine.state.reservation(h).is_some()) << h)
}

/// The answer of a call that isn't refused.
pub fn answer(outcome: Outcome, broke: u8) -> Result<Answer, Refusal> {
    Ok(Answer { outcome, broke: Harts::from_bits(broke) })
}
