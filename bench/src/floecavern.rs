//! The proved library itself: include/floecavern.h, from libcapi.a, which `rust/` links.

use crate::calls::{Call, Machine};
use ::floecavern::raw::*;

pub use ::floecavern::REPORT_ROOM;

/// Performs a call, as `calls::perform` does.
pub fn perform(machine: &mut Machine, call: &Call, told: &mut [u8]) -> u64 {
    let (state, state_len) = (machine.state.as_mut_ptr(), machine.state.len());
    let (mem, mem_len) = (machine.memory.as_mut_ptr(), machine.memory.len());
    let (base, out, out_len) = (machine.base, told.as_mut_ptr(), told.len());
    // SAFETY: every pointer comes from a slice of the length beside it, and no two of the slices overlap.
    unsafe {
        match call {
            &Call::Step { hart } => floecavern_step(state, state_len, base, mem, mem_len, hart, out, out_len),
            &Call::DeviceWrite { addr, size, data } => {
                floecavern_device_write(state, state_len, base, mem, mem_len, addr, size, data, out, out_len)
            }
            &Call::Yield { hart } => floecavern_yield(state, state_len, base, mem, mem_len, hart, out, out_len),
            Call::Run { events, budget } => {
                floecavern_run(state, state_len, base, mem, mem_len, events.as_ptr(), events.len(), *budget, out, out_len)
            }
            Call::Replay { log } => floecavern_replay(state, state_len, base, mem, mem_len, log.as_ptr(), log.len(), out, out_len),
        }
    }
}

/// The lines of a case file, written to the start of `out`; how many bytes they are.
pub fn report(file: &[u8], out: &mut [u8]) -> u64 {
    // SAFETY: as above.
    unsafe { floecavern_report(file.as_ptr(), file.len(), out.as_mut_ptr(), out.len()) }
}

pub fn check_loop(words: &[u8]) -> u64 {
    // SAFETY: as above.
    unsafe { floecavern_check_loop(words.as_ptr(), words.len()) }
}

/// Reads a settings file, as `calls::read_settings` does.
pub fn read_settings(file: &[u8], boards: &mut [u8], told: &mut [u8]) -> u64 {
    // SAFETY: as above.
    unsafe { floecavern_read_settings(file.as_ptr(), file.len(), boards.as_mut_ptr(), boards.len(), told.as_mut_ptr(), told.len()) }
}

/// Writes a settings file, as `calls::write_settings` does.
pub fn write_settings(boards: &[u8], out: &mut [u8], told: &mut [u8]) -> u64 {
    // SAFETY: as above.
    unsafe { floecavern_write_settings(boards.as_ptr(), boards.len(), out.as_mut_ptr(), out.len(), told.as_mut_ptr(), told.len()) }
}

pub fn check_loop_for(version: u64, kind: u64, words: &[u8]) -> u64 {
    // SAFETY: as above.
    unsafe { floecavern_check_loop_for(version, kind, words.as_ptr(), words.len()) }
}
