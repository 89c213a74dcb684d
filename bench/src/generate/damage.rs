//! Case files and events bodies with something wrong with them, or at least something changed.

use super::builder::{event_bytes, file, low_bytes, Builder, DEVICE, STEP, YIELD};
use super::makers::{contention, guided, program};
use super::words::{i_type, word};
use super::Rng;
use crate::case::{EVENT, MAX_FILE, TABLE};
use crate::machine::ADDRESSES_32;

fn put_u32(file: &mut [u8], place: usize, value: u32) {
    file[place..place + 4].copy_from_slice(&value.to_le_bytes());
}

fn put_u64(file: &mut [u8], place: usize, value: u64) {
    file[place..place + 8].copy_from_slice(&value.to_le_bytes());
}

fn get_u32(file: &[u8], place: usize) -> u32 {
    u32::from_le_bytes(file[place..place + 4].try_into().unwrap())
}

fn near_u32(rng: &mut Rng, old: u32) -> u32 {
    match rng.below(6) {
        0 => rng.next() as u32,
        1 => old.wrapping_add(rng.pick(&[1, 4, 24, 64, 256])),
        2 => old.wrapping_sub(rng.pick(&[1, 4, 24, 64, 256])),
        3 => rng.pick(&[0, 1, 2, 3, 4, 40, 0xFFFF_FFFF, 0x8000_0000, 65_536]),
        4 => old ^ 1 << rng.below(32),
        _ => old.swap_bytes(),
    }
}

pub fn damaged_file(rng: &mut Rng) -> Vec<u8> {
    let b = Builder::for_case(rng);
    let mut f = match rng.below(3) {
        0 => guided(rng, b),
        1 => program(rng, b),
        _ => contention(rng, b),
    }
    .file();
    for _ in 0..1 + rng.below(2) {
        if f.len() < TABLE {
            break;
        }
        change_file(rng, &mut f);
    }
    f
}

fn change_file(rng: &mut Rng, f: &mut Vec<u8>) {
    match rng.below(20) {
        0 => {
            let n = rng.below(f.len() as u64 + 1) as usize;
            f.truncate(n);
        }
        1 => {
            let most = if rng.percent(80) { 64 } else { 70_000 };
            for _ in 0..1 + rng.below(most) {
                f.push(rng.pick(&[0, 1, 255]));
            }
        }
        2 => {
            let place = rng.below(f.len() as u64) as usize;
            f[place] ^= 1 << rng.below(8);
        }
        3 | 4 => {
            let place = 4 * rng.below(10) as usize;
            let value = near_u32(rng, get_u32(f, place));
            put_u32(f, place, value);
        }
        5 if f.len() >= 56 => {
            let place = rng.pick(&[40, 44, 48, 52]);
            let value = near_u32(rng, get_u32(f, place));
            put_u32(f, place, value);
        }
        6 if f.len() >= 312 => f[56 + 248] ^= 1 << rng.below(4),
        7..=10 => change_file_event(rng, f),
        11 => wrap_table(rng, f),
        12 if f.len() >= 48 => {
            let base = some_base(rng, get_u32(f, 24));
            put_u64(f, 40, base);
        }
        13 | 14 if f.len() >= 56 => put_u32(f, 52, some_kind(rng)),
        15..=17 if f.len() >= 312 => upper_half(rng, f),
        _ => resize_body(rng, f),
    }
}

/// A base at a limit or wrong, for a memory of so many bytes.
fn some_base(rng: &mut Rng, length: u32) -> u64 {
    // What just fits for the 32-bit kind.
    let top = ADDRESSES_32 - length.min(1 << 20) as u64;
    rng.pick(&[1 << 40, (1 << 40) + 64, (1 << 40) - 64, 32, 1, 63, 1 << 63, 0, top, top + 64, ADDRESSES_32, ADDRESSES_32 - 64])
}

/// What the zero field of the harts body may hold: mostly a kind that is none, else one of the two, which may be the other one.
fn some_kind(rng: &mut Rng) -> u32 {
    match rng.below(8) {
        0 => 0,
        1..=3 => 1,
        4 => 2 + rng.below(254) as u32,
        5 => rng.pick(&[32, 64, 0x100, 0x101, 0x0100_0000, 0x8000_0000, 0x8000_0001]),
        6 => 1 << rng.below(32),
        _ => rng.next() as u32,
    }
}

/// Something in the upper half of a register or of the pc of some hart, which the 32-bit kind refuses.
fn upper_half(rng: &mut Rng, f: &mut [u8]) {
    let harts = (get_u32(f, 48) as usize).clamp(1, (f.len() - 56) / 256);
    let (hart, any) = (rng.below(harts as u64) as usize, rng.below(32) as usize);
    // x1, x31 and pc more often than by chance.
    let place = 56 + 256 * hart + 8 * rng.pick(&[0, 30, 31, 31, any]);
    f[place + 4 + rng.below(4) as usize] |= 1 << rng.below(8);
}

fn change_file_event(rng: &mut Rng, f: &mut [u8]) {
    let events = get_u32(f, 32) as usize;
    let number = f.len().saturating_sub(events) / EVENT;
    if number == 0 || f.len() < 56 {
        return;
    }
    let base = u64::from_le_bytes(f[40..48].try_into().unwrap());
    let (count, length) = (get_u32(f, 48) as u8, get_u32(f, 24) as u64);
    let place = events + EVENT * rng.below(number as u64) as usize;
    change_event(rng, &mut f[place..place + EVENT], count, base, length);
}

/// A table that agrees with the file modulo 2^32 only.
fn wrap_table(rng: &mut Rng, f: &mut [u8]) {
    let second = rng.pick(&[0, 40, 64, 312]);
    let length = rng.pick(&[0, 64, 128]);
    let wrapped = [0u32.wrapping_sub(40).wrapping_add(second), second, length, second + length];
    for (place, value) in [12, 20, 24, 32].into_iter().zip(wrapped) {
        put_u32(f, place, value);
    }
    let end = (f.len() as u32).wrapping_sub(second + length);
    put_u32(f, 36, end);
}

/// A body of another length under a table that agrees with it.
fn resize_body(rng: &mut Rng, f: &mut Vec<u8>) {
    let lengths = [get_u32(f, 12), get_u32(f, 24), get_u32(f, 36)].map(|n| n as usize % 70_000);
    let mut rest = f[TABLE..].iter().copied();
    let mut bodies = lengths.map(|n| (0..n).map(|_| rest.next().unwrap_or(0)).collect::<Vec<u8>>());
    let n = rng.below(3) as usize;
    let length = bodies[n].len();
    let length = match rng.below(6) {
        0 => length + rng.pick(&[1, 8, 24, 32, 64, 256]),
        1 => length.saturating_sub(rng.pick(&[1, 8, 24, 32, 64, 256])),
        2 => 0,
        3 => rng.below(300) as usize,
        4 => 16 + 256 * rng.below(10) as usize,
        _ => 64 * rng.below(40) as usize,
    };
    bodies[n].resize(length, 0);
    *f = file(&bodies[0], &bodies[1], &bodies[2]);
}

/// Changes one event of a body for `count` harts and a memory of `length` bytes at `base`.
pub fn change_event(rng: &mut Rng, event: &mut [u8], count: u8, base: u64, length: u64) {
    match rng.below(4) {
        0 | 1 => {
            let place = rng.pick(&[0, 0, 1, 1, 2, 2, 3, 4, 5, 6, 7, 8, 9, 13, 15, 16, 17, 19, 23]);
            event[place] = if rng.percent(50) { rng.below(10) as u8 } else { rng.next() as u8 };
        }
        2 => {
            // A device write about an edge of memory.
            let edge = rng.pick(&[base, base.wrapping_add(length), 0, ADDRESSES_32, u64::MAX]);
            let size = rng.below(10) as usize;
            let addr = edge.wrapping_add(rng.below(18)).wrapping_sub(9);
            let data = if rng.percent(80) { low_bytes(rng.next(), size) } else { rng.next() };
            event.copy_from_slice(&event_bytes(DEVICE, 0, size as u8, addr, data));
        }
        _ => {
            // A step or a yield of a hart about the count.
            let hart = count.wrapping_add(rng.below(3) as u8).wrapping_sub(1);
            event.copy_from_slice(&event_bytes(rng.pick(&[STEP, YIELD]), hart, 0, 0, 0));
        }
    }
}

/// An events body with something changed; most are refused by 11.
pub fn damaged_body(rng: &mut Rng, body: &[u8], count: u8, base: u64, length: u64) -> Vec<u8> {
    let mut body = body.to_vec();
    if body.is_empty() {
        body.extend(event_bytes(rng.below(5) as u8, 0, 0, 0, 0));
    }
    match rng.below(10) {
        0 => {
            let n = rng.below(body.len() as u64) as usize;
            body.truncate(n);
        }
        1 => {
            let n = body.len() + 1 + rng.below(EVENT as u64 + 1) as usize;
            body.resize(n, 0);
        }
        _ => {
            for _ in 0..1 + rng.below(3) {
                let n = rng.below((body.len() / EVENT) as u64) as usize;
                change_event(rng, &mut body[EVENT * n..EVENT * (n + 1)], count, base, length);
            }
        }
    }
    body
}

/// Files about the limits of length, most of them with a table that agrees.
pub fn file_at_limit(rng: &mut Rng) -> Vec<u8> {
    if rng.percent(40) {
        short_of_bodies(rng)
    } else {
        one_body_fills(rng)
    }
}

fn short_of_bodies(rng: &mut Rng) -> Vec<u8> {
    let n = rng.pick(&[0, 1, 3, 4, 39, 40, 41, 55, 56, 57, 80, 65_535, 65_536, 65_537, 70_000]);
    let mut f: Vec<u8> = (0..n).map(|_| if rng.percent(90) { 0 } else { rng.below(4) as u8 }).collect();
    let table = file(&[], &[], &vec![0; (n as usize).saturating_sub(TABLE)]);
    for (byte, from) in f.iter_mut().zip(&table[..if rng.percent(80) { TABLE } else { 12 }]) {
        *byte = *from;
    }
    f
}

fn one_body_fills(rng: &mut Rng) -> Vec<u8> {
    let mut b = Builder::for_case(rng);
    b.fill_registers(rng);
    let xlen = b.xlen();
    for place in b.memory.chunks_exact_mut(4) {
        let w = if rng.percent(30) { word(rng, xlen, 5) } else { i_type(0x13, 0, 5, 5, 4) };
        place.copy_from_slice(&w.to_le_bytes());
    }
    b.start(rng);
    if rng.percent(50) {
        b.resize((MAX_FILE - TABLE - 16 - 256 * b.state.count) / 64 * 64);
        let words = rng.below(4);
        b.show(rng, false, words);
    } else {
        while b.room() > 0 {
            let hart = b.some_hart(rng);
            match rng.below(10) {
                0 => b.yield_hart(hart),
                1 => b.random_device(rng),
                _ => {
                    b.step(hart);
                }
            }
        }
    }
    let mut f = b.file();
    if rng.percent(30) {
        let n = rng.below(48) as usize;
        f.resize(f.len() + n, 0);
        let events = get_u32(&f, 36);
        put_u32(&mut f, 36, events + n as u32);
    }
    f
}
