//! touch BATCHES OLD.. NEW..: the test of touching ranges by itself, over many pairs of ranges, by two versions of it, in one process and in turns.
//! Each version is given as as many shared objects as the other, which differ in where its code lies; the batches take them in turn, and the least
//! counts. A ratio is the new version's time by the old one's.

use bench::generate::Rng;
use bench::shared::{arguments, least_times, Shared};
use std::ffi::c_void;

const PAIRS: usize = 16_384;
const TOPMOST: u64 = u64::MAX;
/// A set in the middle of a memory of 64 KiB.
const SET: u64 = 0x8000_8000;
const MEMORY: u64 = SET - 32_768;

type Touching = unsafe extern "C" fn(*const u64, usize) -> u64;

/// The first byte and the number of bytes of two ranges: a write, and the set or the bytes that an LR read.
type Pair = [u64; 4];

/// The pair of a number, or a random one.
type Maker = fn(u64, &mut Rng) -> Pair;

fn touching(shared: Shared) -> Touching {
    // SAFETY: the function has this type in every version: bench/touch.
    unsafe { std::mem::transmute::<*mut c_void, Touching>(shared.symbol("bench_touch")) }
}

const INPUTS: [(&str, Maker); 10] = [
    ("random stores around a set", |_, rng| [SET - 64 + 8 * rng.below(24), 8, SET, 64]),
    ("random stores in 64 KiB", |_, rng| [MEMORY + 8 * rng.below(8192), 8, SET, 64]),
    ("random device writes at an LR", |_, rng| [SET - 12 + rng.below(24), 1 + rng.below(8), SET, 4 + 4 * rng.below(2)]),
    ("stores that walk over 64 KiB", |n, _| [MEMORY + 8 * (n % 8192), 8, SET, 64]),
    ("all stores into the set", |_, rng| [SET + 8 * rng.below(8), 8, SET, 64]),
    ("all stores below the set", |_, rng| [SET - 8 - 8 * rng.below(4096), 8, SET, 64]),
    ("all stores above the set", |_, rng| [SET + 64 + 8 * rng.below(4088), 8, SET, 64]),
    ("one of them often empty", |_, rng| [SET - 64 + 8 * rng.below(24), 8 * rng.below(2), SET, 64 * rng.below(2)]),
    ("at the topmost bytes", |_, rng| [TOPMOST - rng.below(64), 1 + rng.below(64), TOPMOST - rng.below(64), 1 + rng.below(64)]),
    ("any numbers", |_, rng| [rng.next(), rng.next(), rng.next(), rng.next()]),
];

fn share_a_byte(pair: &Pair) -> bool {
    let [b, n, c, m] = pair.map(u128::from);
    b.max(c) < (b + n).min(c + m)
}

/// The least times of both versions, for all pairs, and how many of the pairs touched in all batches.
fn times(batches: usize, places: &[[Touching; 2]], make: Maker) -> ([f64; 2], usize) {
    let (mut found, rng) = (0, &mut Rng::new(1));
    let input = || {
        let pairs: Vec<Pair> = (0..PAIRS as u64).map(|n| make(n, rng)).collect();
        let touch = pairs.iter().filter(|pair| share_a_byte(pair)).count();
        found += touch;
        (pairs.concat(), touch)
    };
    let least = least_times(batches, places, input, |touching, (numbers, touch)| {
        // SAFETY: the pointer comes from a slice of the length beside it.
        let answer = unsafe { touching(numbers.as_ptr(), numbers.len()) };
        assert_eq!(answer, *touch as u64);
    });
    (least, found)
}

fn main() {
    let (batches, places) = arguments(touching);
    println!("The test of touching ranges, {PAIRS} pairs in turn, others in every batch: nanoseconds a pair");
    println!("{:<29} {:>9} {:>9} {:>7} {:>8}", "", "old", "new", "ratio", "touch");
    for (name, make) in INPUTS {
        let (least, found) = times(batches, &places, make);
        let ([old, new], percent) = (least.map(|time| time / PAIRS as f64), 100.0 * found as f64 / (PAIRS * batches) as f64);
        println!("{name:<29} {old:>9.2} {new:>9.2} {:>7.3} {percent:>7.1}%", new / old);
    }
}
