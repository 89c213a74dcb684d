//! decode BATCHES OLD.. NEW..: the decoder by itself, over many words, by two versions of it, in one process and in turns. Each version is given as
//! as many shared objects as the other, which differ in where its code lies; the batches take them in turn, and the least counts. A ratio is the new
//! version's time by the old one's.
//!
//! A version may have a decoder of RV32 too. It is then measured on the same words against the old version's, or, if that has none, against the
//! decoder of RV64 beside it.

use bench::generate::classes::{Maker, CLASSES};
use bench::generate::words::NOP;
use bench::generate::Rng;
use bench::shared::{arguments, least_times, Shared};
use bench::word::{self, RV32, RV64};
use std::ffi::c_void;

const WORDS: usize = 16_384;
/// How many of the last instructions bench/decode keeps; what it answers is of the first of them.
const KEPT: usize = 16;

type Decode = unsafe extern "C" fn(*const u32, usize) -> u64;

/// A decoder for registers of so many bits.
#[derive(Clone, Copy)]
struct Decoder {
    xlen: u32,
    decode: Decode,
}

/// Those of one version.
struct Version {
    rv64: Decoder,
    rv32: Option<Decoder>,
}

fn version(shared: Shared) -> Version {
    // SAFETY: both functions have this type in every version: bench/decode.
    let decoder = |xlen, found| Decoder { xlen, decode: unsafe { std::mem::transmute::<*mut c_void, Decode>(found) } };
    Version { rv64: decoder(RV64, shared.symbol("bench_decode")), rv32: shared.find("bench_decode_32").map(|found| decoder(RV32, found)) }
}

fn is_illegal(word: u32, xlen: u32) -> bool {
    word::decode(word, xlen).is_none()
}

/// The least times of both versions, for all words, and how many of the words of all batches are illegal for the new one.
fn times(batches: usize, places: &[[Decoder; 2]], make: Maker) -> ([f64; 2], usize) {
    let (mut illegal, rng) = (0, &mut Rng::new(1));
    let input = || {
        let words: Vec<u32> = (0..WORDS).map(|_| make(rng)).collect();
        illegal += words.iter().filter(|&&word| is_illegal(word, places[0][1].xlen)).count();
        words
    };
    let least = least_times(batches, places, input, |Decoder { xlen, decode }, words| {
        // SAFETY: the pointer comes from a slice of the length beside it.
        let answer = unsafe { decode(words.as_ptr(), words.len()) };
        assert_eq!(answer, is_illegal(words[WORDS - KEPT], xlen).into());
    });
    (least, illegal)
}

fn print_table(batches: usize, places: &[[Decoder; 2]]) {
    let mix: [(&str, Maker); 1] = [("all classes", |rng| rng.pick(&CLASSES).1(rng))];
    let others: [(&str, Maker); 2] = [("any numbers", |rng| rng.next() as u32), ("one word", |_| NOP)];
    println!("{:<12} {:>9} {:>9} {:>7} {:>8}", "", "old", "new", "ratio", "illegal");
    for (name, make) in mix.into_iter().chain(CLASSES).chain(others) {
        let (least, illegal) = times(batches, places, make);
        let ([old, new], percent) = (least.map(|time| time / WORDS as f64), 100.0 * illegal as f64 / (WORDS * batches) as f64);
        println!("{name:<12} {old:>9.2} {new:>9.2} {:>7.3} {percent:>7.1}%", new / old);
    }
}

fn main() {
    let (batches, versions) = arguments(version);
    println!("The decoder, {WORDS} words in turn, others in every batch: nanoseconds a word");
    let of_64: Vec<[Decoder; 2]> = versions.iter().map(|[old, new]| [old.rv64, new.rv64]).collect();
    print_table(batches, &of_64);
    let of_32: Option<Vec<[Decoder; 2]>> = versions.iter().map(|[old, new]| Some([old.rv32.unwrap_or(new.rv64), new.rv32?])).collect();
    if let Some(places) = of_32 {
        let old = if places[0][0].xlen == RV32 { "" } else { "; the old version has none, so old is the new version's decoder of RV64" };
        println!("\nThe decoder of RV32{old}");
        print_table(batches, &places);
    }
}
