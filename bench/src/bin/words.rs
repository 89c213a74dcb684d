//! words OLD NEW: every word by two versions of the decoder, given as shared objects, and by this crate's own, all that they say of it compared. It
//! prints how many words each finds illegal, how many differ, and the first of these. The same for RV32, if the new version has a decoder of it; an
//! old one that has none is left out of that.

use bench::described::{described, Described, FENCE, FIELDS, ILLEGAL};
use bench::shared::{open, Shared};
use bench::word::{decode, RV32, RV64};
use std::ffi::c_void;
use std::ops::Range;
use std::sync::atomic::{AtomicU64, Ordering};
use std::thread;

const ALL: Range<u64> = 0..1 << 32;
/// So few that what is said of them stays in a core's cache.
const BLOCK: u64 = 1024;
const SHOWN: usize = 8;

type Describe = unsafe extern "C" fn(*const u32, usize, *mut u64, usize);

/// What says all of words for registers of so many bits, if the version has it.
fn describer(shared: &Shared, xlen: u32) -> Option<Describe> {
    let found = if xlen == RV32 { shared.find("bench_words_32") } else { Some(shared.symbol("bench_words")) };
    // SAFETY: both functions have this type in every version: bench/words.
    found.map(|found| unsafe { std::mem::transmute::<*mut c_void, Describe>(found) })
}

/// The immediate in hex, all others in decimal.
fn shown(answer: &Described) -> String {
    let shown = |(field, number): (&&str, &u64)| if *field == "imm" { format!("{field} {number:#x}") } else { format!("{field} {number}") };
    FIELDS.iter().zip(answer).map(shown).collect::<Vec<_>>().join(" ")
}

/// Of two decoders.
#[derive(Default)]
struct Differences {
    number: u64,
    first: Vec<(u32, [Described; 2])>,
}

impl Differences {
    fn compare(&mut self, word: u32, answers: [Described; 2]) {
        if answers[0] != answers[1] {
            self.number += 1;
            if self.first.len() < SHOWN {
                self.first.push((word, answers));
            }
        }
    }

    fn join(&mut self, other: Self) {
        self.number += other.number;
        self.first.extend(other.first);
        self.first.sort();
        self.first.truncate(SHOWN);
    }

    fn print(&self, names: [&str; 2], what: &str) {
        println!("{} and {}, {what}: {} differ", names[0], names[1], self.number);
        for (word, answers) in &self.first {
            for (name, answer) in names.iter().zip(answers) {
                println!("  {word:08x} {name:<5} {}", shown(answer));
            }
        }
    }
}

#[derive(Default)]
struct Compared {
    words: u64,
    /// As the old version, the new one and this crate say.
    illegal: [u64; 3],
    versions: Differences,
    own: Differences,
}

impl Compared {
    fn count(&mut self, word: u32, xlen: u32, old: Described, new: Described) {
        let own = described(decode(word, xlen), xlen);
        for (count, answer) in self.illegal.iter_mut().zip([old, new, own]) {
            *count += (answer[0] == ILLEGAL) as u64;
        }
        self.words += 1;
        self.versions.compare(word, [old, new]);
        // This crate doesn't tell the fields of a FENCE.
        let told = if new[0] == FENCE { [FENCE, 0, 0, 0, 0, 0, 0, 0] } else { new };
        self.own.compare(word, [told, own]);
    }

    fn join(mut self, other: Self) -> Self {
        self.words += other.words;
        for (count, more) in self.illegal.iter_mut().zip(other.illegal) {
            *count += more;
        }
        self.versions.join(other.versions);
        self.own.join(other.own);
        self
    }

    fn print(&self) {
        let [old, new, own] = self.illegal;
        println!("{} words compared; illegal: old {old}, new {new}, bench {own}", self.words);
        self.versions.print(["old", "new"], "all fields");
        self.own.print(["new", "bench"], "all but the fields of FENCE");
    }
}

/// Takes blocks of words until none is left. Each has higher numbers than the one before, so the first differences are the least.
fn compare_blocks(versions: [Describe; 2], xlen: u32, words: &Range<u64>, next: &AtomicU64) -> Compared {
    let mut compared = Compared::default();
    let mut answers = [(); 2].map(|()| vec![[0; 8]; BLOCK as usize]);
    loop {
        let from = next.fetch_add(BLOCK, Ordering::Relaxed);
        let block: Vec<u32> = (from..words.end.min(from + BLOCK)).map(|n| n as u32).collect();
        if block.is_empty() {
            return compared;
        }
        for (describe, out) in versions.iter().zip(&mut answers) {
            // SAFETY: both pointers come from slices that have at least the lengths beside them, and they don't overlap.
            unsafe { describe(block.as_ptr(), block.len(), out.as_flattened_mut().as_mut_ptr(), 8 * out.len()) };
        }
        for (n, &word) in block.iter().enumerate() {
            compared.count(word, xlen, answers[0][n], answers[1][n]);
        }
    }
}

/// On all cores.
fn compare(versions: [Describe; 2], xlen: u32, words: Range<u64>) -> Compared {
    let next = AtomicU64::new(words.start);
    let threads = thread::available_parallelism().map_or(1, usize::from);
    thread::scope(|scope| {
        let started: Vec<_> = (0..threads).map(|_| scope.spawn(|| compare_blocks(versions, xlen, &words, &next))).collect();
        started.into_iter().map(|thread| thread.join().expect("no panic")).fold(Compared::default(), Compared::join)
    })
}

fn main() {
    let arguments: Vec<String> = std::env::args().collect();
    let [_, old, new] = &arguments[..] else {
        eprintln!("usage: words OLD NEW");
        std::process::exit(2);
    };
    let opened = [old, new].map(|path| open(path));
    let mut differ = 0;
    for xlen in [RV64, RV32] {
        let [Some(old), Some(new)] = described_by(&opened, xlen) else {
            println!("RV{xlen}: not compared");
            continue;
        };
        println!("RV{xlen}");
        let compared = compare([old, new], xlen, ALL);
        compared.print();
        differ += compared.versions.number + compared.own.number;
    }
    if differ > 0 {
        std::process::exit(1);
    }
}

/// Of both versions; of the new one twice, if the old one has none.
fn described_by(versions: &[Shared; 2], xlen: u32) -> [Option<Describe>; 2] {
    let [old, new] = [0, 1].map(|n| describer(&versions[n], xlen));
    [old.or(new), new]
}

#[cfg(test)]
mod tests {
    use super::*;

    /// Stands for a version of the decoder: this crate's, with FENCE's fields.
    fn version(word: u32, xlen: u32) -> Described {
        match described(decode(word, xlen), xlen) {
            [FENCE, ..] => [FENCE, 0, 0, 0, (word >> 7 & 31).into(), (word >> 15 & 31).into(), 0, (word >> 20).into()],
            other => other,
        }
    }

    unsafe fn write(words: *const u32, number: usize, out: *mut u64, room: usize, say: fn(u32) -> Described) {
        let (words, out) = (std::slice::from_raw_parts(words, number), std::slice::from_raw_parts_mut(out, room));
        for (&word, out) in words.iter().zip(out.chunks_exact_mut(8)) {
            out.copy_from_slice(&say(word));
        }
    }

    unsafe extern "C" fn right(words: *const u32, number: usize, out: *mut u64, room: usize) {
        write(words, number, out, room, |word| version(word, RV64));
    }

    unsafe extern "C" fn right_32(words: *const u32, number: usize, out: *mut u64, room: usize) {
        write(words, number, out, room, |word| version(word, RV32));
    }

    /// Says nothing of FENCE's rd.
    unsafe extern "C" fn without_rd(words: *const u32, number: usize, out: *mut u64, room: usize) {
        write(words, number, out, room, |word| match version(word, RV64) {
            [FENCE, a, b, c, _, d, e, f] => [FENCE, a, b, c, 0, d, e, f],
            other => other,
        });
    }

    /// Takes LUI for AUIPC, and EBREAK for an illegal word.
    unsafe extern "C" fn wrong(words: *const u32, number: usize, out: *mut u64, room: usize) {
        write(words, number, out, room, |word| match version(word, RV64) {
            [1, rest @ ..] => [&[2][..], &rest].concat().try_into().unwrap(),
            [14, ..] => [0; 8],
            other => other,
        });
    }

    /// Over enough words that EBREAK is among them, and a number of words that no whole blocks make.
    #[test]
    fn differences() {
        let words = 0..(1 << 21) + 500;
        let numbers = |versions| {
            let c = compare(versions, RV64, words.clone());
            assert_eq!(c.words, words.end);
            (c.versions.number, c.own.number, c.illegal[0] as i64 - c.illegal[2] as i64, c.illegal[1] as i64 - c.illegal[2] as i64)
        };
        let fences = words.clone().filter(|word| word & 0x707F == 0x0F && word >> 7 & 31 != 0).count() as u64;
        let luis = words.clone().filter(|word| word & 0x7F == 0x37).count() as u64;
        assert_eq!(numbers([right, right]), (0, 0, 0, 0));
        assert_eq!(numbers([right, without_rd]), (fences, 0, 0, 0));
        assert_eq!(numbers([without_rd, right]), (fences, 0, 0, 0));
        assert_eq!(numbers([right, wrong]), (luis + 1, luis + 1, 0, 1));
        assert_eq!(numbers([wrong, right]), (luis + 1, 0, 1, 0));
        assert_eq!(numbers([wrong, wrong]), (0, luis + 1, 1, 1));
    }

    /// The decoder of RV64 given for that of RV32 differs in just the words that RV64 alone has, here LD, LWU, SD, OP-IMM-32 and OP-32.
    #[test]
    fn widths() {
        let words = 0..1 << 20;
        let compared = compare([right_32, right_32], RV32, words.clone());
        assert_eq!((compared.versions.number, compared.own.number), (0, 0));
        let compared = compare([right_32, right], RV32, words.clone());
        let alone = words.filter(|&word| decode(word as u32, RV64).is_some() && decode(word as u32, RV32).is_none()).count() as u64;
        assert_eq!((compared.versions.number, compared.own.number), (alone, alone));
        assert!(alone > 1000);
    }

    /// Those shown are the lowest words, in order, whichever thread found them.
    #[test]
    fn first() {
        let compared = compare([right, without_rd], RV64, 0..1 << 21);
        assert_eq!(
            compared.versions.first.iter().map(|(word, _)| *word).collect::<Vec<_>>(),
            (1..9).map(|rd| rd << 7 | 0x0F).collect::<Vec<_>>()
        );
        let [old, new] = compared.versions.first[0].1;
        assert_eq!(shown(&old), "kind 12 operation 0 width 0 aq-rl 0 rd 1 rs1 0 rs2 0 imm 0x0");
        assert_eq!(shown(&new), "kind 12 operation 0 width 0 aq-rl 0 rd 0 rs1 0 rs2 0 imm 0x0");
    }
}
