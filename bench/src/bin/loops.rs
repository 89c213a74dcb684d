//! loops: reads blocks from standard input (a byte with the version, a byte with the kind, a byte with the number of words, then the words) and
//! writes the answer for each on a line.
//! loops SEED COUNT: writes COUNT generated blocks in this form instead, each of them seven times: of the 64-bit kind under 2.0,
//! under 2.1 and under no version, the same of the 32-bit kind, and under 2.1 of no kind.

use bench::generate::{loop_block, Rng};
use bench::loops::{check_loop, Verdict};
use bench::machine::{A_2_0, A_2_1, KIND_32, KIND_64};
use std::io::{Read, Write};

fn answers(mut blocks: &[u8]) -> String {
    let mut out = String::new();
    while let [version, kind, count, rest @ ..] = blocks {
        let Some((words, rest)) = rest.split_at_checked(4 * *count as usize) else {
            break;
        };
        blocks = rest;
        let words: Vec<u32> = words.chunks_exact(4).map(|w| u32::from_le_bytes(w.try_into().unwrap())).collect();
        match check_loop((*version).into(), (*kind).into(), &words) {
            Ok(Verdict::Accepted) => out.push_str("accepted\n"),
            Ok(Verdict::Rejected { place, reason }) => out.push_str(&format!("rejected {place} {reason}\n")),
            Err(number) => out.push_str(&format!("refused {number}\n")),
        }
    }
    out
}

/// A byte that is no version.
fn no_version(rng: &mut Rng) -> u64 {
    match rng.below(256) {
        A_2_0 | A_2_1 => 0,
        other => other,
    }
}

/// The versions and kinds of a block.
fn settings(rng: &mut Rng) -> [(u64, u64); 7] {
    let no_kind = 2 + rng.below(254);
    let [of_64, of_32] = [KIND_64, KIND_32].map(|kind| [A_2_0, A_2_1, no_version(rng)].map(|version| (version, kind)));
    [of_64[0], of_64[1], of_64[2], of_32[0], of_32[1], of_32[2], (A_2_1, no_kind)]
}

fn main() -> std::io::Result<()> {
    let arguments: Vec<String> = std::env::args().collect();
    let mut bytes = Vec::new();
    if let [_, seed, count] = &arguments[..] {
        let mut rng = Rng::new(seed.parse().expect("SEED"));
        for _ in 0..count.parse::<u64>().expect("COUNT") {
            let block = loop_block(&mut rng);
            for (version, kind) in settings(&mut rng) {
                bytes.extend([version as u8, kind as u8, block.len() as u8]);
                bytes.extend(block.iter().flat_map(|w| w.to_le_bytes()));
            }
        }
    } else {
        let mut input = Vec::new();
        std::io::stdin().lock().read_to_end(&mut input)?;
        bytes = answers(&input).into_bytes();
    }
    std::io::stdout().lock().write_all(&bytes)
}
