//! measure RUNS BATCHES FILE..: nanoseconds of processor time of one report for each file, the least over the batches, and the bytes it
//! gives.

use bench::clock::now;
use std::hint::black_box;

fn main() -> std::io::Result<()> {
    let arguments: Vec<String> = std::env::args().collect();
    if arguments.len() < 4 {
        eprintln!("usage: measure RUNS BATCHES FILE..");
        std::process::exit(2);
    }
    let (runs, batches): (i64, i64) = (arguments[1].parse().expect("RUNS"), arguments[2].parse().expect("BATCHES"));
    for path in &arguments[3..] {
        let file = std::fs::read(path)?;
        let mut least = i64::MAX;
        for _ in 0..batches {
            let from = now();
            for _ in 0..runs {
                // The copy stands for reading standard input.
                let input = black_box(&file).clone();
                black_box(bench::report(&input));
            }
            least = least.min((now() - from) / runs);
        }
        println!("{least} {}", bench::report(&file).len());
    }
    Ok(())
}
