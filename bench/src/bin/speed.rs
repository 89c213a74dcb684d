//! speed BATCHES FILE..: measures the calls of libcapi.a against this crate in one process and prints tables: long runs, long replays,
//! `report` of the files and of case files of the long runs' work, growth with harts, memory and events, single calls, all but the files for both kinds
//! of core. A ratio is the library's time by this crate's.
//!
//! Times are processor time, the least of BATCHES batches, both sides in turns so that other work on the machine meets both alike.

use bench::calls::{Call, Machine};
use bench::case::EVENT;
use bench::clock::now;
use bench::log::{replay, step_row, write_row, Replayed};
use bench::machine::{Memory, State};
use bench::work::{self, Work, BASE};
use bench::{floecavern, layout};
use std::hint::black_box;

const LONG: usize = 1_000_000;
/// A batch has about as many events, however few a call has.
const BATCH: usize = 200_000;
/// Two rows of hart 1 of `work::idle`, after which it is where it was.
const TWO_ROWS: &[u8] = b"\
1 0000000080000000 00000013 00 0000000000000000
1 0000000080000004 ffdff06f 00 0000000000000000
";

/// Nanoseconds, of the library and of this crate.
#[derive(Clone, Copy)]
struct Times {
    theirs: f64,
    ours: f64,
}

impl Times {
    fn ratio(self) -> f64 {
        self.theirs / self.ours
    }

    /// For one of `n`.
    fn each(self, n: usize) -> Times {
        Times { theirs: self.theirs / n as f64, ours: self.ours / n as f64 }
    }
}

fn timed(work: impl FnOnce()) -> f64 {
    let from = now();
    work();
    (now() - from) as f64
}

/// The least time of each, taken in turns.
fn least<const N: usize>(batches: usize, mut works: [&mut dyn FnMut(); N]) -> [f64; N] {
    let mut least = [f64::INFINITY; N];
    for _ in 0..batches {
        for (time, work) in least.iter_mut().zip(&mut works) {
            *time = time.min(timed(work));
        }
    }
    least
}

fn in_turns(batches: usize, mut theirs: impl FnMut(), mut ours: impl FnMut()) -> Times {
    let [theirs, ours] = least(batches, [&mut theirs, &mut ours]);
    Times { theirs, ours }
}

/// The time of one run of the work's events. Every run takes up where the last one ended, on both sides, and both end alike.
fn run(batches: usize, work: Work) -> Times {
    let Work { mut state, mut memory, events } = work;
    let number = events.len() / EVENT;
    let runs = (BATCH / number.max(1)).clamp(1, 10_000);
    let mut machine = Machine { state: layout::bytes(&state), base: BASE, memory: memory.clone() };
    let call = Call::Run { events: events.clone(), budget: number };
    let theirs = || {
        for _ in 0..runs {
            let mut ran = [0; 16];
            assert_eq!(floecavern::perform(&mut machine, &call, &mut ran), 0);
            assert_eq!(layout::get(&ran, 0), number as u64);
        }
    };
    let ours = || {
        for _ in 0..runs {
            let mut lent = Memory { base: BASE, bytes: &mut memory };
            assert_eq!(bench::run(&mut state, &mut lent, black_box(&events), number), Ok(number));
        }
    };
    let times = in_turns(batches, theirs, ours).each(runs);
    assert!(machine.memory == memory && machine.state == layout::bytes(&state), "the runs end differently");
    times
}

/// The log of the work's events, which are steps that don't trap.
fn log_of(work: &Work) -> Vec<u8> {
    let (mut state, mut bytes) = (work.state.clone(), work.memory.clone());
    let mut memory = Memory { base: BASE, bytes: &mut bytes };
    let mut row = |event: &[u8]| step_row(&mut state, &mut memory, event[1] as usize).expect("no step traps");
    work.events.chunks_exact(EVENT).flat_map(|event| write_row(&row(event))).collect()
}

/// The time of one replay of the log of the work's events, and that of the library's run of these events, every time from the start.
fn replayed(batches: usize, work: &Work) -> (Times, f64) {
    let (rows, log) = (work.events.len() / EVENT, log_of(work));
    let theirs = |call: &Call| {
        let mut machine = Machine { state: layout::bytes(&work.state), base: BASE, memory: work.memory.clone() };
        let mut told = vec![0; call.told()];
        assert_eq!(floecavern::perform(&mut machine, call, &mut told), 0);
        assert_eq!(layout::get(&told, 0), rows as u64);
    };
    let ours = || {
        let (mut state, mut bytes) = (work.state.clone(), work.memory.clone());
        let mut memory = Memory { base: BASE, bytes: &mut bytes };
        assert_eq!(replay(&mut state, &mut memory, black_box(&log)), Ok(Replayed { rows, stop: None }));
    };
    let (replay, run) = (Call::Replay { log: log.clone() }, Call::Run { events: work.events.clone(), budget: rows });
    let [theirs, ours, run] = least(batches, [&mut || theirs(&replay), &mut || ours(), &mut || theirs(&run)]);
    (Times { theirs, ours }, run)
}

fn heading(title: &str) {
    println!("\n{title}");
}

fn long_runs(batches: usize) {
    heading(&format!("Long runs: one call of {LONG} events; million events a second"));
    println!("{:<36} {:>9} {:>9} {:>7}", "", "library", "bench", "ratio");
    let mut worst: f64 = 0.0;
    for (name, work) in work::long_runs(LONG) {
        let times = run(batches, work).each(LONG);
        println!("{name:<36} {:>9.1} {:>9.1} {:>7.2}", 1e3 / times.theirs, 1e3 / times.ours, times.ratio());
        worst = worst.max(times.ratio());
    }
    println!("highest ratio {worst:.2}, target 2.0");
}

fn long_replays(batches: usize) {
    heading(&format!("Long replays: one call of {BATCH} rows; million rows a second, and a row by an event of a run of the same steps"));
    println!("{:<36} {:>9} {:>9} {:>7} {:>11}", "", "library", "bench", "ratio", "row / event");
    let works = work::KINDS.into_iter().flat_map(|(of, kind)| {
        [
            ("compute, 4 harts", work::compute(kind, 4, BATCH)),
            ("memory, 4 harts, 64 KiB", work::memory(kind, 4, 65_536, BATCH)),
            ("LR/SC on one line, 8 harts", work::contention(kind, 8, BATCH)),
            ("AMO and AMOCAS, 4 harts", work::amos(kind, 4, BATCH)),
        ]
        .map(|(name, work)| (work::named(name, of), work))
    });
    let (mut worst, mut most): (f64, f64) = (0.0, 0.0);
    for (name, work) in works {
        let (times, run) = replayed(batches, &work);
        let (rows, by_event) = (times.each(BATCH), times.theirs / run);
        println!("{name:<36} {:>9.1} {:>9.1} {:>7.2} {by_event:>11.2}", 1e3 / rows.theirs, 1e3 / rows.ours, rows.ratio());
        (worst, most) = (worst.max(rows.ratio()), most.max(by_event));
    }
    println!("highest ratio {worst:.2}, target 1.5; a row is at most {most:.2} events, target 4.0");
}

fn reports(batches: usize, files: &[String]) -> std::io::Result<()> {
    heading("report: one call; microseconds");
    println!("{:<36} {:>7} {:>9} {:>9} {:>7}", "case", "events", "library", "bench", "ratio");
    let mut out = vec![0; floecavern::REPORT_ROOM];
    let mut worst: f64 = 0.0;
    let named =
        |path: &String| std::fs::read(path).map(|file| (path.rsplit('/').next().unwrap().trim_end_matches(".case").to_string(), file));
    let given: Vec<(String, Vec<u8>)> = files.iter().map(named).collect::<Result<_, _>>()?;
    for (name, file) in given.into_iter().chain(work::case_files()) {
        let events = u32::from_le_bytes(file[36..40].try_into().unwrap()) as usize / EVENT;
        let expected = bench::report(&file);
        let length = floecavern::report(&file, &mut out) as usize;
        assert!(out[..length] == expected, "{name}: the reports differ");
        let runs = 1 + BATCH / (20 * events.max(100));
        let theirs = || (0..runs).for_each(|_| assert_eq!(floecavern::report(&file, &mut out), expected.len() as u64));
        let ours = || (0..runs).for_each(|_| drop(black_box(bench::report(black_box(&file)))));
        let times = in_turns(4 * batches, theirs, ours).each(1000 * runs);
        println!("{name:<36} {events:>7} {:>9.1} {:>9.1} {:>7.2}", times.theirs, times.ours, times.ratio());
        worst = worst.max(times.ratio());
    }
    println!("highest ratio {worst:.2}, target 1.5");
    Ok(())
}

/// A table of nanoseconds: a row for each of `values`, two columns of work.
fn growth<T: std::fmt::Display + Copy>(title: &str, columns: [&str; 2], values: &[T], each: impl Fn(T) -> [Times; 2]) {
    heading(title);
    println!("{:>9} | {:<27} | {:<27}", "", columns[0], columns[1]);
    println!("{:>9} | {:>9} {:>9} {:>7} | {:>9} {:>9} {:>7}", "", "library", "bench", "ratio", "library", "bench", "ratio");
    for &value in values {
        print!("{value:>9}");
        for times in each(value) {
            print!(" | {:>9.1} {:>9.1} {:>7.2}", times.theirs, times.ours, times.ratio());
        }
        println!();
    }
}

fn growths(batches: usize, of: &str, kind: u64) {
    let events = BATCH;
    growth(&work::named("Growth with harts: nanoseconds an event", of), ["compute", "LR/SC on one line"], &[1, 2, 4, 8], |harts| {
        [run(batches, work::compute(kind, harts, events)).each(events), run(batches, work::contention(kind, harts, events)).each(events)]
    });
    let lengths = [64, 256, 1024, 4096, 16_384, 65_536, 262_144, 1_048_576];
    let columns = ["an event, of 200000", "a call of one event"];
    growth(&work::named("Growth with bytes of memory: nanoseconds", of), columns, &lengths, |length| {
        [run(batches, work::memory(kind, 1, length, events)).each(events), run(batches, work::memory(kind, 1, length, 1))]
    });
    let numbers = [1, 10, 100, 1_000, 10_000, 100_000, 1_000_000];
    growth(&work::named("Growth with events in a call: nanoseconds an event", of), ["compute", "LR/SC on one line"], &numbers, |n| {
        [run(batches, work::compute(kind, 8, n)).each(n), run(batches, work::contention(kind, 8, n)).each(n)]
    });
}

/// Single calls: the library's on a state kept as bytes, this crate's on its own state.
fn single_calls(batches: usize, of: &str, kind: u64) {
    heading(&work::named("One call, 8 harts, 4096 bytes; the library on a state kept as bytes, bench on its own: nanoseconds", of));
    println!("{:<28} {:>9} {:>9} {:>7}", "", "library", "bench", "ratio");
    type Ours = fn(&mut State, &mut Memory);
    let rows: [(&str, Call, Ours); 5] = [
        ("step", Call::Step { hart: 1 }, |s, m| _ = black_box(s.step(m, 1))),
        ("device_write", Call::DeviceWrite { addr: BASE + 512, size: 8, data: 1 }, |s, m| _ = black_box(s.device(m, BASE + 512, 8, 1))),
        ("yield", Call::Yield { hart: 1 }, |s, m| _ = black_box(s.yield_hart(m, 1))),
        ("run of no events", Call::Run { events: Vec::new(), budget: 0 }, |s, m| _ = black_box(bench::run(s, m, &[], 0))),
        ("replay of two rows", Call::Replay { log: TWO_ROWS.to_vec() }, |s, m| _ = black_box(replay(s, m, TWO_ROWS))),
    ];
    for (name, call, perform) in rows {
        let Work { mut state, mut memory, .. } = work::idle(kind);
        let mut machine = Machine { state: layout::bytes(&state), base: BASE, memory: memory.clone() };
        let runs = 5_000;
        let theirs = || (0..runs).for_each(|_| assert_eq!(floecavern::perform(&mut machine, &call, &mut [0; 24][..call.told()]), 0));
        let ours = || (0..runs).for_each(|_| perform(&mut state, &mut Memory { base: BASE, bytes: &mut memory }));
        let times = in_turns(batches, theirs, ours).each(runs);
        assert!(machine.memory == memory && machine.state == layout::bytes(&state), "{name}: the states differ");
        println!("{name:<28} {:>9.1} {:>9.1} {:>7.2}", times.theirs, times.ours, times.ratio());
    }
}

fn main() -> std::io::Result<()> {
    let arguments: Vec<String> = std::env::args().collect();
    let Some(batches) = arguments.get(1).and_then(|n| n.parse().ok()) else {
        eprintln!("usage: speed BATCHES FILE..");
        std::process::exit(2);
    };
    long_runs(batches);
    long_replays(batches);
    reports(batches, &arguments[2..])?;
    for (of, kind) in work::KINDS {
        growths(batches, of, kind);
        single_calls(batches, of, kind);
    }
    Ok(())
}
