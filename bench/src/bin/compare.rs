//! compare PROGRAM KEEP FIRST COUNT: generates cases, gives each to PROGRAM and compares its bytes with this crate's report.
//! compare PROGRAM KEEP FILE..: the same for files.
//! Stops at the first difference; the case and both outputs are then left in the folder KEEP.

use bench::broken::Broken;
use bench::case::read_case;
use bench::kinds::{Files, Kinds};
use std::collections::BTreeMap;
use std::fs::{self, File};
use std::process::{Command, Stdio};

struct Tally {
    cases: u64,
    events: u64,
    lines: BTreeMap<String, u64>,
    broken: Broken,
    files: Files,
    kinds: Kinds,
}

/// The kind of a line: its words without the numbers that vary.
fn kind(line: &str) -> String {
    if let Some((line, _)) = line.split_once(" broke ") {
        return format!("{} broke", kind(line));
    }
    let words: Vec<&str> = line.split(' ').collect();
    match words[..] {
        ["refused", number, _] => format!("refused {number}"),
        ["case", ..] => "case".into(),
        ["end", ..] => "end".into(),
        [_, who, "sc", result] => format!("{} sc {result}", &who[..1]),
        [_, who, "trap", cause, _] => format!("{} trap {cause}", &who[..1]),
        [_, who, "ok"] => format!("{} ok", &who[..1]),
        _ => "other".into(),
    }
}

fn compare(program: &str, keep: &str, name: &str, case: &[u8], tally: &mut Tally) -> std::io::Result<()> {
    let path = format!("{keep}/current.case");
    fs::write(&path, case)?;
    let output = Command::new(program).stdin(Stdio::from(File::open(&path)?)).output()?;
    let expected = bench::report(case);
    if output.stdout != expected || !output.stderr.is_empty() || !output.status.success() {
        let place = format!("{keep}/{name}");
        fs::rename(&path, format!("{place}.case"))?;
        fs::write(format!("{place}.program"), &output.stdout)?;
        fs::write(format!("{place}.bench"), &expected)?;
        println!("DIFFERENT {place}.case: {} {} bytes, {} of standard error", output.status, output.stdout.len(), output.stderr.len());
        let (a, b) = (String::from_utf8_lossy(&output.stdout), String::from_utf8_lossy(&expected));
        if let Some((n, (a, b))) = a.lines().zip(b.lines()).enumerate().find(|(_, (a, b))| a != b) {
            println!("line {n}: program `{a}`, bench `{b}`");
        }
        std::process::exit(1);
    }
    tally.cases += 1;
    for line in String::from_utf8_lossy(&expected).lines() {
        *tally.lines.entry(kind(line)).or_default() += 1;
        tally.events += 1;
    }
    tally.files.count(case);
    if let Ok(case) = read_case(case) {
        tally.broken.count(&case.state, case.base, case.memory, case.events);
        tally.kinds.count_events(&case.state, case.base, case.memory, case.events);
    }
    Ok(())
}

fn main() -> std::io::Result<()> {
    let arguments: Vec<String> = std::env::args().collect();
    if arguments.len() < 4 {
        eprintln!("usage: compare PROGRAM KEEP (FIRST COUNT | FILE..)");
        std::process::exit(2);
    }
    let (program, keep) = (&arguments[1], &arguments[2]);
    fs::create_dir_all(keep)?;
    let mut tally =
        Tally { cases: 0, events: 0, lines: BTreeMap::new(), broken: Broken::default(), files: Files::default(), kinds: Kinds::default() };
    match (arguments[3].parse::<u64>(), arguments.get(4).map(|n| n.parse::<u64>())) {
        (Ok(first), Some(Ok(count))) => {
            println!("seeds {first} to {}", first + count - 1);
            for seed in first..first + count {
                compare(program, keep, &seed.to_string(), &bench::generate::case(seed), &mut tally)?;
            }
        }
        _ => {
            for (n, file) in arguments[3..].iter().enumerate() {
                compare(program, keep, &format!("file{n}"), &fs::read(file)?, &mut tally)?;
            }
        }
    }
    println!("{} cases, {} lines, all the same", tally.cases, tally.events);
    for (kind, count) in &tally.lines {
        println!("  {kind}: {count}");
    }
    tally.broken.print(true);
    tally.files.print();
    tally.kinds.print_events();
    Ok(())
}
