//! logs PROGRAM KEEP FIRST COUNT: generates case files with logs, gives both to PROGRAM and compares its bytes with this crate's lines.
//! logs PROGRAM KEEP CASE LOG ..: the same for files, two by two.
//! Stops at the first difference; case, log and both outputs are then left in the folder KEEP. At the end it prints what was reached.

use bench::case::read_case;
use bench::generate::case_with_log;
use bench::log::replay_report;
use bench::reached::Reached;
use std::fs;
use std::process::Command;

struct Compare<'a> {
    program: &'a str,
    keep: &'a str,
    reached: Reached,
}

impl Compare<'_> {
    fn compare(&mut self, name: &str, case: &[u8], log: &[u8]) -> std::io::Result<()> {
        let paths = ["case", "log"].map(|end| format!("{}/current.{end}", self.keep));
        for (path, bytes) in paths.iter().zip([case, log]) {
            fs::write(path, bytes)?;
        }
        let output = Command::new(self.program).args(&paths).output()?;
        let expected = replay_report(case, log);
        if output.stdout != expected.as_bytes() || !output.stderr.is_empty() || !output.status.success() {
            let name = format!("{}/log{name}", self.keep);
            for (end, bytes) in [("case", case), ("log", log), ("program", &output.stdout), ("bench", expected.as_bytes())] {
                fs::write(format!("{name}.{end}"), bytes)?;
            }
            println!("DIFFERENT: {name}.*, {}, {} bytes of standard error", output.status, output.stderr.len());
            println!("program: {:?}\nbench:   {expected:?}", String::from_utf8_lossy(&output.stdout));
            std::process::exit(1);
        }
        match read_case(case) {
            Ok(case) => self.reached.count(&case.state, case.base, case.memory, log),
            Err(refusal) => self.reached.refused(refusal.number),
        }
        Ok(())
    }
}

fn main() -> std::io::Result<()> {
    let arguments: Vec<String> = std::env::args().collect();
    if arguments.len() < 5 || arguments.len().is_multiple_of(2) {
        eprintln!("usage: logs PROGRAM KEEP (FIRST COUNT | CASE LOG ..)");
        std::process::exit(2);
    }
    let (program, keep) = (&arguments[1], &arguments[2]);
    fs::create_dir_all(keep)?;
    let mut compare = Compare { program, keep, reached: Reached::new(&[7, 8, 9, 10, 11, 12, 13]) };
    if let (Ok(first), Ok(count)) = (arguments[3].parse::<u64>(), arguments[4].parse::<u64>()) {
        for seed in first..first + count {
            let (case, log) = case_with_log(seed);
            compare.compare(&seed.to_string(), &case, &log)?;
        }
        println!("{count} cases with logs, seeds {first} to {}, all the same", first + count - 1);
    } else {
        for (n, files) in arguments[3..].chunks(2).enumerate() {
            compare.compare(&format!("file{n}"), &fs::read(&files[0])?, &fs::read(&files[1])?)?;
        }
        println!("{} files with logs, all the same", arguments.len() / 2 - 1);
    }
    compare.reached.print();
    Ok(())
}
