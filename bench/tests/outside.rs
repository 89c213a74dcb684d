//! This crate against the outside vectors of tests/vectors, which another independent model made from the documents: every line of 05-sizes.jsonl,
//! 07-versions.jsonl, 10-kind32.jsonl and 11-misaligned.jsonl, a library call each; every line of 11-settings.jsonl, a settings file read or
//! written; the blocks of 07-loops.txt and 10-loops.txt; the case files of 10-cases and the logs of 10-logs. Their form is described in
//! tests/outside.py.

mod json;

use bench::calls::{board_bytes, board_of, of_events, read_settings, write_settings, Call, BOARD, BOARDS, REFUSED};
use bench::case::{read_case, run, Refusal};
use bench::log::{replay, replay_report, Reason, Replayed};
use bench::loops::{check_loop, Verdict};
use bench::machine::{
    Hart, HartMask, Memory, Outcome, Reservation, State, ADDRESS_MISALIGNED, A_2_0, A_2_1, DEFAULT_SET, KIND_32, KIND_64,
};
use bench::settings::{self, Board, Settings};
use json::Json;
use std::fs;
use std::path::{Path, PathBuf};

fn vectors(name: &str) -> PathBuf {
    Path::new(env!("CARGO_MANIFEST_DIR")).join("../tests/vectors").join(name)
}

fn text(path: &Path) -> String {
    fs::read_to_string(path).unwrap_or_else(|error| panic!("{}: {error}", path.display()))
}

fn hex(number: &Json) -> u64 {
    u64::from_str_radix(number.text(), 16).expect("hex digits")
}

fn hex_bytes(digits: &Json) -> Vec<u8> {
    let digits = digits.text();
    (0..digits.len() / 2).map(|n| u8::from_str_radix(&digits[2 * n..2 * n + 2], 16).expect("hex digits")).collect()
}

/// A setting that is missing has its default.
fn setting(line: &Json, name: &str, default: u64) -> u64 {
    line.get(name).map_or(default, Json::number)
}

/// A hart of a line: x0 to x31, pc, null or address and width.
fn hart(given: &Json) -> Hart {
    let [x, pc, held] = given.list() else {
        panic!("no hart: {given:?}");
    };
    let x: Vec<u64> = x.list().iter().map(hex).collect();
    let reservation = match held {
        Json::Null => None,
        held => Some(Reservation { addr: hex(&held.list()[0]), width: held.list()[1].number() }),
    };
    Hart { x: x.try_into().expect("32 registers"), pc: hex(pc), reservation }
}

/// The state of a line; `part` is the line itself or what it has under `after`.
fn state(line: &Json, part: &Json) -> State {
    let harts: Vec<Hart> = part.field("harts").list().iter().map(hart).collect();
    State {
        count: line.field("count").number() as usize,
        harts: harts.try_into().expect("eight harts"),
        set_size: setting(line, "size", DEFAULT_SET),
        version: setting(line, "version", A_2_1),
        kind: setting(line, "kind", KIND_64),
        misaligned: setting(line, "misaligned", ADDRESS_MISALIGNED),
    }
}

/// The memory of a line, the rest of it zero.
fn memory(line: &Json, part: &Json) -> Vec<u8> {
    let mut bytes = hex_bytes(part.field("mem"));
    bytes.resize(line.field("len").number() as usize, 0);
    bytes
}

/// An answer as the lines have it, its parts in turn.
fn said(answer: &Json) -> String {
    let part = |part: &Json| match part {
        Json::Number(number) => number.to_string(),
        part => part.text().to_string(),
    };
    answer.list().iter().map(part).collect::<Vec<_>>().join(" ")
}

fn event_said(outcome: Result<Outcome, u8>) -> String {
    match outcome {
        Ok(Outcome::Retired { .. }) => "ok".into(),
        Ok(Outcome::Sc { success, .. }) => format!("sc {}", !success as u8),
        Ok(Outcome::Trap(trap)) => format!("trap {} {}", trap.cause, trap.value),
        Err(number) => format!("refused {number}"),
    }
}

/// 11 alone has a place.
fn run_said(performed: Result<usize, Refusal>) -> String {
    match performed {
        Ok(performed) => format!("done performed {performed}"),
        Err(Refusal { number: 11, place }) => format!("refused 11 {place} performed 0"),
        Err(Refusal { number, .. }) => format!("refused {number} performed 0"),
    }
}

fn replay_said(replayed: Result<Replayed, u8>) -> String {
    let Replayed { rows, stop } = match replayed {
        Ok(replayed) => replayed,
        Err(number) => return format!("refused {number} performed 0"),
    };
    let Some(reason) = stop else {
        return format!("agreed performed {rows}");
    };
    let reason = match reason {
        Reason::Form => "form".into(),
        Reason::Pc { board, model } => format!("pc {board} {model}"),
        Reason::Word { board, model } => format!("word {board} {model}"),
        Reason::Trap(trap) => format!("trap {} {}", trap.cause, trap.value),
        Reason::Rd { board, model } => format!("rd {board} {model}"),
        Reason::Value { board, model } => format!("value {board} {model}"),
    };
    format!("row {rows} {reason} performed {rows}")
}

fn loop_said(verdict: Result<Verdict, u8>) -> String {
    match verdict {
        Ok(Verdict::Accepted) => "accepted".into(),
        Ok(Verdict::Rejected { place, reason }) => format!("rejected {place} {reason}"),
        Err(number) => format!("refused {number}"),
    }
}

/// Performs a single event.
fn perform(call: &Call, state: &mut State, memory: &mut Memory) -> Result<Outcome, u8> {
    match *call {
        Call::Step { hart } => state.step(memory, hart),
        Call::DeviceWrite { addr, size, data } => state.device(memory, addr, size, data).map(|broke| Outcome::Retired { broke }),
        Call::Yield { hart } => state.yield_hart(memory, hart).map(|()| Outcome::Retired { broke: 0 }),
        ref other => panic!("no single event: {other:?}"),
    }
}

/// The single event of a line, if it is one.
fn single(line: &Json) -> Option<Call> {
    let hart = || line.field("hart").number() as usize;
    Some(match line.field("call").text() {
        "step" => Call::Step { hart: hart() },
        "yield" => Call::Yield { hart: hart() },
        "device" => {
            let data = hex_bytes(line.field("data"));
            let number = data.iter().take(8).rev().fold(0, |number, &byte| number << 8 | u64::from(byte));
            Call::DeviceWrite { addr: hex(line.field("address")), size: data.len(), data: number }
        }
        _ => return None,
    })
}

fn broke(outcome: Result<Outcome, u8>) -> HartMask {
    outcome.map_or(0, Outcome::broke)
}

/// A call that is no loop check: its answer, and the state and memory that it leaves.
fn compare_call(line: &Json) {
    let (mut state_now, mut bytes) = (state(line, line), memory(line, line));
    let lent = &mut Memory { base: hex(line.field("base")), bytes: &mut bytes };
    let answer = match (single(line), line.field("call").text()) {
        (Some(call), _) => {
            let outcome = perform(&call, &mut state_now, lent);
            assert_eq!(u64::from(broke(outcome)), line.field("broke").number());
            event_said(outcome)
        }
        (None, "run") => {
            let (body, budget) = (hex_bytes(line.field("body")), line.field("budget").number() as usize);
            run_said(run(&mut state_now, lent, &body, budget))
        }
        (None, "replay") => {
            // A character is a byte.
            let log: Vec<u8> = line.field("log").text().chars().map(|c| u8::try_from(c).expect("a byte")).collect();
            replay_said(replay(&mut state_now, lent, &log))
        }
        (None, other) => panic!("no call: {other}"),
    };
    assert_eq!(answer, said(line.field("answer")));
    let after = line.get("after").unwrap_or(line);
    assert_eq!(state_now, state(line, after));
    assert_eq!(bytes, memory(line, after));
}

/// The events of a run one by one, where the line has an answer for each.
fn compare_each(line: &Json) {
    let (mut state, mut bytes) = (state(line, line), memory(line, line));
    let lent = &mut Memory { base: hex(line.field("base")), bytes: &mut bytes };
    let body = hex_bytes(line.field("body"));
    for (call, each) in of_events(&body).zip(line.field("each").list()) {
        let outcome = perform(&call, &mut state, lent);
        assert_eq!(format!("{} {}", event_said(outcome), broke(outcome)), said(each));
    }
}

fn compare_loop(line: &Json) {
    let words: Vec<u32> = line.field("words").list().iter().map(|word| hex(word) as u32).collect();
    let verdict = check_loop(setting(line, "version", A_2_1), setting(line, "kind", KIND_64), &words);
    assert_eq!(loop_said(verdict), said(line.field("answer")));
}

/// Every line of a file; how many they are.
fn compare_lines(name: &str) -> usize {
    let file = text(&vectors(name));
    for (n, line) in file.lines().enumerate() {
        println!("{name} line {}", n + 1);
        let line = Json::of(line);
        match line.field("call").text() {
            "loop" => compare_loop(&line),
            _ => compare_call(&line),
        }
        if line.get("each").is_some() {
            compare_each(&line);
        }
    }
    file.lines().count()
}

#[test]
fn sizes() {
    assert_eq!(compare_lines("05-sizes.jsonl"), 739);
}

#[test]
fn versions() {
    assert_eq!(compare_lines("07-versions.jsonl"), 336);
}

#[test]
fn kinds() {
    assert_eq!(compare_lines("10-kind32.jsonl"), 629);
}

#[test]
fn misaligned() {
    assert_eq!(compare_lines("11-misaligned.jsonl"), 688);
}

/// The boards of a line.
fn boards(given: &Json) -> Vec<Board> {
    let board = |given: &Json| {
        let [set_size, version, misaligned] = ["size", "a", "misaligned"].map(|name| given.field(name).number());
        Board { set_size, version, misaligned }
    };
    given.list().iter().map(board).collect()
}

/// What an answer refuses with, if it does: number and place.
fn refused(answer: &Json) -> Option<Refusal> {
    let numbers = answer.get("refused")?.list();
    Some(Refusal { number: numbers[0].number() as u8, place: numbers[1].number() as usize })
}

/// A file read, by the reader itself and by the call.
fn compare_read(line: &Json) {
    let (file, answer) = (hex_bytes(line.field("file")), line.field("answer"));
    let (mut lent, mut told) = ([0xA5; BOARDS], [0xA5; 16]);
    let called = read_settings(&file, &mut lent, &mut told);
    let numbers = [0, 8].map(|place| u64::from_le_bytes(told[place..place + 8].try_into().expect("8 bytes")));
    let expected = match refused(answer) {
        Some(refusal) => {
            assert_eq!((called, numbers, lent), (REFUSED + u64::from(refusal.number), [refusal.place as u64, 0], [0; BOARDS]));
            Err(refusal)
        }
        None => {
            let (format, boards) = (answer.field("version").number(), boards(answer.field("boards")));
            assert_eq!((called, numbers), (0, [format, boards.len() as u64]));
            let all: Vec<Board> = lent.chunks_exact(BOARD).map(board_of).collect();
            assert_eq!(all[..boards.len()], boards);
            assert!(all[boards.len()..].iter().all(|&board| board == Board::default()));
            // What is written of it again means the same.
            let mut again = [0; 200];
            let length = settings::write(&boards, &mut again).expect("boards that were read");
            assert_eq!(settings::read(&again[..length]), Ok(Settings { format: 2, boards: boards.clone() }));
            assert!(format != 2 || again[..length] == file);
            Ok(Settings { format: format as u32, boards })
        }
    };
    assert_eq!(settings::read(&file), expected);
}

/// A file written, by the writer itself and by the call: "bytes behind the file, and all of them after a refusal, stay".
fn compare_write(line: &Json) {
    let (boards, room, answer) = (boards(line.field("boards")), line.field("room").number() as usize, line.field("answer"));
    let lent: Vec<u8> = boards.iter().flat_map(|&board| board_bytes(board)).collect();
    let (mut out, mut called_out, mut told) = (vec![0xA5; room], vec![0xA5; room], [0xA5; 8]);
    let (written, called) = (settings::write(&boards, &mut out), write_settings(&lent, &mut called_out, &mut told));
    let mut expected = vec![0xA5; room];
    let (answer, number) = match refused(answer) {
        Some(refusal) => {
            assert_eq!(written, Err(refusal));
            (REFUSED + u64::from(refusal.number), refusal.place)
        }
        None => {
            let file = hex_bytes(answer.field("file"));
            assert_eq!(written, Ok(file.len()));
            expected[..file.len()].copy_from_slice(&file);
            (0, file.len())
        }
    };
    assert_eq!((called, told), (answer, (number as u64).to_le_bytes()));
    assert!(out == expected && called_out == expected);
}

#[test]
fn settings_files() {
    let file = text(&vectors("11-settings.jsonl"));
    let (mut read, mut written) = (0, 0);
    for line in file.lines() {
        let line = Json::of(line);
        println!("11-settings.jsonl {}", line.field("name").text());
        if line.get("file").is_some() {
            compare_read(&line);
            read += 1;
        } else {
            compare_write(&line);
            written += 1;
        }
    }
    assert_eq!((read, written), (508, 142));
}

/// A line is the words of a block, ` | ` and the answer.
fn compare_blocks(name: &str, version: u64, kind: u64) -> usize {
    let file = text(&vectors(name));
    for (n, line) in file.lines().enumerate() {
        let (words, answer) = line.split_once('|').expect("words and an answer");
        let words: Vec<u32> = words.split_whitespace().map(|word| u32::from_str_radix(word, 16).expect("a word")).collect();
        assert_eq!(loop_said(check_loop(version, kind, &words)), answer.trim(), "{name} line {}", n + 1);
    }
    file.lines().count()
}

#[test]
fn blocks() {
    assert_eq!(compare_blocks("07-loops.txt", A_2_0, KIND_64), 900);
    assert_eq!(compare_blocks("10-loops.txt", A_2_1, KIND_32), 900);
}

/// The paths of the case files of a folder, without `.case`.
fn cases(folder: &str) -> Vec<PathBuf> {
    let entries = fs::read_dir(vectors(folder)).expect("a folder of vectors");
    let paths = entries.map(|entry| entry.expect("an entry").path());
    paths.filter(|path| path.extension().is_some_and(|end| end == "case")).map(|path| path.with_extension("")).collect()
}

fn ending(path: &Path, end: &str) -> Vec<u8> {
    let path = path.with_extension(end);
    fs::read(&path).unwrap_or_else(|error| panic!("{}: {error}", path.display()))
}

/// Every case file of a folder; how many they are.
fn compare_cases(folder: &str) -> usize {
    let cases = cases(folder);
    for case in &cases {
        let report = bench::report(&ending(case, "case"));
        assert_eq!(String::from_utf8_lossy(&report), String::from_utf8_lossy(&ending(case, "out")), "{}", case.display());
    }
    cases.len()
}

#[test]
fn case_files() {
    assert_eq!(compare_cases("10-cases"), 182);
    // The one older case whose text is another one after request 10: its zero field is 1.
    assert_eq!(compare_cases("10-cases/changed/directed"), 1);
}

/// The text, and the used harts and the memory after exactly the rows before the stop.
#[test]
fn logs() {
    let cases = cases("10-logs");
    for path in &cases {
        println!("{}", path.display());
        let (file, log) = (ending(path, "case"), ending(path, "log"));
        assert_eq!(replay_report(&file, &log).as_bytes(), ending(path, "out"));
        let told = Json::of(std::str::from_utf8(&ending(path, "json")).expect("text"));
        let Some(after) = told.get("after") else {
            continue;
        };
        let mut case = read_case(&file).expect("a case that isn't refused");
        let mut bytes = case.memory.to_vec();
        let lent = &mut Memory { base: case.base, bytes: &mut bytes };
        let replayed = replay(&mut case.state, lent, &log).expect("a log that isn't refused");
        assert_eq!(replayed.rows as u64, told.field("performed").number());
        let harts: Vec<Hart> = after.field("harts").list().iter().map(hart).collect();
        assert_eq!(case.state.harts[..case.state.count], harts);
        assert_eq!(bytes, memory(&told, after));
    }
    assert_eq!(cases.len(), 20);
}
