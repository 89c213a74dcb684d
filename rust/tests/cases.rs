//! The outside cases, event by event and as a run: what the calls answer is what the report's lines say.

use floecavern::{report, report_text, Answer, Machine, Outcome, State, KIND_32, MAX_HARTS};

fn number(bytes: &[u8]) -> u64 {
    bytes.iter().rev().fold(0, |n, b| n << 8 | *b as u64)
}

/// The machine and the events body of a case file that isn't refused.
fn read(file: &[u8]) -> (Machine, &[u8]) {
    let field = |at: usize| number(&file[at..at + 4]) as usize;
    let (harts, mem, events) = (&file[40..field(20)], &file[field(20)..field(32)], &file[field(32)..]);
    let mut state = State::new(number(&harts[8..12]));
    state.kind = number(&harts[12..16]);
    for (h, hart) in harts[16..].chunks(256).enumerate() {
        for (r, word) in hart.chunks(8).enumerate() {
            match r {
                31 => state.pc[h] = number(word),
                r => state.x[h][r + 1] = number(word),
            }
        }
    }
    (Machine::from_parts(state, number(&harts[..8]), mem.to_vec()).unwrap(), events)
}

/// The event performed, with its name on a line.
fn perform(machine: &mut Machine, e: &[u8]) -> (String, Answer) {
    let hart = e[1] as usize;
    let (name, answer) = match e[0] {
        1 => (format!("h{hart}"), machine.step(hart)),
        2 => ("d".to_string(), machine.device_write(number(&e[8..16]), e[2] as usize, number(&e[16..]))),
        _ => (format!("y{hart}"), machine.yield_hart(hart)),
    };
    (name, answer.expect("the events of a case aren't refused"))
}

/// What a line says of an answer.
fn said(answer: Answer) -> String {
    let said = match answer.outcome {
        Outcome::Retired => "ok".to_string(),
        Outcome::ScStored => "sc 0".to_string(),
        Outcome::ScFailed => "sc 1".to_string(),
        Outcome::Trap(trap) => format!("trap {} {:016x}", trap.cause.number(), trap.value),
    };
    match answer.broke.bits() {
        0 => said,
        bits => format!("{said} broke {bits:02x}"),
    }
}

/// The harts that hold a reservation, as bits.
fn held(machine: &Machine) -> u8 {
    (0..MAX_HARTS).fold(0, |bits, h| bits | u8::from(machine.state.reservation(h).is_some()) << h)
}

/// The line of an event, which is performed. The harts whose reservation it broke are those that held one before it and
/// don't after it, but for the hart of a step or a yield.
fn line(machine: &mut Machine, i: usize, e: &[u8]) -> String {
    let before = held(machine);
    let (name, answer) = perform(machine, e);
    let own = if e[0] == 2 { 0 } else { 1 << e[1] };
    assert_eq!(answer.broke.bits(), before & !held(machine) & !own, "event {i}");
    format!("{i} {name} {}", said(answer))
}

/// What the calls answer on a case file that isn't refused, against its lines: the kind of core, and how many events it has.
fn check(name: &str, file: &[u8], text: &str) -> (u64, usize) {
    let (start, body) = read(file);
    let mut one_by_one = start.clone();
    let n = body.len() / 24;
    let mut lines = vec![format!("case {} harts {} bytes {n} events", start.state.count, start.mem.len())];
    for (k, e) in body.chunks(24).enumerate() {
        lines.push(line(&mut one_by_one, k, e));
    }
    lines.push(format!("end {n}\n"));
    assert_eq!(lines.join("\n"), text, "{name}");
    let mut at_once = start;
    assert_eq!(at_once.run_bytes(body, usize::MAX), Ok(n));
    assert!(at_once == one_by_one, "{name}");
    (at_once.state.kind, n)
}

/// One of them has the number of the 32-bit kind.
#[test]
fn every_outside_case() {
    let folder = concat!(env!("CARGO_MANIFEST_DIR"), "/../crates/vectors/data");
    let (mut cases, mut narrow, mut events, mut breaks) = (0, 0, 0, 0);
    for i in 0..992 {
        let name = format!("{folder}/{i:04}");
        let file = std::fs::read(&name).unwrap();
        let Ok(text) = report(&file) else {
            continue;
        };
        let (kind, n) = check(&name, &file, &text);
        cases += 1;
        narrow += u64::from(kind == KIND_32);
        events += n;
        breaks += text.matches(" broke ").count();
    }
    assert_eq!((cases, narrow, events, breaks), (834, 1, 64_035, 1_283));
}

/// The cases of request 10, with the lines that were made for them.
#[test]
fn every_case_of_32_bits() {
    let folder = concat!(env!("CARGO_MANIFEST_DIR"), "/../tests/vectors/10-cases");
    let (mut cases, mut narrow, mut refused) = (0, 0, 0);
    for entry in std::fs::read_dir(folder).unwrap() {
        let path = entry.unwrap().path();
        if !path.extension().is_some_and(|extension| extension == "case") {
            continue;
        }
        let file = std::fs::read(&path).unwrap();
        let text = std::fs::read_to_string(path.with_extension("out")).unwrap();
        assert_eq!(report_text(&file), text, "{}", path.display());
        if text.starts_with("refused ") {
            refused += 1;
            continue;
        }
        cases += 1;
        narrow += u64::from(check(&path.display().to_string(), &file, &text).0 == KIND_32);
    }
    assert_eq!((cases, narrow, refused), (137, 134, 45));
}
