//! library KEEP FIRST COUNT: gives generated input to the calls of libcapi.a and to this crate, and compares what they answer, tell and
//! leave: COUNT machines with their events, one call after another and as runs, and with logs; COUNT case files; COUNT blocks for the
//! loop checker.
//! FIRST is the first seed. Stops at the first difference; what was given is then left in the folder KEEP. The file KEEP/current has the
//! seed at work, should a call not come back.

use bench::broken::Broken;
use bench::calls::{self, Call, Machine, BAD_SIZE, REFUSED, TRAP};
use bench::case::EVENT;
use bench::generate::builder::low_bytes;
use bench::generate::{case, log, loop_block, no_kind, no_version, refused_call, run_call, scenario, Rng, Scenario};
use bench::kinds::{Files, Kinds};
use bench::log::ROW;
use bench::machine::{xlen, State, A_2_0, A_2_1, KIND_32, KIND_64, MAX_HARTS};
use bench::misaligned::Misaligned;
use bench::reached::Reached;
use bench::sizes::Sizes;
use bench::versions::{Blocks, Versions};
use bench::{floecavern, layout};
use std::collections::BTreeMap;
use std::fs;
use std::ops::Range;

/// What stands in a buffer before a call, so that bytes which nobody writes are compared too.
const UNTOUCHED: u8 = 0xA5;

/// What was met.
struct Tally {
    calls: u64,
    /// By call and answer.
    answers: BTreeMap<(&'static str, u64), u64>,
    /// Runs by how many of their events they performed.
    runs: BTreeMap<&'static str, u64>,
    /// Machines by reservations held at the start.
    held: BTreeMap<usize, u64>,
    broken: Broken,
    sizes: Sizes,
    versions: Versions,
    kinds: Kinds,
    misaligned: Misaligned,
    replays: Reached,
    /// Logs cut in two parts, both replayed as the whole.
    cut: u64,
}

/// Two sides that differ: files for the folder KEEP, by what their names end in.
struct Difference {
    what: String,
    files: Vec<(&'static str, Vec<u8>)>,
}

/// One machine, given to both sides.
struct Pair<'a> {
    start: &'a Machine,
    ours: Machine,
    theirs: Machine,
    calls: Vec<Call>,
    /// What the last call told.
    told: [u8; 32],
}

impl<'a> Pair<'a> {
    fn new(start: &'a Machine) -> Self {
        Pair { start, ours: start.clone(), theirs: start.clone(), calls: Vec::new(), told: [UNTOUCHED; 32] }
    }

    /// Makes a call on both sides and gives its answer; `told` is the size of the buffer for what it tells.
    fn call(&mut self, call: Call, told: usize, tally: &mut Tally) -> Result<u64, Difference> {
        let (mut a, mut b) = ([UNTOUCHED; 32], [UNTOUCHED; 32]);
        if let (Call::Replay { log }, Some(state), 24) = (&call, layout::read(&self.ours.state), told) {
            tally.replays.count(&state, self.ours.base, &self.ours.memory, log);
        }
        let ours = calls::perform(&mut self.ours, &call, &mut a[..told]);
        let theirs = floecavern::perform(&mut self.theirs, &call, &mut b[..told]);
        if theirs != ours || a != b || self.theirs != self.ours {
            return Err(self.difference(&call, told, (theirs, &b), (ours, &a)));
        }
        tally.count(&call, ours, &a);
        tally.sizes.count_call(&self.ours, ours);
        tally.versions.count_call(&self.ours, &call, ours);
        tally.kinds.count_call(&self.ours, &call, ours);
        tally.misaligned.count_call(&self.ours, &call, ours);
        self.calls.push(call);
        self.told = a;
        Ok(ours)
    }

    fn difference(&self, call: &Call, told: usize, theirs: (u64, &[u8]), ours: (u64, &[u8])) -> Difference {
        // The calls before it were the same on both sides.
        let mut before = self.start.clone();
        for earlier in &self.calls {
            calls::perform(&mut before, earlier, &mut vec![0; earlier.told()]);
        }
        let mut what = format!("{} at base {:#x}, {}{told} bytes to tell in\n", shown(call), before.base, shown_settings(&before.state));
        what += &format!("library: answer {:#x}, told {:02x?}\n", theirs.0, &theirs.1[..told]);
        what += &format!("bench:   answer {:#x}, told {:02x?}\n", ours.0, &ours.1[..told]);
        for (part, a, b) in [("state", &self.theirs.state, &self.ours.state), ("memory", &self.theirs.memory, &self.ours.memory)] {
            for (place, (a, b)) in a.iter().zip(b).enumerate().filter(|(_, (a, b))| a != b) {
                what += &format!("{part} byte {place}: library {a:02x}, bench {b:02x}\n");
            }
        }
        let mut files = vec![("state", before.state), ("memory", before.memory)];
        if let Call::Run { events, .. } = call {
            files.push(("events", events.clone()));
        }
        if let Call::Replay { log } = call {
            files.push(("log", log.clone()));
        }
        Difference { what, files }
    }
}

/// The settings, if it is a state.
fn shown_settings(state: &[u8]) -> String {
    let shown = |state: State| {
        let State { set_size, version, kind, misaligned, .. } = state;
        format!("sets of {set_size} bytes, version {version}, kind {kind}, misaligned {misaligned}, ")
    };
    layout::read(state).map_or(String::new(), shown)
}

/// A call and its arguments, without a run's events and a replay's rows.
fn shown(call: &Call) -> String {
    match call {
        Call::Run { events, budget } => format!("run of {} bytes of events, budget {budget}", events.len()),
        Call::Replay { log } => format!("replay of {} bytes of log", log.len()),
        call => format!("{call:x?}"),
    }
}

impl Tally {
    fn new() -> Self {
        Tally {
            calls: 0,
            answers: BTreeMap::new(),
            runs: BTreeMap::new(),
            held: BTreeMap::new(),
            broken: Broken::default(),
            sizes: Sizes::default(),
            versions: Versions::default(),
            kinds: Kinds::default(),
            misaligned: Misaligned::default(),
            replays: Reached::new(&[1, 2, 12, 13]),
            cut: 0,
        }
    }

    fn count(&mut self, call: &Call, answer: u64, told: &[u8]) {
        self.calls += 1;
        *self.answers.entry((call.name(), answer)).or_default() += 1;
        if let (Call::Run { events, budget }, 0) = (call, answer) {
            let (number, performed) = (events.len() / EVENT, layout::get(told, 0) as usize);
            let kind = match performed {
                0 => "none",
                n if n < number => "some",
                _ if *budget == number => "all, budget just enough",
                _ => "all, budget above",
            };
            *self.runs.entry(kind).or_default() += 1;
        }
    }

    fn count_given(&mut self, given: &Scenario) {
        let machine = &given.machine;
        if let Some(state) = layout::read(&machine.state) {
            let held = state.harts.iter().take(state.count).filter(|h| h.reservation.is_some()).count();
            *self.held.entry(held).or_default() += 1;
            self.broken.count(&state, machine.base, &machine.memory, &given.events);
            self.sizes.count_events(&state, machine.base, &machine.memory, &given.events);
            self.versions.count_events(&state, machine.base, &machine.memory, &given.events);
            self.kinds.count_events(&state, machine.base, &machine.memory, &given.events);
            self.misaligned.count_events(&state, machine.base, &machine.memory, &given.events);
        }
    }

    fn print(&self) {
        println!("  machines by reservations held at the start:");
        for (held, number) in &self.held {
            println!("    {held}: {number}");
        }
        self.broken.print(false);
        self.sizes.print();
        self.versions.print();
        self.kinds.print();
        self.misaligned.print();
        println!("  answers:");
        for ((call, answer), number) in &self.answers {
            // Those of replays come below.
            if *call != "replay" || *answer == BAD_SIZE {
                println!("    {call} {}: {number}", answer_name(*answer));
            }
        }
        println!("  runs not refused, by events performed:");
        for (kind, number) in &self.runs {
            println!("    {kind}: {number}");
        }
        self.replays.print();
        println!("    logs cut in two, both parts replayed as the whole: {}", self.cut);
    }
}

fn answer_name(answer: u64) -> String {
    match answer {
        0 => "ok".into(),
        1 => "SC stored".into(),
        2 => "SC failed".into(),
        BAD_SIZE => "bad size".into(),
        n if n >= REFUSED => format!("refused {}", n - REFUSED),
        n => format!("trap {}", n - TRAP),
    }
}

/// A machine's events, one call after another with refused calls between, and as runs.
fn compare_machine(seed: u64, tally: &mut Tally) -> Result<(), Difference> {
    let rng = &mut Rng::new(seed);
    let given = scenario(rng);
    let machine = &given.machine;
    tally.count_given(&given);
    let count = layout::read(&machine.state).map_or(1, |s| s.count.clamp(1, MAX_HARTS));
    let mut single = Pair::new(machine);
    for call in calls::of_events(&given.events) {
        if rng.percent(8) {
            let refused = refused_call(rng, machine, count);
            let told = if rng.percent(10) { rng.pick(&[0, 7, 9, 16, 32]) } else { refused.told() };
            single.call(refused, told, tally)?;
        }
        single.call(with_rubbish(rng, call), 8, tally)?;
    }
    let number = given.events.len() / EVENT;
    let whole = Call::Run { events: given.events.clone(), budget: number + rng.pick(&[0, 0, 1, usize::MAX - number]) };
    let mut run = Pair::new(machine);
    let performed = run.call(whole, 16, tally)? == 0;
    if performed && (layout::read(&run.ours.state) != layout::read(&single.ours.state) || run.ours.memory != single.ours.memory) {
        let files = vec![("state", machine.state.clone()), ("memory", machine.memory.clone()), ("events", given.events)];
        return Err(Difference { what: format!("a run and its single events end differently, base {:#x}\n", machine.base), files });
    }
    for _ in 0..3 {
        let call = run_call(rng, machine, count, &given.events);
        let told = if rng.percent(2) { rng.pick(&[0, 8, 15, 17, 32]) } else { call.told() };
        Pair::new(machine).call(call, told, tally)?;
    }
    compare_logs(rng, given.machine, tally)
}

/// Logs of a machine, each whole and in two parts, which the calls take up one after the other.
fn compare_logs(rng: &mut Rng, mut machine: Machine, tally: &mut Tally) -> Result<(), Difference> {
    for _ in 0..3 {
        let state = layout::read(&machine.state).unwrap_or(State { count: 0, ..State::default() });
        let log = log(rng, &state, machine.base, &mut machine.memory);
        let told = if rng.percent(2) { rng.pick(&[0, 16, 23, 25, 32]) } else { 24 };
        let mut whole = Pair::new(&machine);
        let answer = whole.call(Call::Replay { log: log.clone() }, told, tally)?;
        let cut = rng.below((log.len() / ROW) as u64 + 1) as usize * ROW;
        let mut parts = Pair::new(&machine);
        let first = parts.call(Call::Replay { log: log[..cut].to_vec() }, 24, tally)?;
        let rest = parts.call(Call::Replay { log: log[cut..].to_vec() }, 24, tally)?;
        if told == 24 && first == 0 && rest < REFUSED {
            // What is told of a stop stands behind the number of rows.
            let rows = (cut / ROW) as u64 + layout::get(&parts.told, 0);
            if (rest, rows, &parts.told[8..], &parts.ours) != (answer, layout::get(&whole.told, 0), &whole.told[8..], &whole.ours) {
                let what = format!("a log of {} bytes and its parts, cut at {cut}, end differently, base {:#x}\n", log.len(), machine.base);
                return Err(Difference { what, files: vec![("state", machine.state), ("memory", machine.memory), ("log", log)] });
            }
            tally.cut += 1;
        }
    }
    Ok(())
}

/// The call, now and then with rubbish in the bytes of a device write that aren't written.
fn with_rubbish(rng: &mut Rng, call: Call) -> Call {
    match call {
        Call::DeviceWrite { addr, size, data } if rng.percent(30) => {
            let above = rng.next();
            Call::DeviceWrite { addr, size, data: data | above & !low_bytes(u64::MAX, size) }
        }
        call => call,
    }
}

fn compare_report(seed: u64, out: &mut [u8], files: &mut Files) -> Result<(), Difference> {
    let file = case(seed);
    files.count(&file);
    let expected = bench::report(&file);
    let guard = floecavern::REPORT_ROOM;
    out[guard..].fill(UNTOUCHED);
    let length = floecavern::report(&file, out) as usize;
    let report = out.get(..length).unwrap_or(&[]).to_vec();
    let differ = report != expected || out[guard..].iter().any(|&b| b != UNTOUCHED);
    let small = &mut [UNTOUCHED; 16];
    if differ || floecavern::report(&file, small) != BAD_SIZE || *small != [UNTOUCHED; 16] {
        let what = format!("report answered {length}\n");
        return Err(Difference { what, files: vec![("case", file), ("library", report), ("bench", expected)] });
    }
    Ok(())
}

/// A block of both kinds, under both versions and under a number that is none; of a number that is no kind; and by the call that takes neither.
/// `blocks` are the counts of each kind.
fn compare_block(seed: u64, blocks: &mut [Blocks; 2]) -> Result<(), Difference> {
    let rng = &mut Rng::new(seed);
    let mut words: Vec<u8> = loop_block(rng).iter().flat_map(|w| w.to_le_bytes()).collect();
    if rng.percent(2) {
        words.push(0);
    }
    let versions = [A_2_0, A_2_1, no_version(rng)];
    let check = |version, kind| {
        let (ours, theirs) = (calls::check_loop_for(version, kind, &words), floecavern::check_loop_for(version, kind, &words));
        same_answer(&format!("check_loop_for version {version} kind {kind}"), &words, ours, theirs)
    };
    for (kind, counts) in [KIND_64, KIND_32].into_iter().zip(blocks) {
        let [under_2_0, under_2_1, under_none] = versions.map(|version| check(version, kind));
        counts.count(&words, xlen(kind), [under_2_0?, under_2_1?, under_none?]);
    }
    check(rng.pick(&versions), no_kind(rng))?;
    same_answer("check_loop", &words, calls::check_loop(&words), floecavern::check_loop(&words))?;
    Ok(())
}

/// The answer of both sides for a block.
fn same_answer(name: &str, words: &[u8], ours: u64, theirs: u64) -> Result<u64, Difference> {
    if ours == theirs {
        return Ok(ours);
    }
    let what = format!("{name}: library {theirs:#x}, bench {ours:#x}\n");
    Err(Difference { what, files: vec![("words", words.to_vec())] })
}

/// Compares on every seed, and ends the process at a difference.
fn each_seed(keep: &str, kind: &str, seeds: Range<u64>, mut compare: impl FnMut(u64) -> Result<(), Difference>) {
    for seed in seeds {
        fs::write(format!("{keep}/current"), format!("{kind} {seed}\n")).expect("KEEP is a folder");
        if let Err(difference) = compare(seed) {
            stop(difference, keep, kind, seed);
        }
    }
}

fn stop(difference: Difference, keep: &str, kind: &str, seed: u64) {
    let name = format!("{keep}/{kind}{seed}");
    for (end, bytes) in &difference.files {
        fs::write(format!("{name}.{end}"), bytes).expect("KEEP is a folder");
    }
    fs::write(format!("{name}.txt"), &difference.what).expect("KEEP is a folder");
    let lines: Vec<&str> = difference.what.lines().take(12).collect();
    println!("DIFFERENT, seed {seed}: {name}.*\n{}", lines.join("\n"));
    std::process::exit(1);
}

fn main() -> std::io::Result<()> {
    let arguments: Vec<String> = std::env::args().collect();
    let [_, keep, first, count] = &arguments[..] else {
        eprintln!("usage: library KEEP FIRST COUNT");
        std::process::exit(2);
    };
    fs::create_dir_all(keep)?;
    let (first, count): (u64, u64) = (first.parse().expect("FIRST"), count.parse().expect("COUNT"));
    let seeds = first..first + count;
    println!("calls of the library, seeds {first} to {}", seeds.end - 1);
    let mut tally = Tally::new();
    each_seed(keep, "machine", seeds.clone(), |seed| compare_machine(seed, &mut tally));
    println!("{count} machines, {} calls, all the same", tally.calls);
    tally.print();
    let mut out = vec![0; floecavern::REPORT_ROOM + 16];
    let mut files = Files::default();
    each_seed(keep, "case", seeds.clone(), |seed| compare_report(seed, &mut out, &mut files));
    println!("{count} case files, all the same");
    files.print();
    let mut blocks = <[Blocks; 2]>::default();
    each_seed(keep, "block", seeds, |seed| compare_block(seed, &mut blocks));
    println!("{count} blocks, each of both kinds, under both versions and under no version, and of no kind, all the same");
    for (kind, counts) in ["64-bit", "32-bit"].into_iter().zip(&blocks) {
        println!("  {kind}:");
        counts.print();
    }
    Ok(())
}
