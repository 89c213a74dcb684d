//! against BATCHES OLD.. NEW..: long runs and single calls by two versions of the library, in one process and in turns. Each version is given as
//! as many shared objects as the other, which differ in where its code lies: that alone makes up to a quarter of a single call's time, so the
//! least counts. A ratio is the new version's time by the old one's.
//!
//! A version of the library from before request 5 takes states without the set size: it is given the bytes before that, and sets of 64 bytes
//! alone. One from before request 7 takes states without the version of the A extension: it is given the bytes before that, and 2.1 alone. One from
//! before request 10 takes states without the kind of core: it is given the bytes before that, and the 64-bit kind alone. One from before request 11
//! takes states without what a misaligned atomic raises: it is given the bytes before that; all work has the default of it.

use bench::calls::BAD_SIZE;
use bench::case::EVENT;
use bench::clock::now;
use bench::layout;
use bench::machine::{State, A_2_1, DEFAULT_SET, KIND_64};
use bench::shared::{arguments, Shared};
use bench::work::{self, Work, BASE};
use std::ffi::c_void;

const LONG: usize = 1_000_000;
const CALLS: usize = 20_000;

type Run = unsafe extern "C" fn(*mut u8, usize, u64, *mut u8, usize, *const u8, usize, usize, *mut u8, usize) -> u64;
type OfHart = unsafe extern "C" fn(*mut u8, usize, u64, *mut u8, usize, usize, *mut u8, usize) -> u64;
type Device = unsafe extern "C" fn(*mut u8, usize, u64, *mut u8, usize, u64, usize, u64, *mut u8, usize) -> u64;

/// The lengths of a state: without the settings, and with one more of them each time.
const STATE_LENGTHS: [usize; 5] = [layout::SET_SIZE, layout::VERSION, layout::KIND, layout::MISALIGNED, layout::SIZE];

/// The functions of one version.
#[derive(Clone, Copy)]
struct Library {
    /// How many bytes of a state it takes.
    state_len: usize,
    run: Run,
    step: OfHart,
    yields: OfHart,
    device: Device,
}

fn library(shared: Shared) -> Library {
    // SAFETY: each function has the type that include/floecavern.h gives it, in every version.
    unsafe {
        let run = std::mem::transmute::<*mut c_void, Run>(shared.symbol("floecavern_run"));
        Library {
            state_len: state_len(run),
            run,
            step: std::mem::transmute::<*mut c_void, OfHart>(shared.symbol("floecavern_step")),
            yields: std::mem::transmute::<*mut c_void, OfHart>(shared.symbol("floecavern_yield")),
            device: std::mem::transmute::<*mut c_void, Device>(shared.symbol("floecavern_device_write")),
        }
    }
}

/// How many bytes of a state a version takes: asked by a run of no events.
fn state_len(run: Run) -> usize {
    let accepts = |&length: &usize| {
        let (mut kept, mut ran) = (Kept::of(&work::idle(KIND_64)), [0; 16]);
        let (state, memory) = (kept.state.as_mut_ptr(), kept.memory.as_mut_ptr());
        // SAFETY: every pointer comes from a slice that has at least the length beside it, and no two of the slices overlap.
        let answer = unsafe { run(state, length, BASE, memory, kept.memory.len(), [].as_ptr(), 0, 0, ran.as_mut_ptr(), ran.len()) };
        assert!(answer == 0 || answer == BAD_SIZE, "a run of no events with {length} bytes of state is answered {answer:#x}");
        answer == 0
    };
    match STATE_LENGTHS.into_iter().filter(accepts).collect::<Vec<_>>()[..] {
        [length] => length,
        [] => panic!("a library takes states of none of {STATE_LENGTHS:?} bytes"),
        _ => panic!("a library takes states of several lengths"),
    }
}

/// A machine that one of the versions keeps. A version that takes fewer bytes of the state leaves the others alone.
struct Kept {
    state: Vec<u8>,
    memory: Vec<u8>,
}

impl Kept {
    fn of(work: &Work) -> Self {
        Kept { state: layout::bytes(&work.state), memory: work.memory.clone() }
    }
}

/// The least time of `each`, of the old version and of the new one, in turns. The two machines change hands with every batch, and
/// the versions' order with every other, so that neither has the better place in memory or in time for itself. They end alike.
fn in_turns(batches: usize, work: &Work, places: &[[Library; 2]], each: impl Fn(Library, &mut Kept)) -> [f64; 2] {
    let (mut least, mut machines) = ([f64::INFINITY; 2], [Kept::of(work), Kept::of(work)]);
    for batch in 0..batches {
        for libraries in places {
            for n in if batch % 4 < 2 { [0, 1] } else { [1, 0] } {
                let from = now();
                each(libraries[n], &mut machines[(n + batch) % 2]);
                least[n] = least[n].min((now() - from) as f64);
            }
            assert!(machines[0].state == machines[1].state && machines[0].memory == machines[1].memory, "the two versions end differently");
        }
    }
    least
}

fn run(library: Library, machine: &mut Kept, events: &[u8]) {
    let (state, memory, mut ran) = (&mut machine.state, &mut machine.memory, [0; 16]);
    let (number, base, out) = (events.len() / EVENT, BASE, ran.as_mut_ptr());
    // SAFETY: every pointer comes from a slice that has at least the length beside it, and no two of the slices overlap.
    let answer = unsafe {
        let (state, state_len, mem, mem_len) = (state.as_mut_ptr(), library.state_len, memory.as_mut_ptr(), memory.len());
        (library.run)(state, state_len, base, mem, mem_len, events.as_ptr(), events.len(), number, out, 16)
    };
    assert_eq!((answer, layout::get(&ran, 0)), (0, number as u64));
}

fn single(library: Library, machine: &mut Kept, kind: &str) {
    let (state, memory, mut value) = (&mut machine.state, &mut machine.memory, [0; 8]);
    for _ in 0..CALLS {
        let (s, n, m, l, out) = (state.as_mut_ptr(), library.state_len, memory.as_mut_ptr(), memory.len(), value.as_mut_ptr());
        // SAFETY: as above.
        let answer = unsafe {
            match kind {
                "step" => (library.step)(s, n, BASE, m, l, 1, out, 8),
                "yield" => (library.yields)(s, n, BASE, m, l, 1, out, 8),
                _ => (library.device)(s, n, BASE, m, l, BASE + 512, 8, 1, out, 8),
            }
        };
        assert_eq!(answer, 0);
    }
}

/// Why a state can't be given to all versions, the shortest of which takes so many bytes of it.
fn left_out(state: &State, shortest: usize) -> Option<&'static str> {
    match state {
        state if state.set_size != DEFAULT_SET && shortest <= layout::SET_SIZE => Some("sets of 64 bytes alone"),
        state if state.version != A_2_1 && shortest <= layout::VERSION => Some("A 2.1 alone"),
        state if state.kind != KIND_64 && shortest <= layout::KIND => Some("the 64-bit kind alone"),
        _ => None,
    }
}

fn long_runs(batches: usize, places: &[[Library; 2]], shortest: usize) {
    println!("Long runs: one call of {LONG} events; million events a second");
    println!("{:<36} {:>9} {:>9} {:>7}", "", "old", "new", "ratio");
    for (name, work) in work::long_runs(LONG) {
        if let Some(alone) = left_out(&work.state, shortest) {
            println!("{name:<36} skipped: a library has {alone}");
            continue;
        }
        let [old, new] = in_turns(batches, &work, places, |library, machine| run(library, machine, &work.events));
        println!("{name:<36} {:>9.1} {:>9.1} {:>7.3}", 1e3 * LONG as f64 / old, 1e3 * LONG as f64 / new, new / old);
    }
}

fn single_calls(batches: usize, places: &[[Library; 2]], of: &str, idle: Work) {
    for call in ["step", "device_write", "yield"] {
        let [old, new] = in_turns(batches, &idle, places, |library, machine| single(library, machine, call));
        println!("{:<36} {:>9.1} {:>9.1} {:>7.3}", work::named(call, of), old / CALLS as f64, new / CALLS as f64, new / old);
    }
}

fn main() {
    let (batches, places) = arguments(library);
    let shortest = places.iter().flatten().map(|library| library.state_len).min().expect("two libraries at least");
    long_runs(batches, &places, shortest);
    println!("\nOne call, 8 harts, 4096 bytes: nanoseconds");
    for (of, kind) in work::KINDS {
        let idle = work::idle(kind);
        if left_out(&idle.state, shortest).is_none() {
            single_calls(10 * batches, &places, of, idle);
        }
    }
}
