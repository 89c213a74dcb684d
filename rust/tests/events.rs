use floecavern::{
    device_write, run, run_bytes, step, yield_hart, Answer, Cause, Event, Harts, Machine, Outcome, Refusal, RefusedAt,
    Reservation, State, Trap, MAX_MEMORY, STATE_SIZE,
};

const LR: u32 = 0x1002_a32f; // lr.w x6,(x5)
const SC: u32 = 0x1882_a3af; // sc.w x7,x8,(x5)

/// A machine of `harts` harts at pc `base`, x5 = `base + 64` in each, with the words at `base`.
fn machine(harts: u64, base: u64, words: &[u32]) -> Machine {
    let mut machine = Machine::new(harts, base, 256).unwrap();
    machine.put_words(base, words).unwrap();
    for h in 0..harts as usize {
        machine.state.x[h][5] = base + 64;
    }
    machine
}

fn body(events: &[Event]) -> Vec<u8> {
    events.iter().flat_map(|e| e.to_bytes()).collect()
}

fn trap(cause: Cause, value: u64) -> Result<Answer, Refusal> {
    Ok(Outcome::Trap(Trap { cause, value }).into())
}

/// What `f` refuses leaves every byte of state and memory as it was.
fn refuses(state: &State, mem: &[u8], refusal: Refusal, f: impl Fn(&mut State, &mut [u8]) -> Result<Answer, Refusal>) {
    let (mut s, mut m) = (*state, mem.to_vec());
    assert_eq!(f(&mut s, &mut m), Err(refusal));
    assert!(s.to_bytes() == state.to_bytes() && m == mem);
}

/// The example of document 01, event by event.
#[test]
fn example() {
    let mut m = machine(2, 0, &[LR, SC]);
    m.state.x[1][8] = 0x1234_5678_9abc_def0;
    assert_eq!(m.step(0), Ok(Outcome::Retired.into()));
    assert_eq!(m.state.reservation(0), Some(Reservation { addr: 64, width: 4 }));
    assert_eq!(m.device_write(72, 1, 0xff), Ok(Outcome::Retired.into()));
    assert_eq!(m.bytes(72, 1), Some(&[0xff][..]));
    assert_eq!(m.step(1), Ok(Outcome::Retired.into()));
    assert_eq!(m.step(1), Ok(Answer { outcome: Outcome::ScStored, broke: Harts::from_bits(1) }));
    assert_eq!(m.bytes(64, 4), Some(&[0xf0, 0xde, 0xbc, 0x9a][..]));
    assert_eq!(m.step(0), Ok(Outcome::ScFailed.into()));
    assert_eq!((m.state.x[0][7], m.state.x[1][7], m.state.pc[0], m.state.pc[1]), (1, 0, 8, 8));
    assert!((0..8).all(|h| m.state.reservation(h).is_none()));
}

#[test]
fn traps() {
    let mut m = machine(1, 4096, &[LR, 0x0000_0073, 0x0010_0073, 0x1234_5678, 0x0020_006f, 0x0002_a023, 0x0082_a3af]);
    let at = |m: &mut Machine, pc: u64, x5: u64, cause: Cause, value: u64| {
        (m.state.pc[0], m.state.x[0][5]) = (pc, x5);
        let before = m.clone();
        assert_eq!(m.step(0), trap(cause, value));
        assert!(*m == before);
    };
    at(&mut m, 4100, 0, Cause::EnvironmentCall, 0);
    at(&mut m, 4104, 0, Cause::Breakpoint, 0);
    at(&mut m, 4108, 0, Cause::IllegalInstruction, 0x1234_5678);
    at(&mut m, 4112, 0, Cause::InstructionAddressMisaligned, 4114);
    at(&mut m, 8192, 0, Cause::InstructionAccessFault, 8192);
    at(&mut m, 4096, 4097, Cause::LoadAddressMisaligned, 4097);
    at(&mut m, 4096, u64::MAX - 3, Cause::LoadAccessFault, u64::MAX - 3);
    at(&mut m, 4116, 4098, Cause::StoreAddressMisaligned, 4098);
    at(&mut m, 4120, 4352, Cause::StoreAccessFault, 4352);
}

/// An SC outside memory traps, with or without a reservation, and keeps the one that is held.
#[test]
fn sc_outside_memory() {
    let mut m = machine(1, 4096, &[LR, SC]);
    for (held, at, cause) in [
        (None, 4352, Cause::StoreAccessFault),
        (Some(Reservation { addr: 4160, width: 4 }), 4352, Cause::StoreAccessFault),
        (Some(Reservation { addr: 4160, width: 4 }), 4092, Cause::StoreAccessFault),
        (Some(Reservation { addr: 4160, width: 4 }), 4354, Cause::StoreAddressMisaligned),
    ] {
        m.state.set_reservation(0, held);
        (m.state.pc[0], m.state.x[0][5]) = (4100, at);
        assert_eq!(m.step(0), trap(cause, at));
        assert_eq!((m.state.reservation(0), m.state.x[0][7], m.state.pc[0]), (held, 0, 4100));
    }
    m.state.x[0][5] = 4160;
    assert_eq!(m.step(0), Ok(Outcome::ScStored.into()));
}

/// What answers say of themselves.
#[test]
fn texts() {
    let mut m = machine(1, 0, &[0x0010_0073]);
    assert_eq!(m.step(0).unwrap().to_string(), "trap 3 0000000000000000: breakpoint");
    assert_eq!(m.yield_hart(0).unwrap().to_string(), "retired");
    assert_eq!(m.yield_hart(1).unwrap_err().to_string(), "refusal 3: the hart is not below the count");
    let refused = m.run_bytes(&[1; 24], 1).unwrap_err();
    assert_eq!(refused.to_string(), "refusal 11 at 0: an event or the length of the events is wrong");
    let errors: [Box<dyn std::error::Error>; 2] =
        [Box::new(refused), Box::new(Trap { cause: Cause::Breakpoint, value: 0 })];
    let sources: Vec<String> = errors.iter().map(|e| e.source().unwrap().to_string()).collect();
    assert_eq!(sources, ["refusal 11: an event or the length of the events is wrong", "cause 3: breakpoint"]);
}

/// A machine that the model refuses isn't made, whatever size is asked for; words and bytes outside memory neither.
#[test]
fn machines() {
    for (harts, base, len, refusal) in [
        (0, 0, 64, Refusal::State),
        (9, 0, 64, Refusal::State),
        (u64::MAX, 0, 64, Refusal::State),
        (1, 32, 64, Refusal::Memory),
        (1, 1 << 41, 64, Refusal::Memory),
        (1, 0, 0, Refusal::Memory),
        (1, 0, MAX_MEMORY + 64, Refusal::Memory),
        (1, 0, 1 << 62, Refusal::Memory),
        (1, 0, usize::MAX, Refusal::Memory),
    ] {
        assert_eq!(Machine::new(harts, base, len), Err(refusal));
    }
    assert!(Machine::new(8, 1 << 40, MAX_MEMORY).is_ok());
    assert_eq!(Machine::from_parts(State::default(), 0, vec![0; 64]), Err(Refusal::State));
    let mut m = machine(1, 4096, &[LR]);
    let before = m.clone();
    for addr in [0, 4092, 4349, 4352, u64::MAX] {
        assert_eq!(m.put_words(addr, &[SC]), Err(Refusal::DeviceAddress));
        assert_eq!(m.bytes(addr, 4), None);
    }
    assert_eq!((m.put_words(4352, &[]), m.put_words(4348, &[0])), (Ok(()), Ok(())));
    assert!(m == before && m.bytes(4096, 256).is_some() && m.bytes(4097, usize::MAX).is_none());
}

/// A state's bytes, at the header's offsets; two ways to write one reservation are one state.
#[test]
fn state_bytes() {
    let mut bytes: [u8; STATE_SIZE] = std::array::from_fn(|i| (i % 251) as u8);
    let state = State::from_bytes(&bytes);
    assert_eq!(state.to_bytes(), bytes);
    let number = |at: usize| u64::from_le_bytes(bytes[at..at + 8].try_into().unwrap());
    assert_eq!((state.count, state.x[7][31], state.pc[7]), (number(0), number(2048), number(2112)));
    assert_eq!(state.reservation(7), Some(Reservation { addr: number(2296), width: number(2304) }));
    assert_eq!((state.set_size, state.version), (number(2312), number(2320)));
    assert_eq!((state.kind, state.misaligned), (number(2328), number(2336)));
    bytes[2288] ^= 1;
    assert_eq!(State::from_bytes(&bytes), state);
    bytes[2296] ^= 1;
    assert_ne!(State::from_bytes(&bytes), state);
    let mut none = state;
    none.set_reservation(7, None);
    assert_eq!(none.to_bytes()[2288..2312], [0; 24]);
    none.set_reservation(7, state.reservation(7));
    assert_eq!(none, state);
}

#[test]
fn refusals() {
    let Machine { state: s, mem: m, .. } = machine(2, 0, &[LR, SC]);
    for (base, len) in [(1, 256), (0, 0), (0, 63), (0, 100), (1 << 41, 256)] {
        refuses(&s, &vec![0; len], Refusal::Memory, |s, m| step(s, base, m, 0));
        refuses(&s, &vec![0; len], Refusal::Memory, |s, m| yield_hart(s, base, m, 9));
        refuses(&s, &vec![0; len], Refusal::Memory, |s, m| device_write(s, base, m, 0, 0, 0));
    }
    refuses(&s, &vec![0; 1_048_576 + 64], Refusal::Memory, |s, m| step(s, 0, m, 0));
    let bad: [fn(&mut State); 7] = [
        |s| s.count = 0,
        |s| s.count = 9,
        |s| s.count = u64::MAX,
        |s| s.x[1][0] = 1,
        |s| s.pc[1] = 2,
        |s| s.set_reservation(1, Some(Reservation { addr: 64, width: 16 })),
        |s| s.set_reservation(1, Some(Reservation { addr: 256, width: 4 })),
    ];
    for f in bad {
        let mut t = s;
        f(&mut t);
        refuses(&t, &m, Refusal::State, |s, m| step(s, 0, m, 0));
        refuses(&t, &m, Refusal::State, |s, m| device_write(s, 0, m, 64, 9, 0));
    }
    for hart in [2, 8, usize::MAX] {
        refuses(&s, &m, Refusal::Hart, |s, m| step(s, 0, m, hart));
        refuses(&s, &m, Refusal::Hart, |s, m| yield_hart(s, 0, m, hart));
    }
    for size in [0, 9, usize::MAX] {
        refuses(&s, &m, Refusal::DeviceSize, |s, m| device_write(s, 0, m, 64, size, 0));
    }
    for (addr, size) in [(256, 1), (249, 8), (u64::MAX, 8)] {
        refuses(&s, &m, Refusal::DeviceAddress, |s, m| device_write(s, 0, m, addr, size, 0));
    }
}

/// Bytes of unused harts aren't looked at and never change; a used hart without a reservation gets three zeros.
#[test]
fn unused_harts() {
    let slot = |h: usize| 2120 + 24 * h;
    let Machine { state, mut mem, .. } = machine(2, 0, &[LR, SC]);
    let mut bytes = state.to_bytes();
    for h in 2..8 {
        bytes[8 + 256 * h..8 + 256 * (h + 1)].fill(h as u8);
        bytes[2056 + 8 * h..2056 + 8 * (h + 1)].fill(3);
        bytes[slot(h)..slot(h + 1)].fill(7);
    }
    // Hart 0: held 0, but an address and a width. Hart 1: held 5, 64, 4.
    bytes[slot(0) + 8..slot(1)].fill(1);
    (bytes[slot(1)], bytes[slot(1) + 8], bytes[slot(1) + 16]) = (5, 64, 4);
    let mut s = State::from_bytes(&bytes);
    assert_eq!(yield_hart(&mut s, 0, &mut mem, 0), Ok(Outcome::Retired.into()));
    bytes[slot(0) + 8..slot(1)].fill(0);
    bytes[slot(1)] = 1;
    assert_eq!(s.to_bytes(), bytes);
    s.pc[1] = 4;
    assert_eq!(step(&mut s, 0, &mut mem, 1), Ok(Outcome::ScStored.into()));
    let after = s.to_bytes();
    for unused in [8 + 512..2056, 2056 + 16..2120, slot(2)..STATE_SIZE] {
        assert_eq!(after[unused.clone()], bytes[unused]);
    }
}

/// Events of a few kinds on two harts, from a seed.
fn some_events(mut seed: u64, n: usize) -> Vec<Event> {
    let mut next = move |below: u64| {
        seed = seed.wrapping_mul(6364136223846793005).wrapping_add(1442695040888963407);
        (seed >> 33) % below
    };
    let mut event = || match next(8) {
        0 => Event::Yield { hart: next(2) as u8 },
        1 => {
            let size = 1 + next(8);
            Event::DeviceWrite { addr: 64 + next(192 - size), size: size as u8, data: next(256) }
        }
        _ => Event::Step { hart: next(2) as u8 },
    };
    (0..n).map(|_| event()).collect()
}

/// A run is its events one by one, for every budget.
#[test]
fn run_is_steps() {
    // lr.w x6,(x5); addi x8,x8,1; sc.w x7,x8,(x5); amoadd.w x9,x8,(x5); jal x0,-16
    let words = [LR, 0x0014_0413, SC, 0x0082_a4af, 0xff1f_f06f];
    for seed in 0..40 {
        let start = machine(2, 1 << 20, &words);
        let events: Vec<Event> = some_events(seed, 60)
            .into_iter()
            .map(|e| match e {
                Event::DeviceWrite { addr, size, data } => Event::DeviceWrite { addr: addr + (1 << 20), size, data },
                e => e,
            })
            .collect();
        let mut one_by_one = start.clone();
        for n in 0..=events.len() {
            let mut at_once = start.clone();
            assert_eq!(at_once.run(&events, n), Ok(n));
            assert!(at_once == one_by_one, "seed {seed}, {n} events");
            if n < events.len() {
                one_by_one.perform(events[n]).unwrap();
            }
        }
        assert_eq!(start.clone().run(&events, usize::MAX), Ok(60));
    }
}

#[test]
fn refused_runs() {
    let Machine { state: s, mem: m, .. } = machine(2, 0, &[LR, SC]);
    let good = body(&[Event::Step { hart: 0 }, Event::Yield { hart: 1 }]);
    let check = |s: &State, m: &[u8], events: &[u8], refusal, place| {
        let (mut t, mut k) = (*s, m.to_vec());
        assert_eq!(run_bytes(&mut t, 0, &mut k, events, 1), Err(RefusedAt { refusal, place }));
        assert!(t.to_bytes() == s.to_bytes() && k == m);
    };
    check(&s, &m[..100], &good, Refusal::Memory, 0);
    check(&State::new(0), &m, &good, Refusal::State, 0);
    check(&s, &m, &good[..47], Refusal::Events, 0);
    for bad in [
        Event::Step { hart: 2 },
        Event::Yield { hart: 2 },
        Event::DeviceWrite { addr: 64, size: 0, data: 0 },
        Event::DeviceWrite { addr: 64, size: 9, data: 0 },
        Event::DeviceWrite { addr: 249, size: 8, data: 0 },
    ] {
        let events = [good.clone(), bad.to_bytes().to_vec(), good.clone()].concat();
        check(&s, &m, &events, Refusal::Events, 48);
    }
    let mut wide = Event::DeviceWrite { addr: 64, size: 1, data: 255 }.to_bytes();
    wide[17] = 1;
    check(&s, &m, &[good.clone(), wide.to_vec()].concat(), Refusal::Events, 48);
    assert_eq!(run(&mut s.clone(), 0, &mut m.clone(), &[], 5), Ok(0));
}

/// Data above the size is left out, by a call and by a run.
#[test]
fn device_data_above_size() {
    let start = machine(1, 0, &[LR, SC]);
    for size in 1..=8 {
        let event = Event::DeviceWrite { addr: 64, size, data: u64::MAX };
        let (mut called, mut ran) = (start.clone(), start.clone());
        assert_eq!(called.perform(event), Ok(Outcome::Retired.into()));
        assert_eq!(run(&mut ran.state, 0, &mut ran.mem, &[event], 1), Ok(1));
        assert!(called == ran && called.mem[64..72].iter().filter(|&&b| b == 255).count() == size as usize);
    }
}
