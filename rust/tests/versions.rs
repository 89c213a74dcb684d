//! The version of A that a machine follows, and that a loop is checked under: which are taken, and what they change.

mod common;

use common::{answer, held};
use floecavern::{
    check_loop, check_loop_for, device_write, raw, replay, run, step, yield_hart, Event, Machine, Outcome, Reason,
    Refusal, RefusedAt, Replayed, Reservation, State, Stop, Verdict, A_2_0, A_2_1, KIND_64, STATE_SIZE,
};

const LR: u32 = 0x1002_a32f; // lr.w x6,(x5)
const SC: u32 = 0x1882_a3af; // sc.w x7,x8,(x5)
const SW: u32 = 0x0082_a023; // sw x8,0(x5)
const RET: u32 = 0x0000_8067; // jalr x0,0(x1)

/// No versions; some have the number of one in a part of their bits.
const WRONG: [u64; 13] =
    [0, 1, 2, 19, 22, 32, 210, 20 << 32, (1 << 8) + 20, (1 << 16) + 21, (1 << 32) + 20, (1 << 63) + 21, u64::MAX];

/// Four harts with the word at their pc and x5 = 64. Harts 0, 1 and 2 hold the 4 bytes at 64, hart 3 the 8 bytes at 128.
fn contended(version: u64, word: u32) -> Machine {
    let mut machine = Machine::new(4, 0, 320).unwrap().with_version(version).unwrap();
    machine.put_words(0, &[word]).unwrap();
    for hart in 0..4 {
        machine.state.x[hart][5] = 64;
        let (addr, width) = if hart == 3 { (128, 8) } else { (64, 4) };
        machine.state.set_reservation(hart, Some(Reservation { addr, width }));
    }
    machine
}

#[test]
fn the_default_is_2_1() {
    assert_eq!((A_2_0, A_2_1), (20, 21));
    assert_eq!((State::default().version, State::new(2).version), (21, 21));
    assert_eq!(Machine::new(2, 0, 64).unwrap().state.version, 21);
    let mut bytes = [0; STATE_SIZE];
    (bytes[2312], bytes[2320]) = (64, 21);
    assert_eq!(State::default().to_bytes(), bytes);
    bytes[0] = 2;
    assert_eq!(State::new(2).to_bytes(), bytes);
}

/// What no call takes leaves every byte as it was. 2 is tried after 1, and before what is asked of a call alone.
#[test]
fn other_versions() {
    for version in WRONG {
        let mut state = State::new(1);
        state.version = version;
        let (mut s, mut m) = (state, [0x13; 64]);
        assert_eq!(step(&mut s, 0, &mut m, 0), Err(Refusal::State), "{version}");
        assert_eq!(yield_hart(&mut s, 0, &mut m, 9), Err(Refusal::State));
        assert_eq!(device_write(&mut s, 0, &mut m, 0, 0, 0), Err(Refusal::State));
        assert_eq!(device_write(&mut s, 0, &mut m, 64, 8, 0), Err(Refusal::State));
        let refused = RefusedAt { refusal: Refusal::State, place: 0 };
        assert_eq!(run(&mut s, 0, &mut m, &[Event::Step { hart: 9 }], 1), Err(refused));
        assert_eq!(replay(&mut s, 0, &mut m, &[]), Err(Refusal::State));
        assert_eq!(step(&mut s, 1, &mut m, 0), Err(Refusal::Memory));
        assert_eq!(step(&mut s, 0, &mut m[..63], 0), Err(Refusal::Memory));
        assert!(s.to_bytes() == state.to_bytes() && m == [0x13; 64]);
        assert_eq!(Machine::from_parts(state, 0, vec![0; 64]), Err(Refusal::State));
        assert_eq!(Machine::new(1, 0, 64).unwrap().with_version(version), Err(Refusal::State));
        state.set_size = 24;
        assert_eq!(Machine::from_parts(state, 0, vec![0; 64]), Err(Refusal::Memory));
    }
    assert_eq!(Refusal::State.to_string(), "refusal 2: a setting other than the set size, or the state, is wrong");
}

/// A state that is wrong in another way is refused all the same, and one setting doesn't stand in for the other.
#[test]
fn other_faults() {
    let machine = Machine::new(1, 0, 128).unwrap().with_version(A_2_0).unwrap();
    assert_eq!(machine.state.version, A_2_0);
    let machine = machine.with_set_size(128).unwrap();
    assert_eq!((machine.state.set_size, machine.state.version), (128, A_2_0));
    assert_eq!(machine.clone().with_set_size(20), Err(Refusal::Memory));
    let mut machine = machine.with_version(A_2_1).unwrap();
    assert_eq!((machine.state.set_size, machine.state.version), (128, A_2_1));
    machine.state.count = 0;
    assert_eq!(machine.with_version(A_2_0), Err(Refusal::State));
}

/// A device write breaks what the LR read under 2.1 and nothing under 2.0; the memory is written under both.
#[test]
fn device_writes() {
    for (addr, size, broke) in [
        (63, 1, 0),
        (63, 2, 0b0111),
        (64, 4, 0b0111),
        (67, 1, 0b0111),
        (68, 8, 0),
        (121, 8, 0b1000),
        (128, 8, 0b1000),
        (136, 1, 0),
    ] {
        for (version, broke) in [(A_2_1, broke), (A_2_0, 0)] {
            let mut machine = contended(version, 0);
            let before = machine.state;
            assert_eq!(machine.device_write(addr, size, u64::MAX), answer(Outcome::Retired, broke), "{version} {addr}");
            assert_eq!(held(&machine), 0b1111 & !broke);
            assert_eq!(machine.bytes(addr, size).unwrap(), &[0xff; 8][..size]);
            assert_eq!(machine.mem.iter().filter(|&&byte| byte == 0xff).count(), size);
            assert_eq!(machine.state == before, broke == 0);
        }
    }
    for version in [A_2_0, A_2_1] {
        let mut machine = contended(version, 0);
        assert_eq!(machine.device_write(64, 9, 0), Err(Refusal::DeviceSize));
        assert_eq!(machine.device_write(313, 8, 0), Err(Refusal::DeviceAddress));
    }
}

/// An LR, a device write to what it read, and the SC.
#[test]
fn an_sc_after_a_device_write() {
    for (version, broke, outcome, word) in
        [(A_2_1, 1, Outcome::ScFailed, 7), (A_2_0, 0, Outcome::ScStored, 0x1234_5678)]
    {
        let mut machine = Machine::new(1, 0, 128).unwrap().with_version(version).unwrap();
        machine.put_words(0, &[LR, SC]).unwrap();
        (machine.state.x[0][5], machine.state.x[0][8]) = (64, 0x1234_5678);
        assert_eq!(machine.step(0), answer(Outcome::Retired, 0));
        assert_eq!(machine.device_write(64, 4, 7), answer(Outcome::Retired, broke));
        assert_eq!(machine.step(0), answer(outcome, 0));
        assert_eq!(machine.bytes(64, 4).unwrap(), u32::to_le_bytes(word));
        assert_eq!(machine.state.version, version);
    }
}

/// What harts write, and a yield, are the same under both versions.
#[test]
fn all_else() {
    for version in [A_2_0, A_2_1] {
        let mut store = contended(version, SW);
        assert_eq!((store.step(1), held(&store)), (answer(Outcome::Retired, 0b0101), 0b1010));
        let mut sc = contended(version, SC);
        assert_eq!((sc.step(1), held(&sc)), (answer(Outcome::ScStored, 0b0101), 0b1000));
        let mut dropped = contended(version, SC);
        assert_eq!((dropped.yield_hart(1), held(&dropped)), (answer(Outcome::Retired, 0), 0b1101));
        assert_eq!((dropped.step(1), held(&dropped)), (answer(Outcome::ScFailed, 0), 0b1101));
    }
}

/// A run goes by the version too. A log has no device writes, so that its replay is the same under both.
#[test]
fn runs_and_replays() {
    let log = b"0 0000000000000000 1002a32f 06 0000000000000000\n0 0000000000000004 1882a3af 07 0000000000000000\n";
    for (version, failed) in [(A_2_1, 1), (A_2_0, 0)] {
        let mut machine = Machine::new(1, 0, 128).unwrap().with_version(version).unwrap();
        machine.put_words(0, &[LR, SC]).unwrap();
        machine.state.x[0][5] = 64;
        let mut replayed = machine.clone();
        let events =
            [Event::Step { hart: 0 }, Event::DeviceWrite { addr: 64, size: 1, data: 7 }, Event::Step { hart: 0 }];
        assert_eq!((machine.run(&events, 3), machine.state.x[0][7], machine.state.version), (Ok(3), failed, version));
        assert_eq!(replayed.replay(log), Ok(Replayed { rows: 2, stop: Stop::Agreed }));
        assert_eq!(replayed.state.version, version);
    }
}

/// The version is a number of the bytes, and part of what a state is.
#[test]
fn bytes() {
    for version in WRONG.into_iter().chain([A_2_0, A_2_1]) {
        let mut state = State::new(3);
        state.version = version;
        let bytes = state.to_bytes();
        assert_eq!(bytes[2320..2328], version.to_le_bytes());
        assert_eq!((State::from_bytes(&bytes), State::from_bytes(&bytes).version), (state, version));
        assert_eq!(state == State::new(3), version == A_2_1);
    }
}

#[test]
fn loops() {
    let rejected = |place, reason| Ok(Verdict::Rejected { place, reason });
    // jalr x5,0(x1) writes the LR's rs1, jalr x6,0(x5) doesn't; 0x000090e7 is no JALR, as its funct3 isn't 0.
    let (writes, reads, none) = (0x0000_82e7, 0x0002_8367, 0x0000_90e7);
    for (block, old, new) in [
        (&[LR, SC][..], Ok(Verdict::Accepted), Ok(Verdict::Accepted)),
        (&[LR, RET, SC], Ok(Verdict::Accepted), rejected(1, Reason::NotPermitted)),
        (&[LR, SC, RET], Ok(Verdict::Accepted), rejected(2, Reason::NotPermitted)),
        (&[LR, reads, SC], Ok(Verdict::Accepted), rejected(1, Reason::NotPermitted)),
        (&[LR, writes, SC], rejected(1, Reason::WritesRs1), rejected(1, Reason::NotPermitted)),
        (&[LR, SC, writes], Ok(Verdict::Accepted), rejected(2, Reason::NotPermitted)),
        (&[LR, none, SC], rejected(1, Reason::NotPermitted), rejected(1, Reason::NotPermitted)),
        (&[RET, SC], rejected(0, Reason::NoLr), rejected(0, Reason::NoLr)),
        (&[LR, RET], rejected(2, Reason::NoSc), rejected(1, Reason::NotPermitted)),
        (&[LR], Err(Refusal::Block), Err(Refusal::Block)),
        (&[RET; 17], Err(Refusal::Block), Err(Refusal::Block)),
        (&[], Err(Refusal::Block), Err(Refusal::Block)),
    ] {
        assert_eq!(check_loop_for(A_2_0, KIND_64, block), old, "{block:x?}");
        assert_eq!(check_loop_for(A_2_1, KIND_64, block), new, "{block:x?}");
        assert_eq!(check_loop(block), new, "{block:x?}");
        for version in WRONG {
            assert_eq!(check_loop_for(version, KIND_64, block), Err(Refusal::State), "{version} {block:x?}");
        }
    }
}

/// The library's two functions as they are: the first checks under 2.1, and what isn't whole words is told before the version.
#[test]
fn raw_loops() {
    let bytes: Vec<u8> = [LR, RET, SC].iter().flat_map(|w| w.to_le_bytes()).collect();
    let check = |len: usize| unsafe { raw::floecavern_check_loop(bytes[..len].as_ptr(), len) };
    let check_for = |version: u64, len: usize| unsafe {
        raw::floecavern_check_loop_for(version, KIND_64, bytes[..len].as_ptr(), len)
    };
    assert_eq!((check(12), check_for(A_2_1, 12), check_for(A_2_0, 12)), (256 * 2 + 2, 256 * 2 + 2, 0));
    assert_eq!((check(4), check_for(A_2_1, 4), check_for(A_2_0, 4), check_for(22, 4)), (6, 6, 6, 2));
    for version in WRONG.into_iter().chain([A_2_0, A_2_1]) {
        assert_eq!((check(11), check_for(version, 11)), (u64::MAX, u64::MAX));
    }
}
