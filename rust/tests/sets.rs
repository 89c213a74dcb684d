//! The size of a reservation's set: which are allowed, and what they change.

mod common;

use common::{answer, held};
use floecavern::{
    device_write, replay, run, step, yield_hart, Event, Machine, Outcome, Refusal, RefusedAt, Reservation, State,
    MAX_MEMORY, SET_SIZE, STATE_SIZE,
};

const LR: u32 = 0x1002_a32f; // lr.w x6,(x5)
const SC: u32 = 0x1882_a3af; // sc.w x7,x8,(x5)
const SW: u32 = 0x0082_a023; // sw x8,0(x5)
const AMOCAS_Q: u32 = 0x2882_c52f; // amocas.q x10,x8,(x5)

const SIZES: [u64; 10] = [8, 16, 32, 64, 128, 256, 512, 1024, 2048, 4096];
const WRONG: [u64; 16] = [0, 1, 2, 4, 7, 9, 12, 24, 63, 65, 96, 4095, 4097, 8192, 1 << 63, u64::MAX];

/// Two harts, each with 4 bytes at `lr` reserved and the word at its pc, with sets of `set_size` bytes.
fn reserved(set_size: u64, lr: u64, word: u32, x5: u64) -> Machine {
    let mut machine = Machine::new(2, 8192, 8192).unwrap().with_set_size(set_size).unwrap();
    machine.put_words(8192, &[word]).unwrap();
    for hart in 0..2 {
        machine.state.x[hart][5] = x5;
        machine.state.set_reservation(hart, Some(Reservation { addr: lr, width: 4 }));
    }
    machine
}

#[test]
fn the_default_is_64() {
    assert_eq!((SET_SIZE, State::default().set_size, State::new(2).set_size), (64, 64, 64));
    assert_eq!(Machine::new(2, 0, 64).unwrap().state.set_size, 64);
    assert_eq!(State::default().to_bytes()[2312..2320], 64u64.to_le_bytes());
}

/// What no call takes leaves every byte as it was. 1 is tried before 2.
#[test]
fn sizes_that_are_not_allowed() {
    for set_size in WRONG {
        for count in [0, 1, 9] {
            let mut state = State::new(count);
            state.set_size = set_size;
            let (mut s, mut m) = (state, [0x13; 64]);
            assert_eq!(step(&mut s, 0, &mut m, 0), Err(Refusal::Memory), "{set_size}");
            assert_eq!(yield_hart(&mut s, 0, &mut m, 9), Err(Refusal::Memory));
            assert_eq!(device_write(&mut s, 0, &mut m, 0, 0, 0), Err(Refusal::Memory));
            let refused = RefusedAt { refusal: Refusal::Memory, place: 0 };
            assert_eq!(run(&mut s, 0, &mut m, &[Event::Step { hart: 9 }], 1), Err(refused));
            assert_eq!(replay(&mut s, 0, &mut m, &[]), Err(Refusal::Memory));
            assert!(s.to_bytes() == state.to_bytes() && m == [0x13; 64]);
            assert_eq!(Machine::from_parts(state, 0, vec![0; 64]), Err(Refusal::Memory));
        }
        let machine = Machine::new(1, 0, 64).unwrap();
        assert_eq!(machine.with_set_size(set_size), Err(Refusal::Memory));
    }
    let text = "refusal 1: the set size or the memory's length or base is wrong";
    assert_eq!(Refusal::Memory.to_string(), text);
}

/// A state of zeros but for its count is refused.
#[test]
fn zeros() {
    let mut bytes = [0; STATE_SIZE];
    bytes[0] = 1;
    let state = State::from_bytes(&bytes);
    assert_eq!((state.set_size, Machine::from_parts(state, 0, vec![0; 64])), (0, Err(Refusal::Memory)));
}

/// Length and base are multiples of the larger of 64 and the size.
#[test]
fn memories() {
    let fits = |set_size: u64, base: u64, len: u64| {
        let mut state = State::new(1);
        state.set_size = set_size;
        Machine::from_parts(state, base, vec![0; len as usize])
    };
    for size in SIZES {
        let granule = size.max(64);
        for (base, len) in [(0, granule), (granule, granule), (3 * granule, 2 * granule), (1 << 40, MAX_MEMORY as u64)]
        {
            assert!(fits(size, base, len).is_ok(), "{size} {base} {len}");
        }
        for (base, len) in [
            (0, granule / 2),
            (0, granule + granule / 2),
            (0, 0),
            (0, size / 2),
            (granule / 2, granule),
            (size / 2, granule),
            (0, MAX_MEMORY as u64 + granule),
            ((1 << 40) + granule, granule),
        ] {
            assert_eq!(fits(size, base, len), Err(Refusal::Memory), "{size} {base} {len}");
        }
    }
    let machine = Machine::new(1, 4096, 4096).unwrap().with_set_size(4096).unwrap();
    assert_eq!(machine.with_set_size(8).unwrap().state.set_size, 8);
    assert_eq!(Machine::new(1, 0, 64).unwrap().with_set_size(4096), Err(Refusal::Memory));
    // A state that is wrong in another way is still refused by 2.
    let mut machine = Machine::new(1, 0, 64).unwrap();
    machine.state.count = 0;
    assert_eq!(machine.with_set_size(16), Err(Refusal::State));
}

/// A store of hart 1 beside the bytes that hart 0's LR read.
#[test]
fn a_store_beside() {
    for (set_size, broke) in [(8, 0), (16, 1), (64, 1), (4096, 1)] {
        let mut machine = Machine::new(2, 0, 4096).unwrap().with_set_size(set_size).unwrap();
        machine.put_words(0, &[LR, SW]).unwrap();
        (machine.state.x[0][5], machine.state.x[1][5], machine.state.pc[1]) = (64, 72, 4);
        assert_eq!(machine.step(0), answer(Outcome::Retired, 0));
        assert_eq!(machine.step(1), answer(Outcome::Retired, broke), "{set_size}");
        assert_eq!(machine.state.reservation(0).is_none(), broke == 1);
        assert_eq!(machine.state.set_size, set_size);
    }
}

/// Every size. Two addresses that differ in one bit alone are in one set if the bit is worth less than the size.
#[test]
fn what_is_in_a_set() {
    let lr = 8192 + 0x6a8;
    for size in SIZES {
        for bit in (2..13).map(|n| 1 << n) {
            let (within, at) = (bit < size, lr ^ bit);
            let mut store = reserved(size, lr, SW, at);
            assert_eq!(store.step(1), answer(Outcome::Retired, u8::from(within)), "{size} {bit}");
            assert_eq!(held(&store), if within { 0b10 } else { 0b11 });
            // An SC stores if its bytes are in the set of its own hart's reservation.
            let mut sc = reserved(size, lr, SC, at);
            let stored = if within { Outcome::ScStored } else { Outcome::ScFailed };
            assert_eq!(sc.step(1), answer(stored, u8::from(within)), "{size} {bit}");
            assert_eq!(held(&sc), if within { 0b00 } else { 0b01 });
            // A device write goes by the bytes that the LR read, whatever the size.
            let mut device = reserved(size, lr, LR, at);
            assert_eq!(device.device_write(at, 4, 0), answer(Outcome::Retired, 0));
            assert_eq!(device.device_write(lr + 3, 1, 0), answer(Outcome::Retired, 0b11));
        }
    }
}

/// A write of 16 bytes meets two sets of 8.
#[test]
fn a_write_of_two_sets() {
    for (size, lr, broke) in
        [(8, 8272, 0b01), (8, 8280, 0b01), (8, 8288, 0), (8, 8264, 0), (16, 8284, 0b01), (16, 8288, 0)]
    {
        let mut machine = reserved(size, lr, AMOCAS_Q, 8272);
        assert_eq!(machine.step(1), answer(Outcome::Retired, broke), "{size} {lr}");
    }
}

/// A run and a replay go by the size too, and leave it as it is.
#[test]
fn runs_and_replays() {
    for (set_size, value) in [(8, 0), (16, 1)] {
        let mut start = Machine::new(2, 0, 128).unwrap().with_set_size(set_size).unwrap();
        start.put_words(0, &[LR, SC, SW]).unwrap();
        (start.state.x[0][5], start.state.x[1][5], start.state.pc[1]) = (64, 72, 8);
        let (mut ran, mut replayed) = (start.clone(), start);
        let events = [Event::Step { hart: 0 }, Event::Step { hart: 1 }, Event::Step { hart: 0 }];
        assert_eq!(ran.run(&events, 3), Ok(3));
        assert_eq!((ran.state.x[0][7], ran.state.set_size), (value, set_size));
        let log = format!(
            "0 0000000000000000 1002a32f 06 0000000000000000\n\
             1 0000000000000008 0082a023 00 0000000000000000\n\
             0 0000000000000004 1882a3af 07 {value:016x}\n"
        );
        assert_eq!(replayed.replay(log.as_bytes()).unwrap().rows, 3);
        assert_eq!(replayed, ran);
    }
}

/// The size is a number of the bytes, and part of what a state is.
#[test]
fn bytes() {
    for set_size in SIZES.into_iter().chain(WRONG) {
        let mut state = State::new(3);
        state.set_size = set_size;
        let bytes = state.to_bytes();
        assert_eq!(bytes[2312..2320], set_size.to_le_bytes());
        assert_eq!(State::from_bytes(&bytes), state);
        assert_eq!(State::from_bytes(&bytes).set_size, set_size);
        assert_eq!(state == State::new(3), set_size == 64);
    }
}
