//! Whose reservation an event breaks.

use floecavern::{Answer, Cause, Event, Harts, Machine, Outcome, Refusal, Reservation, State, Trap};

const LR: u32 = 0x1002_a32f; // lr.w x6,(x5)
const SC: u32 = 0x1882_a3af; // sc.w x7,x8,(x5)
const SW: u32 = 0x0082_a023; // sw x8,0(x5)
const LW: u32 = 0x0002_a303; // lw x6,0(x5)
const AMOADD: u32 = 0x0082_a4af; // amoadd.w x9,x8,(x5)
const AMOCAS: u32 = 0x2882_a4af; // amocas.w x9,x8,(x5)

const STEP: Event = Event::Step { hart: 1 };

/// Four harts with x5 = 64 and the word at their pc; all other registers and bytes are 0. Harts 0, 1 and 2 hold the 4 bytes
/// at 64, hart 3 the 8 bytes at 128.
fn machine(word: u32) -> Machine {
    let mut machine = Machine::new(4, 0, 320).unwrap();
    machine.put_words(0, &[word]).unwrap();
    for hart in 0..4 {
        machine.state.x[hart][5] = 64;
        let reservation =
            if hart == 3 { Reservation { addr: 128, width: 8 } } else { Reservation { addr: 64, width: 4 } };
        machine.state.set_reservation(hart, Some(reservation));
    }
    machine
}

fn held(state: &State) -> u8 {
    (0..8).fold(0, |bits, h| bits | u8::from(state.reservation(h).is_some()) << h)
}

/// The event is answered so, and the harts that hold a reservation afterwards are `left`.
fn check(mut machine: Machine, event: Event, outcome: Outcome, broke: u8, left: u8) {
    let broke = Harts::from_bits(broke);
    assert_eq!(machine.perform(event), Ok(Answer { outcome, broke }), "{event:?}");
    assert_eq!(held(&machine.state), left, "{event:?}");
}

/// A write of hart 1 breaks the reservations of harts 0 and 2, also if it writes the zeros that are there. Its own stays, or
/// an SC drops it: its bit isn't set either way.
#[test]
fn a_retired_write() {
    for (word, outcome, left) in [
        (SW, Outcome::Retired, 0b1010),
        (AMOADD, Outcome::Retired, 0b1010),
        (AMOCAS, Outcome::Retired, 0b1010),
        (SC, Outcome::ScStored, 0b1000),
    ] {
        for x8 in [0, 0x1234_5678] {
            let mut m = machine(word);
            m.state.x[1][8] = x8;
            check(m, STEP, outcome, 0b0101, left);
        }
    }
}

/// Where a hart writes in the set doesn't matter, only that it does.
#[test]
fn a_write_in_the_set() {
    for (addr, broke) in [(60, 0), (64, 0b0101), (68, 0b0101), (124, 0b0101), (128, 0b1000), (188, 0b1000), (192, 0)] {
        let mut m = machine(SW);
        m.state.x[1][5] = addr;
        check(m, STEP, Outcome::Retired, broke, 0b1111 & !broke);
    }
}

#[test]
fn steps_that_break_none() {
    let mut unequal = machine(AMOCAS);
    unequal.state.x[1][9] = 1;
    check(unequal, STEP, Outcome::Retired, 0, 0b1111);
    check(machine(LW), STEP, Outcome::Retired, 0, 0b1111);
    // An LR replaces the reservation of its own hart.
    let mut replaced = machine(LR);
    replaced.state.x[1][5] = 128;
    assert_eq!(replaced.step(1), Ok(Outcome::Retired.into()));
    assert_eq!(replaced.state.reservation(1), Some(Reservation { addr: 128, width: 4 }));
    assert_eq!(held(&replaced.state), 0b1111);
    // An SC that fails drops it: outside the set, or without one.
    let mut outside = machine(SC);
    outside.state.x[1][5] = 128;
    check(outside, STEP, Outcome::ScFailed, 0, 0b1101);
    let mut without = machine(SC);
    without.state.set_reservation(1, None);
    check(without, STEP, Outcome::ScFailed, 0, 0b1101);
    check(machine(0), Event::Yield { hart: 1 }, Outcome::Retired, 0, 0b1101);
}

/// A device write breaks a reservation only if it touches a byte that the LR read. It has no hart of its own.
#[test]
fn a_device_write() {
    for (addr, size, broke) in [
        (63, 1, 0),
        (63, 2, 0b0111),
        (67, 1, 0b0111),
        (68, 1, 0),
        (68, 8, 0),
        (120, 8, 0),
        (121, 8, 0b1000),
        (135, 1, 0b1000),
        (136, 1, 0),
    ] {
        let write = Event::DeviceWrite { addr, size, data: 0 };
        check(machine(0), write, Outcome::Retired, broke, 0b1111 & !broke);
    }
}

/// What is broken once isn't broken again, and unused harts aren't looked at.
#[test]
fn only_what_is_held() {
    let mut m = machine(SW);
    assert_eq!(m.step(1).unwrap().broke, Harts::from_bits(0b0101));
    m.state.pc[1] = 0;
    assert_eq!(m.step(1), Ok(Outcome::Retired.into()));
    let mut unused = machine(SW);
    unused.state.count = 2;
    check(unused.clone(), STEP, Outcome::Retired, 0b0001, 0b1110);
    check(unused, Event::DeviceWrite { addr: 64, size: 1, data: 0 }, Outcome::Retired, 0b0011, 0b1100);
}

#[test]
fn eight_harts() {
    let mut m = Machine::new(8, 0, 128).unwrap();
    m.put_words(0, &[LR, SC]).unwrap();
    for hart in 0..8 {
        m.state.x[hart][5] = 64;
        assert_eq!(m.step(hart), Ok(Outcome::Retired.into()));
    }
    check(m.clone(), Event::DeviceWrite { addr: 64, size: 8, data: 0 }, Outcome::Retired, 0xff, 0);
    for hart in 0..8 {
        check(m.clone(), Event::Step { hart }, Outcome::ScStored, !(1 << hart), 0);
    }
}

/// The value of a trap is no set of harts, whatever its bits are; a trap and a refusal break none.
#[test]
fn traps_and_refusals() {
    for (addr, cause) in [(66, Cause::StoreAddressMisaligned), (4096 + 64, Cause::StoreAccessFault)] {
        for word in [SW, SC, AMOADD, AMOCAS] {
            let mut m = machine(word);
            m.state.x[1][5] = addr;
            check(m, STEP, Outcome::Trap(Trap { cause, value: addr }), 0, 0b1111);
        }
    }
    let mut m = machine(SW);
    assert_eq!(m.step(4), Err(Refusal::Hart));
    assert_eq!(m.yield_hart(4), Err(Refusal::Hart));
    assert_eq!(m.device_write(64, 9, 0), Err(Refusal::DeviceSize));
    assert_eq!(m.device_write(316, 8, 0), Err(Refusal::DeviceAddress));
    assert_eq!(held(&m.state), 0b1111);
}

#[test]
fn texts() {
    let broke = |outcome, bits| Answer { outcome, broke: Harts::from_bits(bits) };
    for (answer, text) in [
        (broke(Outcome::Retired, 0), "retired"),
        (broke(Outcome::Retired, 0x01), "retired broke 01"),
        (broke(Outcome::ScStored, 0xfe), "sc stored broke fe"),
        (Outcome::ScFailed.into(), "sc failed"),
        (
            Outcome::Trap(Trap { cause: Cause::IllegalInstruction, value: 3 }).into(),
            "trap 2 0000000000000003: illegal instruction",
        ),
    ] {
        assert_eq!(answer.to_string(), text);
    }
    assert_eq!(format!("{:?}", broke(Outcome::ScStored, 5)), "Answer { outcome: ScStored, broke: {0, 2} }");
}

/// Every set that there is.
#[test]
fn sets() {
    for bits in 0..=u8::MAX {
        let harts = Harts::from_bits(bits);
        let expected: Vec<usize> = (0..8).filter(|hart| bits >> hart & 1 == 1).collect();
        assert_eq!(harts.iter().collect::<Vec<_>>(), expected);
        assert_eq!((harts.bits(), harts.len(), harts.is_empty()), (bits, expected.len(), expected.is_empty()));
        for hart in (0..20).chain([63, 64, 256, usize::MAX]) {
            assert_eq!(harts.contains(hart), expected.contains(&hart));
        }
        assert_eq!(format!("{harts:02x}"), format!("{bits:02x}"));
    }
    assert_eq!((Harts::default(), Harts::NONE), (Harts::from_bits(0), Harts::from_bits(0)));
    assert_eq!((Harts::NONE.to_string(), Harts::from_bits(0x89).to_string()), ("{}".into(), "{0, 3, 7}".into()));
}
