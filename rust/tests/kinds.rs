//! The kind of core: which are taken, and what the 32-bit one asks and does.

mod common;

use common::{answer, held};
use floecavern::{
    check_loop, check_loop_for, device_write, raw, replay, run, step, yield_hart, Cause, Event, Machine, Outcome,
    Reason, Refusal, RefusedAt, Replayed, Reservation, State, Stop, Trap, Verdict, A_2_0, A_2_1, KIND_32, KIND_64,
    STATE_SIZE,
};

const LR: u32 = 0x1002_a32f; // lr.w x6,(x5)
const SC: u32 = 0x1882_a3af; // sc.w x7,x8,(x5)
const LR_D: u32 = 0x1002_b32f; // lr.d x6,(x5)
const SC_D: u32 = 0x1882_b3af; // sc.d x7,x8,(x5)
const RET: u32 = 0x0000_8067; // jalr x0,0(x1)
const ADDW: u32 = 0x0082_833b; // addw x6,x5,x8
const ADDIW: u32 = 0x0012_831b; // addiw x6,x5,1
const SLLI_31: u32 = 0x01f2_9313; // slli x6,x5,31
const SLLI_32: u32 = 0x0202_9313; // slli x6,x5,32
const CAS_PAIR: u32 = 0x28a2_b42f; // amocas.d x8,x10,(x5)

/// Legal words of the 64-bit core that the 32-bit one doesn't have: ld, lwu, sd, addw, addiw, slli by 32, lr.d, sc.d, amoadd.d,
/// amocas.q, and amocas.d of an odd rd and of an odd rs2.
const WIDE: [u32; 12] = [
    0x0002_b303,
    0x0002_e303,
    0x0082_b023,
    ADDW,
    ADDIW,
    SLLI_32,
    LR_D,
    SC_D,
    0x0082_b4af,
    0x28a2_c42f,
    0x28a2_b4af,
    0x28b2_b42f,
];

/// No kinds; some have the number of one in a part of their bits.
const WRONG: [u64; 10] = [2, 3, 32, 64, 256, 257, 1 << 32, (1 << 32) + 1, (1 << 63) + 1, u64::MAX];

/// A hart of the kind with x5 = 64 and the word at its pc, 0, in 128 bytes.
fn machine(kind: u64, word: u32) -> Machine {
    let mut machine = Machine::new(1, 0, 128).unwrap().with_kind(kind).unwrap();
    machine.put_words(0, &[word]).unwrap();
    machine.state.x[0][5] = 64;
    machine
}

fn trap(cause: Cause, value: u64) -> Outcome {
    Outcome::Trap(Trap { cause, value })
}

#[test]
fn the_default_is_64() {
    assert_eq!((KIND_64, KIND_32), (0, 1));
    assert_eq!((State::default().kind, State::new(2).kind), (0, 0));
    assert_eq!(Machine::new(2, 0, 64).unwrap().state.kind, 0);
    assert_eq!(STATE_SIZE, 2344);
}

/// What no call takes leaves every byte as it was. 2 is tried after 1, and before what is asked of a call alone.
#[test]
fn other_kinds() {
    for kind in WRONG {
        let mut state = State::new(1);
        state.kind = kind;
        let (mut s, mut m) = (state, [0x13; 64]);
        assert_eq!(step(&mut s, 0, &mut m, 0), Err(Refusal::State), "{kind}");
        assert_eq!(yield_hart(&mut s, 0, &mut m, 9), Err(Refusal::State));
        assert_eq!(device_write(&mut s, 0, &mut m, 0, 0, 0), Err(Refusal::State));
        let refused = RefusedAt { refusal: Refusal::State, place: 0 };
        assert_eq!(run(&mut s, 0, &mut m, &[Event::Step { hart: 9 }], 1), Err(refused));
        assert_eq!(replay(&mut s, 0, &mut m, &[]), Err(Refusal::State));
        assert_eq!(step(&mut s, 1, &mut m, 0), Err(Refusal::Memory));
        assert!(s.to_bytes() == state.to_bytes() && m == [0x13; 64]);
        // Above 2^32 too: what 1 asks of the end of memory it asks of the 32-bit kind alone.
        assert_eq!(Machine::from_parts(state, 1 << 32, vec![0; 64]), Err(Refusal::State));
        assert_eq!(Machine::new(1, 0, 64).unwrap().with_kind(kind), Err(Refusal::State));
    }
}

/// A machine can change its kind, and the settings don't stand in for one another.
#[test]
fn other_settings() {
    let machine = Machine::new(1, 0, 128).unwrap().with_kind(KIND_32).unwrap();
    let machine = machine.with_set_size(128).unwrap().with_version(A_2_0).unwrap();
    assert_eq!((machine.state.set_size, machine.state.version, machine.state.kind), (128, A_2_0, KIND_32));
    assert_eq!(machine.clone().with_version(KIND_32), Err(Refusal::State));
    assert_eq!(machine.with_kind(KIND_64).unwrap().state.kind, KIND_64);
}

/// The memory of a 32-bit machine ends at 2^32 or below.
#[test]
fn the_end_of_memory() {
    let top: u64 = 1 << 32;
    for (base, len, fits) in
        [(0, 64, true), (top - 64, 64, true), (top - 128, 128, true), (top - 64, 128, false), (top, 64, false)]
    {
        let wide = Machine::new(1, base, len).unwrap();
        assert_eq!(wide.with_kind(KIND_32).map(|machine| machine.base), fits.then_some(base).ok_or(Refusal::Memory));
    }
    // 1 is tried before 2.
    let mut state = State::new(0);
    state.kind = KIND_32;
    assert_eq!(Machine::from_parts(state, top, vec![0; 64]), Err(Refusal::Memory));
}

/// What no used hart of 32 bits has, by n from 1 to 35: an upper half of a register or a pc, a reservation 8 wide.
fn widen(state: &mut State, hart: usize, n: usize) {
    match n {
        1..=31 => state.x[hart][n] = 1 << 32,
        32 => state.x[hart][31] = u64::MAX,
        33 => state.pc[hart] = 1 << 32,
        34 => state.pc[hart] = (1 << 63) + 4,
        _ => state.set_reservation(hart, Some(Reservation { addr: 64, width: 8 })),
    }
}

/// Unused harts aren't looked at.
#[test]
fn upper_halves() {
    for n in 1..36 {
        for hart in 0..8 {
            let mut state = State::new(4);
            widen(&mut state, hart, n);
            assert!(Machine::from_parts(state, 0, vec![0; 128]).is_ok());
            state.kind = KIND_32;
            let mut after = state;
            let done = yield_hart(&mut after, 0, &mut [0; 128], 0);
            let due = if hart < 4 { Err(Refusal::State) } else { answer(Outcome::Retired, 0) };
            assert_eq!((done, after == state), (due, true), "{n} {hart}");
        }
    }
}

/// A word that only the 64-bit core has is cause 2, with the word as its value.
#[test]
fn words() {
    for word in WIDE {
        let mut narrow = machine(KIND_32, word);
        let before = narrow.clone();
        assert_eq!(narrow.step(0), answer(trap(Cause::IllegalInstruction, word.into()), 0), "{word:x}");
        assert_eq!(narrow, before);
        let wide = machine(KIND_64, word).step(0).unwrap();
        assert_ne!(wide.outcome, trap(Cause::IllegalInstruction, word.into()), "{word:x}");
    }
}

/// What a step leaves has a zero upper half: lw of a negative word, lui, addi, add, sub, slli, auipc, jal, lh, amoadd.w and lr.w.
#[test]
fn results() {
    for (word, register, narrow, wide) in [
        (0x0002_a303, 6, 0x8000_0001, 0xffff_ffff_8000_0001), // lw x6,0(x5)
        (0x8000_0337, 6, 0x8000_0000, 0xffff_ffff_8000_0000), // lui x6,0x80000
        (0xfff0_0313, 6, 0xffff_ffff, u64::MAX),              // addi x6,x0,-1
        (0x4080_0333, 6, 0xffff_fffd, u64::MAX - 2),          // sub x6,x0,x8
        (SLLI_31, 6, 0, 64 << 31),
        (0xffff_f317, 6, 0xffff_f000, 0u64.wrapping_sub(4096)), // auipc x6,0xfffff
        (0x0080_00ef, 1, 4, 4),                                 // jal x1,8
        (0x0082_a4af, 9, 0x8000_0001, 0xffff_ffff_8000_0001),   // amoadd.w x9,x8,(x5)
        (LR, 6, 0x8000_0001, 0xffff_ffff_8000_0001),
    ] {
        for (kind, value) in [(KIND_32, narrow), (KIND_64, wide)] {
            let mut machine = machine(kind, word);
            machine.put_words(64, &[0x8000_0001]).unwrap();
            machine.state.x[0][8] = 3;
            assert_eq!(
                (machine.step(0), machine.state.x[0][register]),
                (answer(Outcome::Retired, 0), value),
                "{word:x}"
            );
            assert_eq!(machine.state.kind, kind);
        }
    }
}

/// Sums are taken modulo 2^32, and the values of traps are numbers below it.
#[test]
fn sums() {
    // lw x6,4(x5) at 2^32 - 4 reads at 0, and at 2^32 - 8 what isn't in memory.
    for (kind, x5, done) in [
        (KIND_32, 0xffff_fffc, Outcome::Retired),
        (KIND_32, 0xffff_fff8, trap(Cause::LoadAccessFault, 0xffff_fffc)),
        (KIND_64, 0xffff_fffc, trap(Cause::LoadAccessFault, 1 << 32)),
    ] {
        let mut machine = machine(kind, 0x0042_a303);
        machine.state.x[0][5] = x5;
        assert_eq!(machine.step(0), answer(done, 0));
    }
    // Behind the last word of the address space the pc is 0.
    let mut top = Machine::new(1, 0xffff_ffc0, 64).unwrap().with_kind(KIND_32).unwrap();
    top.put_words(0xffff_fffc, &[0x13]).unwrap();
    top.state.pc[0] = 0xffff_fffc;
    assert_eq!((top.step(0), top.state.pc[0]), (answer(Outcome::Retired, 0), 0));
    assert_eq!(top.step(0), answer(trap(Cause::InstructionAccessFault, 0), 0));
}

/// AMOCAS.D on pairs: 8 bytes, the even register the lower 4.
#[test]
fn pairs() {
    let cas = |word: u32, x5: u64, rd: [u64; 2]| {
        let mut machine = machine(KIND_32, word);
        machine.put_words(64, &[1, 2]).unwrap();
        (machine.state.x[0][1], machine.state.x[0][5]) = (9, x5);
        machine.state.x[0][8..12].copy_from_slice(&[rd[0], rd[1], 0xffff_ffff, 7]);
        let done = machine.step(0).unwrap().outcome;
        let number = |at: usize| u32::from_le_bytes(machine.mem[at..at + 4].try_into().unwrap());
        let x = &machine.state.x[0];
        (done, [number(64), number(68)], [x[0], x[1]], [x[8], x[9]])
    };
    let retired = Outcome::Retired;
    assert_eq!(cas(CAS_PAIR, 64, [1, 2]), (retired, [0xffff_ffff, 7], [0, 9], [1, 2]));
    for rd in [[1, 3], [2, 2], [2, 1], [0, 0]] {
        assert_eq!(cas(CAS_PAIR, 64, rd), (retired, [1, 2], [0, 9], [1, 2]));
    }
    // amocas.d x8,x0,(x5): the pair of x0 is zero, whatever x1 holds. amocas.d x0,x10,(x5): and it isn't written.
    assert_eq!(cas(0x2802_b42f, 64, [1, 2]), (retired, [0, 0], [0, 9], [1, 2]));
    assert_eq!(cas(0x28a2_b02f, 64, [1, 2]), (retired, [1, 2], [0, 9], [1, 2]));
    assert_eq!(cas(0x28a2_b02f, 72, [5, 6]), (retired, [1, 2], [0, 9], [5, 6]));
    assert_eq!(cas(CAS_PAIR, 68, [1, 2]).0, trap(Cause::StoreAddressMisaligned, 68));
    assert_eq!(cas(CAS_PAIR, 128, [1, 2]).0, trap(Cause::StoreAccessFault, 128));
}

/// A device write has up to 8 bytes, and its address isn't cut to 32 bits.
#[test]
fn device_writes() {
    let mut machine = machine(KIND_32, LR);
    assert_eq!(machine.step(0), answer(Outcome::Retired, 0));
    assert_eq!(machine.device_write((1 << 32) + 64, 8, 0), Err(Refusal::DeviceAddress));
    assert_eq!((machine.device_write(64, 8, u64::MAX), held(&machine)), (answer(Outcome::Retired, 1), 0));
    assert_eq!(machine.bytes(64, 8), Some(&[0xff; 8][..]));
}

/// A run and a replay go by the kind too. A row's upper half is well formed, and differs.
#[test]
fn runs_and_replays() {
    for (kind, value) in [(KIND_32, 0xffff_ffff), (KIND_64, u64::MAX)] {
        let start = machine(kind, 0xfff0_0313); // addi x6,x0,-1
        let (mut ran, mut replayed) = (start.clone(), start.clone());
        assert_eq!(ran.run(&[Event::Step { hart: 0 }], 1), Ok(1));
        assert_eq!((ran.state.x[0][6], ran.state.kind), (value, kind));
        let row = |value: u64| format!("0 0000000000000000 fff00313 06 {value:016x}\n");
        assert_eq!(replayed.replay(row(value).as_bytes()), Ok(Replayed { rows: 1, stop: Stop::Agreed }));
        assert_eq!(replayed, ran);
        let board = value ^ 0xffff_ffff_0000_0000;
        let stop = Stop::Value { board, model: value };
        assert_eq!(start.clone().replay(row(board).as_bytes()), Ok(Replayed { rows: 0, stop }));
    }
}

/// The kind is a number of the bytes, and part of what a state is.
#[test]
fn bytes() {
    for kind in WRONG.into_iter().chain([KIND_64, KIND_32]) {
        let mut state = State::new(3);
        state.kind = kind;
        let bytes = state.to_bytes();
        assert_eq!(bytes[2328..2336], kind.to_le_bytes());
        assert_eq!((State::from_bytes(&bytes), State::from_bytes(&bytes).kind), (state, kind));
        assert_eq!(state == State::new(3), kind == KIND_64);
    }
}

#[test]
fn loops() {
    let (accepted, rejected) = (Ok(Verdict::Accepted), |place, reason| Ok(Verdict::Rejected { place, reason }));
    let (refused, not_permitted) = (Err(Refusal::Block), |place| rejected(place, Reason::NotPermitted));
    for (block, narrow, wide) in [
        (&[LR, SC][..], accepted, accepted),
        (&[LR, SLLI_31, SC], accepted, accepted),
        (&[LR_D, SC_D], rejected(0, Reason::NoLr), accepted),
        (&[LR_D, SC], rejected(0, Reason::NoLr), rejected(1, Reason::OtherSc)),
        (&[LR, SC_D], not_permitted(1), rejected(1, Reason::OtherSc)),
        (&[LR, ADDW, SC], not_permitted(1), accepted),
        (&[LR, SC, ADDIW], not_permitted(2), accepted),
        (&[LR, SLLI_32, SC], not_permitted(1), accepted),
        (&[LR, CAS_PAIR, SC], not_permitted(1), not_permitted(1)),
        (&[LR], refused, refused),
        (&[SC_D; 17], refused, refused),
        (&[], refused, refused),
    ] {
        for version in [A_2_0, A_2_1] {
            assert_eq!(check_loop_for(version, KIND_32, block), narrow, "{block:x?}");
            assert_eq!(check_loop_for(version, KIND_64, block), wide, "{block:x?}");
            for kind in WRONG {
                assert_eq!(check_loop_for(version, kind, block), Err(Refusal::State), "{kind} {block:x?}");
            }
        }
        assert_eq!(check_loop(block), wide, "{block:x?}");
        assert_eq!(check_loop_for(22, KIND_32, block), Err(Refusal::State));
    }
    assert_eq!(check_loop_for(A_2_0, KIND_32, &[LR, RET, SC]), accepted);
    assert_eq!(check_loop_for(A_2_1, KIND_32, &[LR, RET, SC]), not_permitted(1));
}

/// The library's function as it is: what isn't whole words is told before the kind.
#[test]
fn raw_loops() {
    let bytes: Vec<u8> = [LR_D, SC_D].iter().flat_map(|w| w.to_le_bytes()).collect();
    let check =
        |kind: u64, len: usize| unsafe { raw::floecavern_check_loop_for(A_2_1, kind, bytes[..len].as_ptr(), len) };
    assert_eq!((check(KIND_64, 8), check(KIND_32, 8), check(2, 8)), (0, 256 + 1, 2));
    assert_eq!((check(KIND_64, 4), check(KIND_32, 4), check(2, 4)), (6, 6, 2));
    for kind in WRONG.into_iter().chain([KIND_64, KIND_32]) {
        assert_eq!(check(kind, 7), u64::MAX);
    }
}
