//! What a misaligned LR, SC, AMO or AMOCAS gives, by the state, and what boards are set to: settings files read and written.

use floecavern::{
    device_write, raw, read_settings, replay, run, step, write_settings, yield_hart, Board, Cause, Event, Machine,
    Outcome, Refusal, RefusedAt, Replayed, Reservation, SettingsFile, State, Stop, Trap, A_2_0, A_2_1, KIND_32,
    MAX_BOARDS, MISALIGNED_4_AND_6, MISALIGNED_5_AND_7, SETTINGS_ROOM, STATE_SIZE,
};

/// Neither of the two; some have 0 or 1 in a part of their bits.
const WRONG: [u64; 11] = [2, 3, 4, 7, 10, 255, 256, 257, 1 << 32, (1 << 32) + 1, u64::MAX];

/// Words with x5 for their address, and the causes they have misaligned, by the setting.
const ACCESSES: [(u32, [Cause; 2]); 9] = [
    (0x1002_a32f, [Cause::LoadAddressMisaligned, Cause::LoadAccessFault]), // lr.w x6,(x5)
    (0x1002_b32f, [Cause::LoadAddressMisaligned, Cause::LoadAccessFault]), // lr.d x6,(x5)
    (0x1882_a3af, [Cause::StoreAddressMisaligned, Cause::StoreAccessFault]), // sc.w x7,x8,(x5)
    (0x0082_a3af, [Cause::StoreAddressMisaligned, Cause::StoreAccessFault]), // amoadd.w x7,x8,(x5)
    (0xe082_b3af, [Cause::StoreAddressMisaligned, Cause::StoreAccessFault]), // amomaxu.d x7,x8,(x5)
    (0x2882_a3af, [Cause::StoreAddressMisaligned, Cause::StoreAccessFault]), // amocas.w x7,x8,(x5)
    (0x2882_c32f, [Cause::StoreAddressMisaligned, Cause::StoreAccessFault]), // amocas.q x6,x8,(x5)
    (0x0002_a303, [Cause::LoadAddressMisaligned; 2]),                      // lw x6,0(x5)
    (0x0082_a023, [Cause::StoreAddressMisaligned; 2]),                     // sw x8,0(x5)
];

fn machine(word: u32, address: u64) -> Machine {
    let mut machine = Machine::new(1, 0, 128).unwrap();
    machine.put_words(0, &[word]).unwrap();
    machine.state.x[0][5] = address;
    machine.state.set_reservation(0, Some(Reservation { addr: 64, width: 8 }));
    machine
}

#[test]
fn the_default_is_4_and_6() {
    assert_eq!((MISALIGNED_4_AND_6, MISALIGNED_5_AND_7), (0, 1));
    assert_eq!((State::default().misaligned, State::new(2).misaligned), (0, 0));
    assert_eq!(Board::default(), Board { set_size: 64, version: A_2_1, misaligned: 0 });
    let mut bytes = [0; STATE_SIZE];
    (bytes[2312], bytes[2320]) = (64, 21);
    assert_eq!(State::default().to_bytes(), bytes);
}

/// Aligned ones retire alike; a trap leaves all as it was, inside memory and outside.
#[test]
fn causes() {
    for (word, causes) in ACCESSES {
        for (misaligned, cause) in (0..).zip(causes) {
            for address in [65, 66, 126, 127, 129, u64::MAX] {
                let mut one = machine(word, address).with_misaligned(misaligned).unwrap();
                let before = one.clone();
                assert_eq!(
                    one.step(0),
                    Ok(Outcome::Trap(Trap { cause, value: address }).into()),
                    "{word:#x} {address}"
                );
                assert_eq!(one, before);
            }
        }
        let mut low = machine(word, 64);
        let mut high = low.clone().with_misaligned(1).unwrap();
        assert_eq!(low.step(0), high.step(0));
        assert!(low.state.pc[0] == 4 && low.clone().with_misaligned(1).unwrap() == high);
    }
    // Outside memory the two have one cause where it is aligned.
    for misaligned in [0, 1] {
        let mut one = machine(0x1002_a32f, 128).with_misaligned(misaligned).unwrap();
        let trap = Trap { cause: Cause::LoadAccessFault, value: 128 };
        assert_eq!(one.step(0), Ok(Outcome::Trap(trap).into()));
    }
}

/// AMOCAS.D of a 32-bit core, on pairs, follows the setting too.
#[test]
fn pairs_of_words() {
    for (misaligned, cause) in [(0, Cause::StoreAddressMisaligned), (1, Cause::StoreAccessFault)] {
        let mut one = machine(0x2882_b32f, 68);
        one.state.set_reservation(0, None);
        let mut one = one.with_kind(KIND_32).unwrap().with_misaligned(misaligned).unwrap();
        assert_eq!(one.step(0), Ok(Outcome::Trap(Trap { cause, value: 68 }).into()));
    }
}

/// What no call takes leaves every byte as it was. 2 is tried after 1, and before what is asked of a call alone.
#[test]
fn other_numbers() {
    for misaligned in WRONG {
        let mut state = State::new(1);
        state.misaligned = misaligned;
        let (mut s, mut m) = (state, [0x13; 64]);
        assert_eq!(step(&mut s, 0, &mut m, 0), Err(Refusal::State), "{misaligned}");
        assert_eq!(device_write(&mut s, 0, &mut m, 0, 9, 0), Err(Refusal::State));
        assert_eq!(yield_hart(&mut s, 0, &mut m, 9), Err(Refusal::State));
        let refused = Err(RefusedAt { refusal: Refusal::State, place: 0 });
        assert_eq!(run(&mut s, 0, &mut m, &[Event::Step { hart: 9 }], 0), refused);
        assert_eq!(replay(&mut s, 0, &mut m, b"no row"), Err(Refusal::State));
        assert_eq!(step(&mut s, 1, &mut m, 0), Err(Refusal::Memory));
        assert!(s == state && m == [0x13; 64]);
        assert_eq!(Machine::new(1, 0, 64).unwrap().with_misaligned(misaligned), Err(Refusal::State));
    }
    assert_eq!(Refusal::State.to_string(), "refusal 2: a setting other than the set size, or the state, is wrong");
}

/// A run goes on behind a trap; a replay stops at it with its cause.
#[test]
fn runs_and_replays() {
    for (misaligned, cause) in [(0, Cause::LoadAddressMisaligned), (1, Cause::LoadAccessFault)] {
        let mut one = machine(0x1002_a32f, 66).with_misaligned(misaligned).unwrap();
        let before = one.clone();
        assert_eq!(one.run(&[Event::Step { hart: 0 }], 1), Ok(1));
        let row = b"0 0000000000000000 1002a32f 06 0000000000000000\n";
        let stop = Stop::Trap(Trap { cause, value: 66 });
        assert_eq!(one.replay(row), Ok(Replayed { rows: 0, stop }));
        assert_eq!(one, before);
    }
}

/// misaligned is the last number of the bytes, and part of what a state is.
#[test]
fn bytes() {
    for misaligned in WRONG.into_iter().chain([0, 1]) {
        let mut state = State::new(3);
        state.misaligned = misaligned;
        let bytes = state.to_bytes();
        assert_eq!(bytes[2336..], misaligned.to_le_bytes());
        assert_eq!((State::from_bytes(&bytes), State::from_bytes(&bytes).misaligned), (state, misaligned));
        assert_eq!(state == State::new(3), misaligned == 0);
    }
}

/// Board k of a list: all of them keep the rules, and each differs from the one before.
fn board(k: usize) -> Board {
    Board { set_size: 8 << (k % 10), version: [A_2_0, A_2_1][k % 2], misaligned: (k as u64 / 2) % 2 }
}

#[test]
fn files() {
    for n in 1..=MAX_BOARDS {
        let boards: Vec<Board> = (0..n).map(board).collect();
        let file = write_settings(&boards).unwrap();
        assert_eq!(file.len(), 8 + 12 * n);
        assert_eq!(read_settings(&file), Ok(SettingsFile { format: 2, boards: boards.clone() }));
        // Of format 1, without the last byte of each body.
        let number = |n: usize| (n as u32).to_le_bytes();
        let entries = (0..n).flat_map(|k| [number(8 + 8 * n + 3 * k), number(3)].concat());
        let bodies = boards.iter().flat_map(|b| [b.set_size as u8, (b.set_size >> 8) as u8, b.version as u8]);
        let old: Vec<u8> = [number(1), number(n)].concat().into_iter().chain(entries).chain(bodies).collect();
        let read = read_settings(&old).unwrap();
        let plain: Vec<Board> = boards.iter().map(|b| Board { misaligned: 0, ..*b }).collect();
        assert_eq!((read.format, &read.boards), (1, &plain));
        assert_eq!(
            read_settings(&write_settings(&read.boards).unwrap()),
            Ok(SettingsFile { format: 2, boards: plain })
        );
        // Cut or longer, it is none.
        for len in 0..file.len() {
            assert_eq!(read_settings(&file[..len]), Err(RefusedAt { refusal: Refusal::SettingsTable, place: 0 }));
        }
        assert!(read_settings(&[&file[..], &[0]].concat()).is_err());
    }
    assert_eq!(write_settings(&[Board::default(); MAX_BOARDS]).unwrap().len(), SETTINGS_ROOM);
}

/// Numbers are judged whole: none is cut to the bytes that a file has for it.
#[test]
fn bad_boards() {
    let refused = |refusal, place| Err(RefusedAt { refusal, place });
    for n in [0, 17, 18, 300] {
        assert_eq!(
            write_settings(&vec![Board { set_size: 3, ..Board::default() }; n]),
            refused(Refusal::SettingsTable, 0)
        );
    }
    let good = Board::default();
    for bad in [
        Board { set_size: 0, ..good },
        Board { set_size: 24, ..good },
        Board { set_size: 8192, ..good },
        Board { set_size: 65536 + 64, ..good },
        Board { version: 22, ..good },
        Board { version: 256 + 21, ..good },
        Board { misaligned: 2, ..good },
        Board { misaligned: 256, ..good },
        Board { misaligned: 1 << 63, ..good },
    ] {
        assert_eq!(write_settings(&[good, bad, bad]), refused(Refusal::SettingsBoard, 8 + 8 * 3 + 4));
        assert_eq!(write_settings(&[good, good, bad]), refused(Refusal::SettingsBoard, 8 + 8 * 3 + 8));
    }
    let format = RefusedAt { refusal: Refusal::SettingsFormat, place: 0 };
    assert_eq!(read_settings(&[3, 0, 0, 0, 1, 0, 0, 0]), Err(format));
    let text = "refusal 23 at 36: a board's set size, version of A or misaligned is wrong";
    assert_eq!(RefusedAt { refusal: Refusal::SettingsBoard, place: 36 }.to_string(), text);
}

/// The functions over bytes write nothing where a size is wrong, and nothing into the buffer where a file is refused.
#[test]
fn sizes() {
    let file = write_settings(&[Board::default()]).unwrap();
    for (boards_len, told_len) in [(383, 16), (385, 16), (384, 15), (384, 17), (0, 0), (384, 16)] {
        let (mut boards, mut told) = (vec![0xa5; boards_len], vec![0xa5; told_len]);
        // SAFETY: all pointers come from buffers of these lengths that do not overlap.
        let r = unsafe {
            let (out, t) = (boards.as_mut_ptr(), told.as_mut_ptr());
            raw::floecavern_read_settings(file.as_ptr(), file.len(), out, boards_len, t, told_len)
        };
        let right = (boards_len, told_len) == (384, 16);
        assert_eq!(r, if right { 0 } else { u64::MAX });
        assert!(right || boards.iter().chain(&told).all(|byte| *byte == 0xa5));
    }
    let given = [64u64, 21, 0].map(u64::to_le_bytes).concat();
    for (len, room, told_len, expected) in [
        (23, 200, 8, u64::MAX),
        (24, 200, 7, u64::MAX),
        (24, 19, 8, 512 + 21),
        (0, 200, 8, 512 + 21),
        (24, 20, 8, 0),
        (24, 40, 8, 0),
    ] {
        let (mut out, mut told) = (vec![0xa5; room], vec![0xa5; told_len]);
        // SAFETY: as above.
        let r = unsafe {
            let (o, t) = (out.as_mut_ptr(), told.as_mut_ptr());
            raw::floecavern_write_settings(given.as_ptr(), len, o, room, t, told_len)
        };
        assert_eq!(r, expected);
        let written = if r == 0 { 20 } else { 0 };
        assert_eq!(out[..written], file[..written]);
        assert!(out[written..].iter().all(|byte| *byte == 0xa5));
    }
}

#[test]
fn on_a_board() {
    let board = Board { set_size: 128, version: A_2_0, misaligned: 1 };
    let one = Machine::new(1, 0, 128).unwrap().with_board(board).unwrap();
    assert_eq!((one.state.set_size, one.state.version, one.state.kind, one.state.misaligned), (128, 20, 0, 1));
    assert_eq!(Machine::new(1, 64, 128).unwrap().with_board(board), Err(Refusal::Memory));
    assert_eq!(Machine::new(1, 0, 128).unwrap().with_board(Board { misaligned: 2, ..board }), Err(Refusal::State));
}
