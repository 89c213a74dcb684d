//! Logs replayed: those that a machine writes agree; every stop and every refusal.

use floecavern::{replay, Cause, Machine, Outcome, Refusal, Replayed, State, Stop, Trap, ROW_SIZE};

/// lr.w x6,(x5); addi x8,x8,1; sc.w x7,x8,(x5); amoadd.w x9,x8,(x5); fence; jal x0,-20
const WORDS: [u32; 6] = [0x1002_a32f, 0x0014_0413, 0x1882_a3af, 0x0082_a4af, 0x0ff0_000f, 0xfedf_f06f];
const RD: [usize; 6] = [6, 8, 7, 9, 0, 0];

fn machine() -> Machine {
    let mut machine = Machine::new(2, 4096, 256).unwrap();
    machine.put_words(4096, &WORDS).unwrap();
    for h in 0..2 {
        machine.state.x[h][5] = 4160;
    }
    machine
}

/// Steps of harts, and the row of each.
fn rows(machine: &mut Machine, harts: &[usize]) -> Vec<u8> {
    let mut row = |&h: &usize| {
        let pc = machine.state.pc[h];
        let n = (pc - 4096) as usize / 4;
        assert!(!matches!(machine.step(h).unwrap().outcome, Outcome::Trap(_)));
        format!("{h} {pc:016x} {:08x} {:02} {:016x}\n", WORDS[n], RD[n], machine.state.x[h][RD[n]])
    };
    harts.iter().map(&mut row).collect::<String>().into_bytes()
}

#[test]
fn a_log_agrees_and_can_be_cut() {
    let harts: Vec<usize> = (0..60).map(|n| n * n / 7 % 2).collect();
    let mut stepped = machine();
    let log = rows(&mut stepped, &harts);
    assert_eq!(log.len(), 60 * ROW_SIZE);
    for cut in 0..=60 {
        let mut m = machine();
        for (part, rows) in [(&log[..cut * ROW_SIZE], cut), (&log[cut * ROW_SIZE..], 60 - cut)] {
            let expected = if rows == 0 { Err(Refusal::LogEmpty) } else { Ok(Replayed { rows, stop: Stop::Agreed }) };
            assert_eq!(m.replay(part), expected);
        }
        assert!(m == stepped);
    }
}

/// A row with another byte stops, and the machine is the one after the rows before it.
#[test]
fn stops() {
    let harts = [0, 1, 1, 0, 1, 0, 0, 1, 1];
    let log = rows(&mut machine(), &harts);
    let changed = |row: usize, place: usize, byte: u8, stop: Stop, text: &str| {
        let mut log = log.clone();
        log[row * ROW_SIZE + place] = byte;
        let (mut m, mut before) = (machine(), machine());
        assert_eq!(m.replay(&log), Ok(Replayed { rows: row, stop }));
        rows(&mut before, &harts[..row]);
        assert!(m == before, "row {row}, place {place}");
        assert_eq!(stop.to_string(), text);
    };
    for (place, byte) in [(0, b'2'), (0, b'x'), (1, b'0'), (5, b'A'), (18, b'\t'), (28, b' '), (47, b'\r')] {
        changed(4, place, byte, Stop::Form, "form");
    }
    let pc = Stop::Pc { board: 4105, model: 4104 };
    changed(4, 17, b'9', pc, "pc 0000000000001009 0000000000001008");
    changed(4, 19, b'0', Stop::Word { board: 0x0882_a3af, model: 0x1882_a3af }, "word 0882a3af 1882a3af");
    changed(4, 28, b'9', Stop::Rd { board: 97, model: 7 }, "rd 97 07");
    changed(4, 46, b'f', Stop::Value { board: 15, model: 0 }, "value 000000000000000f 0000000000000000");
    changed(8, 31, b'8', Stop::Value { board: 1 << 63, model: 0 }, "value 8000000000000000 0000000000000000");
}

#[test]
fn a_trap_stops() {
    let mut m = machine();
    let log = rows(&mut machine(), &[0, 0, 0, 0]);
    m.state.x[0][5] = 4352;
    let trap = Trap { cause: Cause::LoadAccessFault, value: 4352 };
    assert_eq!(m.replay(&log), Ok(Replayed { rows: 0, stop: Stop::Trap(trap) }));
    assert_eq!(Stop::Trap(trap).to_string(), "trap 5 0000000000001100: load access fault");
    m.state.pc[0] = 8192;
    let log = b"0 0000000000002000 00000000 00 0000000000000000\n";
    let trap = Trap { cause: Cause::InstructionAccessFault, value: 8192 };
    assert_eq!(m.replay(log), Ok(Replayed { rows: 0, stop: Stop::Trap(trap) }));
}

#[test]
fn refusals() {
    let Machine { state, base, mem } = machine();
    let log = rows(&mut machine(), &[0, 1]);
    let refuses = |state: &State, base: u64, log: &[u8], refusal: Refusal| {
        let (mut s, mut m) = (*state, mem.clone());
        assert_eq!(replay(&mut s, base, &mut m, log), Err(refusal));
        assert!(s.to_bytes() == state.to_bytes() && m == mem);
    };
    refuses(&state, 1, &[], Refusal::Memory);
    refuses(&State::new(0), base, &log[1..], Refusal::State);
    for len in [1, 47, 49, 95] {
        refuses(&state, base, &log[..len], Refusal::LogLength);
    }
    refuses(&state, base, &[], Refusal::LogEmpty);
}
