//! settings KEEP FIRST COUNT: gives COUNT generated settings files and COUNT lists of boards to the calls of libcapi.a and to this crate, and
//! compares what they answer, tell and leave; what both read is written, and read again. FIRST is the first seed. Stops at the first difference;
//! what was given is then left in the folder KEEP.

use bench::boards::Boards;
use bench::calls::{self, board_bytes, board_of, BAD_SIZE, BOARD, BOARDS};
use bench::generate::{board_list, settings_file, Rng};
use bench::{floecavern, layout};
use std::fs;

/// What stands in a buffer before a call, so that bytes which nobody writes are compared too.
const UNTOUCHED: u8 = 0xA5;
const MOST: usize = 8 + 12 * 16;

/// One call on one side: its answer, and the two buffers that it was lent to write to.
#[derive(PartialEq, Eq)]
struct Called {
    answer: u64,
    out: Vec<u8>,
    told: Vec<u8>,
}

impl Called {
    fn shown(&self) -> String {
        format!("answer {:#x}, told {:02x?}, wrote {:02x?}\n", self.answer, self.told, self.out)
    }
}

type Call = fn(&[u8], &mut [u8], &mut [u8]) -> u64;

fn called(call: Call, given: &[u8], out: usize, told: usize) -> Called {
    let (mut out, mut told) = (vec![UNTOUCHED; out], vec![UNTOUCHED; told]);
    let answer = call(given, &mut out, &mut told);
    Called { answer, out, told }
}

/// The same of both sides. `given` is a file, or a list of boards.
fn compared(name: &str, [theirs, ours]: [Call; 2], given: &[u8], out: usize, told: usize) -> Result<Called, String> {
    let [theirs, ours] = [theirs, ours].map(|call| called(call, given, out, told));
    if theirs == ours {
        return Ok(ours);
    }
    Err(format!("{name} of {} bytes, lent {out} and {told}\nlibrary: {}bench:   {}", given.len(), theirs.shown(), ours.shown()))
}

const READ: [Call; 2] = [floecavern::read_settings, calls::read_settings];
const WRITE: [Call; 2] = [floecavern::write_settings, calls::write_settings];

/// A file read; and, if it isn't refused, what was read written and read again. Now and then buffers of lengths that are none.
fn compare_file(rng: &mut Rng, file: &[u8], boards: &mut Boards) -> Result<(), String> {
    boards.count_file(file);
    let read = compared("read_settings", READ, file, BOARDS, 16)?;
    if rng.percent(3) {
        let (out, told) =
            rng.pick(&[(0, 16), (BOARD, 16), (383, 16), (385, 16), (408, 16), (BOARDS, 0), (BOARDS, 8), (BOARDS, 15), (BOARDS, 24)]);
        expect_bad_size(compared("read_settings", READ, file, out, told)?);
        boards.count_sizes();
    }
    if read.answer != 0 {
        return Ok(());
    }
    let (format, count) = (layout::get(&read.told, 0), layout::get(&read.told, 8) as usize);
    let written = compared("write_settings", WRITE, &read.out[..BOARD * count], MOST, 8)?;
    let again = compared("read_settings", READ, &written.out[..layout::get(&written.told, 0) as usize], BOARDS, 16)?;
    if written.answer != 0 || again.answer != 0 || again.out != read.out || layout::get(&again.told, 0) != 2 {
        return Err(format!("what was read and written again is read as other boards: {}", again.shown()));
    }
    if format == 2 && written.out[..file.len()] != *file {
        return Err(format!("what was read is written as another file: {}", written.shown()));
    }
    Ok(())
}

fn expect_bad_size(called: Called) {
    assert!(called.answer == BAD_SIZE && called.out.iter().chain(&called.told).all(|&byte| byte == UNTOUCHED));
}

/// A list written; and, if it isn't refused, what was written read.
fn compare_list(rng: &mut Rng, list: &[u8], room: usize, boards: &mut Boards) -> Result<(), String> {
    boards.count_list(&list.chunks_exact(BOARD).map(board_of).collect::<Vec<_>>(), room);
    let written = compared("write_settings", WRITE, list, room, 8)?;
    if rng.percent(3) {
        let (more, told) = rng.pick(&[(1, 8), (8, 8), (23, 8), (0, 0), (0, 7), (0, 9), (0, 16)]);
        expect_bad_size(compared("write_settings", WRITE, &[list, &[0; 23][..more]].concat(), room, told)?);
        boards.count_sizes();
    }
    if written.answer != 0 {
        return Ok(());
    }
    let read = compared("read_settings", READ, &written.out[..layout::get(&written.told, 0) as usize], BOARDS, 16)?;
    if read.answer != 0 || read.out[..list.len()] != *list || layout::get(&read.told, 8) as usize != list.len() / BOARD {
        return Err(format!("what was written is read as other boards: {}", read.shown()));
    }
    Ok(())
}

fn stop(keep: &str, name: &str, given: &[u8], what: &str) -> ! {
    for (end, bytes) in [("given", given), ("txt", what.as_bytes())] {
        fs::write(format!("{keep}/{name}.{end}"), bytes).expect("KEEP is a folder");
    }
    println!("DIFFERENT: {keep}/{name}.*\n{}", what.chars().take(2000).collect::<String>());
    std::process::exit(1);
}

fn main() -> std::io::Result<()> {
    let arguments: Vec<String> = std::env::args().collect();
    let [_, keep, first, count] = &arguments[..] else {
        eprintln!("usage: settings KEEP FIRST COUNT");
        std::process::exit(2);
    };
    fs::create_dir_all(keep)?;
    let (first, count): (u64, u64) = (first.parse().expect("FIRST"), count.parse().expect("COUNT"));
    let mut boards = Boards::default();
    for seed in first..first + count {
        let rng = &mut Rng::new(seed);
        let file = settings_file(rng);
        if let Err(what) = compare_file(rng, &file, &mut boards) {
            stop(keep, &format!("settings{seed}"), &file, &what);
        }
        let (list, room) = board_list(rng);
        let list: Vec<u8> = list.into_iter().flat_map(board_bytes).collect();
        if let Err(what) = compare_list(rng, &list, room, &mut boards) {
            stop(keep, &format!("boards{seed}"), &list, &what);
        }
    }
    println!("{count} settings files and {count} lists of boards, seeds {first} to {}, all the same", first + count - 1);
    boards.print();
    Ok(())
}
