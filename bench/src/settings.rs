//! The settings file of request 11 of document 02: its reader and its writer. "Format" is the file's own version, since a board has a version, too.

use crate::case::{refuse, u32_at, Refusal};
use crate::machine::{misaligned_allowed, set_size_allowed, version_allowed};

/// "Both versions are read; only version 2 is written."
pub const FORMAT_1: u32 = 1;
pub const FORMAT_2: u32 = 2;
/// "boards (4, 1 to 16)".
pub const MAX_BOARDS: usize = 16;
/// "version (4 bytes), boards (4 ..)", then "offset and length (4 each) of every body".
pub const HEAD: usize = 8;
pub const ENTRY: usize = 8;

/// What a body says. Any numbers may be given to the writer.
#[derive(Clone, Copy, PartialEq, Eq, Debug, Default)]
pub struct Board {
    pub set_size: u64,
    pub version: u64,
    pub misaligned: u64,
}

#[derive(Clone, PartialEq, Eq, Debug)]
pub struct Settings {
    pub format: u32,
    pub boards: Vec<Board>,
}

/// "A body is set size (2) and A version (1: 20 or 21); in version 2 one byte more".
pub fn body_length(format: u32) -> usize {
    if format == FORMAT_1 {
        3
    } else {
        4
    }
}

impl Board {
    /// What the state allows of each, a body allows: "set size (2)" by request 5, "A version (1: 20 or 21)", "0 .. 1".
    pub fn allowed(self) -> bool {
        set_size_allowed(self.set_size) && version_allowed(self.version) && misaligned_allowed(self.misaligned)
    }

    /// "A version 1 file means 4 and 6": a body without the last byte is as one where that is 0.
    fn of_body(body: &[u8]) -> Board {
        let set_size = u16::from_le_bytes([body[0], body[1]]).into();
        Board { set_size, version: body[2].into(), misaligned: body.get(3).copied().unwrap_or(0).into() }
    }

    /// A body of format 2. It is asked only where the board is allowed, so that nothing is cut off.
    fn body(self) -> [u8; 4] {
        let [low, high] = (self.set_size as u16).to_le_bytes();
        [low, high, self.version as u8, self.misaligned as u8]
    }
}

/// "Refusals, in this order: 21 shorter than 8 bytes, 22 version not 1 or 2, 21 again for boards, table or end, 23 a body's content with the first
/// bad body's start". 21 and 22 have no place there: it is 0. A body of another length than its format's is a fault of the table, where the length
/// stands.
pub fn read(file: &[u8]) -> Result<Settings, Refusal> {
    if file.len() < HEAD {
        return refuse(21, 0);
    }
    let format = u32_at(file, 0);
    if format != FORMAT_1 && format != FORMAT_2 {
        return refuse(22, 0);
    }
    let Some(bodies) = bodies(file, format) else {
        return refuse(21, 0);
    };
    let mut boards = Vec::new();
    for (start, body) in bodies {
        let board = Board::of_body(body);
        if !board.allowed() {
            return refuse(23, start);
        }
        boards.push(board);
    }
    Ok(Settings { format, boards })
}

/// Every body and its start, if boards, table and end are right: "offset and length (4 each) of every body, then the bodies without a gap to the
/// end".
fn bodies(file: &[u8], format: u32) -> Option<Vec<(usize, &[u8])>> {
    let count = u32_at(file, 4) as usize;
    if !(1..=MAX_BOARDS).contains(&count) {
        return None;
    }
    let (table, _) = file[HEAD..].split_at_checked(ENTRY * count)?;
    // Where the next body has to start.
    let mut next = HEAD + table.len();
    let mut bodies = Vec::new();
    for entry in table.chunks_exact(ENTRY) {
        let (offset, length) = (u32_at(entry, 0) as usize, u32_at(entry, 4) as usize);
        if offset != next || length != body_length(format) {
            return None;
        }
        next += length;
        bodies.push((offset, file.get(offset..next)?));
    }
    (next == file.len()).then_some(bodies)
}

/// "the writer gives 21 (also for a buffer too short) and 23 too, writing nothing": 21 for a number of boards that no file has, then for the
/// buffer; 23 has the place that the bad body would have in the file. Ok is the length of the file, which stands at the start of `out`; what is
/// behind it stays.
pub fn write(boards: &[Board], out: &mut [u8]) -> Result<usize, Refusal> {
    let first = HEAD + ENTRY * boards.len();
    let body = body_length(FORMAT_2);
    let length = first + body * boards.len();
    if !(1..=MAX_BOARDS).contains(&boards.len()) || out.len() < length {
        return refuse(21, 0);
    }
    if let Some(bad) = boards.iter().position(|board| !board.allowed()) {
        return refuse(23, first + body * bad);
    }
    let entries = (0..boards.len()).flat_map(|n| [(first + body * n) as u32, body as u32]);
    let numbers = [FORMAT_2, boards.len() as u32].into_iter().chain(entries).flat_map(u32::to_le_bytes);
    let bytes = numbers.chain(boards.iter().flat_map(|board| board.body()));
    for (place, byte) in out.iter_mut().zip(bytes) {
        *place = byte;
    }
    Ok(length)
}

#[cfg(test)]
mod tests {
    use super::*;

    fn board(set_size: u64, version: u64, misaligned: u64) -> Board {
        Board { set_size, version, misaligned }
    }

    fn refused(number: u8, place: usize) -> Result<Settings, Refusal> {
        refuse(number, place)
    }

    fn bytes(head: &[u32], bodies: &[u8]) -> Vec<u8> {
        head.iter().flat_map(|number| number.to_le_bytes()).chain(bodies.iter().copied()).collect()
    }

    #[test]
    fn both_formats() {
        let one = bytes(&[1, 2, 24, 3, 27, 3], &[16, 0, 20, 0, 16, 21]);
        let boards = vec![board(16, 20, 0), board(4096, 21, 0)];
        assert_eq!(read(&one), Ok(Settings { format: 1, boards: boards.clone() }));
        // "rewriting it means the same".
        let mut out = [0xA5; 40];
        assert_eq!(write(&boards, &mut out), Ok(32));
        assert_eq!(out[..32], bytes(&[2, 2, 24, 4, 28, 4], &[16, 0, 20, 0, 0, 16, 21, 0]));
        assert_eq!(out[32..], [0xA5; 8]);
        assert_eq!(read(&out[..32]), Ok(Settings { format: 2, boards }));
        let two = bytes(&[2, 1, 16, 4], &[8, 0, 20, 1]);
        assert_eq!(read(&two), Ok(Settings { format: 2, boards: vec![board(8, 20, 1)] }));
    }

    /// The order of the four, and the first bad body.
    #[test]
    fn order_of_refusals() {
        for length in 0..8 {
            assert_eq!(read(&vec![0xFF; length]), refused(21, 0));
        }
        for format in [0, 3, 256, 1 << 24, 2 << 8, u32::MAX] {
            assert_eq!(read(&bytes(&[format, 0], &[])), refused(22, 0));
            assert_eq!(read(&bytes(&[format, 1, 16, 4], &[8, 0, 20, 1])), refused(22, 0));
        }
        for count in [0, 2, 17, 0x2000_0001, u32::MAX] {
            assert_eq!(read(&bytes(&[2, count, 16, 4], &[0, 0, 0, 9])), refused(21, 0));
        }
        // Bad bodies under a table that is wrong, and in one that isn't.
        assert_eq!(read(&bytes(&[2, 2, 24, 4, 28, 4], &[0, 0, 20, 0, 0, 0, 21, 0, 0])), refused(21, 0));
        assert_eq!(read(&bytes(&[2, 2, 24, 4, 29, 4], &[0, 0, 20, 0, 0, 0, 21, 0])), refused(21, 0));
        assert_eq!(read(&bytes(&[2, 2, 24, 4, 28, 4], &[8, 0, 20, 0, 0, 0, 21, 0])), refused(23, 28));
        assert_eq!(read(&bytes(&[2, 2, 24, 4, 28, 4], &[8, 0, 20, 2, 0, 0, 21, 0])), refused(23, 24));
        assert_eq!(read(&bytes(&[1, 2, 24, 3, 27, 3], &[8, 0, 21, 0, 64, 21])), refused(23, 27));
    }

    /// Lengths that make up the right end, and sums that would be right modulo 2^32.
    #[test]
    fn tables() {
        assert_eq!(read(&bytes(&[1, 2, 24, 2, 26, 4], &[8, 0, 20, 8, 0, 20])), refused(21, 0));
        assert_eq!(read(&bytes(&[2, 2, 24, u32::MAX, 23, 9], &[8, 0, 20, 0, 8, 0, 20, 0])), refused(21, 0));
        assert_eq!(read(&bytes(&[2, 2, 28, 4, 24, 4], &[8, 0, 20, 0, 8, 0, 20, 0])), refused(21, 0));
        assert_eq!(read(&bytes(&[2, 2, 24, 4, 24, 4], &[8, 0, 20, 0])), refused(21, 0));
        for end in 0..20 {
            assert_eq!(read(&bytes(&[2, 1, 16, 4], &[8, 0, 20, 0])[..end]), refused(21, 0));
        }
    }

    /// Numbers of more than a body holds are bad and never cut; nothing is written.
    #[test]
    fn refused_writes() {
        let good = board(64, 21, 0);
        let bad = [
            board(65_536 + 64, 21, 0),
            board(64, 256 + 21, 0),
            board(64, 21, 256),
            board(64, 21, 2),
            board(64, 22, 0),
            board(0, 21, 0),
            board(64, 21, 1 << 63),
            board((1 << 32) + 64, 20, 1),
        ];
        let write_to = |boards: &[Board], room: usize| {
            let mut out = vec![0xA5; room];
            let written = write(boards, &mut out);
            assert!(written.is_ok() || out.iter().all(|&byte| byte == 0xA5));
            written
        };
        for bad in bad {
            assert_eq!(write_to(&[good, bad, bad], 100), refuse(23, 8 + 24 + 4));
            // A buffer too short comes first, and so does a number of boards.
            assert_eq!(write_to(&[good, bad, bad], 43), refuse(21, 0));
            assert_eq!(write_to(&[bad; 17], 1000), refuse(21, 0));
        }
        assert_eq!(write_to(&[], 1000), refuse(21, 0));
        assert_eq!((write_to(&[good; 16], 200), write_to(&[good; 16], 199)), (Ok(200), refuse(21, 0)));
        assert_eq!((write_to(&[good], 20), write_to(&[good], 19), write_to(&[good], 0)), (Ok(20), refuse(21, 0), refuse(21, 0)));
    }
}
