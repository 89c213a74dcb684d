//! What boards are set to, and settings files, which keep it. `include/floecavern.h` has their bytes.

use crate::calls::{bad_size, refusal, BAD_SIZE, REFUSED};
use crate::raw::{floecavern_read_settings, floecavern_write_settings};
use crate::{RefusedAt, A_2_1, MISALIGNED_4_AND_6, SET_SIZE};

/// The most boards that a settings file has.
pub const MAX_BOARDS: usize = 16;

/// The bytes of the longest settings file.
pub const SETTINGS_ROOM: usize = 200;

/// What a board is set to: how many bytes the set of a reservation has, the version of A, and what a misaligned LR, SC, AMO or
/// AMOCAS gives. The kind of the core isn't among it: every case says its own. The default is that of a state.
#[repr(C)]
#[derive(Clone, Copy, Debug, PartialEq, Eq, Hash)]
pub struct Board {
    pub set_size: u64,
    pub version: u64,
    pub misaligned: u64,
}

const BOARD_SIZE: usize = 24;
const _: () = assert!(std::mem::size_of::<Board>() == BOARD_SIZE);

impl Default for Board {
    fn default() -> Board {
        Board { set_size: SET_SIZE, version: A_2_1, misaligned: MISALIGNED_4_AND_6 }
    }
}

/// A settings file: its format, 1 or 2, and its boards, 1 to 16. The boards of a file of format 1 have
/// [`MISALIGNED_4_AND_6`].
#[derive(Clone, Debug, PartialEq, Eq)]
pub struct SettingsFile {
    pub format: u64,
    pub boards: Vec<Board>,
}

/// Reads a settings file, whatever the bytes are. Refusals 21, 22, 21 again and 23, in this order; the place of 23 is where the
/// first bad board's body starts, that of the others 0.
///
/// ```
/// use floecavern::{read_settings, Board, Refusal, RefusedAt, A_2_0, MISALIGNED_4_AND_6};
/// // Format 1, one board: its body of 3 bytes stands at 16. The set has 128 bytes, the version is 2.0.
/// let mut file = vec![1, 0, 0, 0, 1, 0, 0, 0, 16, 0, 0, 0, 3, 0, 0, 0, 128, 0, 20];
/// let read = read_settings(&file)?;
/// assert_eq!(read.format, 1);
/// assert_eq!(read.boards, [Board { set_size: 128, version: A_2_0, misaligned: MISALIGNED_4_AND_6 }]);
/// file[18] = 22;
/// assert_eq!(read_settings(&file), Err(RefusedAt { refusal: Refusal::SettingsBoard, place: 16 }));
/// # Ok::<(), RefusedAt>(())
/// ```
pub fn read_settings(file: &[u8]) -> Result<SettingsFile, RefusedAt> {
    let mut boards = [Board { set_size: 0, version: 0, misaligned: 0 }; MAX_BOARDS];
    let mut told = [0; 16];
    let (out, out_len) = (boards.as_mut_ptr() as *mut u8, MAX_BOARDS * BOARD_SIZE);
    // SAFETY: all pointers come from buffers of these lengths that do not overlap, and any bytes are boards.
    let r = unsafe { floecavern_read_settings(file.as_ptr(), file.len(), out, out_len, told.as_mut_ptr(), told.len()) };
    let number = |at: usize| u64::from_le_bytes(std::array::from_fn(|i| told[at + i]));
    match r {
        0 => Ok(SettingsFile { format: number(0), boards: boards[..number(8) as usize].to_vec() }),
        BAD_SIZE => bad_size(),
        r => Err(RefusedAt { refusal: refusal(r - REFUSED), place: number(0) as usize }),
    }
}

/// The settings file of these boards, of format 2. Refusals 21, if there are none or more than 16, and 23, whose place is where
/// the body of the first bad board would start.
///
/// ```
/// use floecavern::{read_settings, write_settings, Board, Refusal, RefusedAt, MISALIGNED_5_AND_7};
/// let boards = [Board::default(), Board { set_size: 4096, misaligned: MISALIGNED_5_AND_7, ..Board::default() }];
/// let file = write_settings(&boards)?;
/// assert_eq!(file.len(), 8 + 12 * 2);
/// assert_eq!(read_settings(&file)?.boards, boards);
/// let bad = Board { set_size: 24, ..Board::default() };
/// assert_eq!(write_settings(&[boards[0], bad]), Err(RefusedAt { refusal: Refusal::SettingsBoard, place: 28 }));
/// assert_eq!(write_settings(&[]), Err(RefusedAt { refusal: Refusal::SettingsTable, place: 0 }));
/// # Ok::<(), RefusedAt>(())
/// ```
pub fn write_settings(boards: &[Board]) -> Result<Vec<u8>, RefusedAt> {
    let mut out = vec![0; SETTINGS_ROOM];
    let mut told = [0; 8];
    let (given, len) = (boards.as_ptr() as *const u8, std::mem::size_of_val(boards));
    // SAFETY: all pointers come from buffers of these lengths that do not overlap.
    let r =
        unsafe { floecavern_write_settings(given, len, out.as_mut_ptr(), out.len(), told.as_mut_ptr(), told.len()) };
    let number = u64::from_le_bytes(told) as usize;
    match r {
        0 => {
            out.truncate(number);
            Ok(out)
        }
        BAD_SIZE => bad_size(),
        r => Err(RefusedAt { refusal: refusal(r - REFUSED), place: number }),
    }
}
