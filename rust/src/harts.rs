//! Sets of harts.

use crate::MAX_HARTS;
use std::fmt;

/// A set of harts, bit 0 for hart 0, such as [`Answer::broke`](crate::Answer::broke).
///
/// ```
/// use floecavern::Harts;
/// let harts = Harts::from_bits(0b1001);
/// assert!(harts.contains(0) && !harts.contains(1) && harts.contains(3));
/// assert_eq!(harts.iter().collect::<Vec<_>>(), [0, 3]);
/// assert_eq!(harts.to_string(), "{0, 3}");
/// assert_eq!(format!("{harts:02x}"), "09");
/// assert!(Harts::NONE.is_empty());
/// ```
#[derive(Clone, Copy, Default, PartialEq, Eq, Hash)]
pub struct Harts(u8);

const _: () = assert!(MAX_HARTS == u8::BITS as usize);

impl Harts {
    pub const NONE: Harts = Harts(0);

    /// The harts whose bits are set.
    pub const fn from_bits(bits: u8) -> Harts {
        Harts(bits)
    }

    pub const fn bits(self) -> u8 {
        self.0
    }

    /// Whether a hart is in it: false for [`MAX_HARTS`] and above.
    pub const fn contains(self, hart: usize) -> bool {
        hart < MAX_HARTS && self.0 >> hart & 1 == 1
    }

    pub const fn is_empty(self) -> bool {
        self.0 == 0
    }

    /// How many harts it has.
    pub const fn len(self) -> usize {
        self.0.count_ones() as usize
    }

    /// Its harts, the lowest first.
    pub fn iter(self) -> impl Iterator<Item = usize> {
        (0..MAX_HARTS).filter(move |&hart| self.contains(hart))
    }
}

/// As a set: `{0, 3}`.
impl fmt::Debug for Harts {
    fn fmt(&self, f: &mut fmt::Formatter) -> fmt::Result {
        f.debug_set().entries(self.iter()).finish()
    }
}

/// As a set: `{0, 3}`.
impl fmt::Display for Harts {
    fn fmt(&self, f: &mut fmt::Formatter) -> fmt::Result {
        write!(f, "{self:?}")
    }
}

/// The bits as a number: `{:02x}` gives the two digits of a report's line.
impl fmt::LowerHex for Harts {
    fn fmt(&self, f: &mut fmt::Formatter) -> fmt::Result {
        self.0.fmt(f)
    }
}
