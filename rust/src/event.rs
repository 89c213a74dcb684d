//! Events, as a run takes them.

/// An event. A device writes the `size` lowest bytes of `data`, the lowest first.
#[derive(Clone, Copy, Debug, PartialEq, Eq)]
pub enum Event {
    Step { hart: u8 },
    DeviceWrite { addr: u64, size: u8, data: u64 },
    Yield { hart: u8 },
}

impl Event {
    /// The bytes of an event.
    pub const SIZE: usize = 24;

    /// The 24 bytes of an event: kind, hart, size, five zeros, address, data. Data above the size is left out, as
    /// [`device_write`](crate::device_write) leaves it out: a run refuses an event that has it.
    ///
    /// ```
    /// use floecavern::Event;
    /// assert_eq!(Event::Step { hart: 1 }.to_bytes()[..3], [1, 1, 0]);
    /// assert_eq!(Event::DeviceWrite { addr: 64, size: 1, data: 0x1234 }.to_bytes()[16..18], [0x34, 0]);
    /// ```
    pub fn to_bytes(self) -> [u8; Event::SIZE] {
        let (kind, hart, size, addr, data) = match self {
            Event::Step { hart } => (1, hart, 0, 0, 0),
            Event::DeviceWrite { addr, size: size @ 0..=7, data } => (2, 0, size, addr, data & ((1 << (8 * size)) - 1)),
            Event::DeviceWrite { addr, size, data } => (2, 0, size, addr, data),
            Event::Yield { hart } => (3, hart, 0, 0, 0),
        };
        let mut bytes = [0; Event::SIZE];
        bytes[..3].copy_from_slice(&[kind, hart, size]);
        bytes[8..16].copy_from_slice(&addr.to_le_bytes());
        bytes[16..].copy_from_slice(&data.to_le_bytes());
        bytes
    }
}
