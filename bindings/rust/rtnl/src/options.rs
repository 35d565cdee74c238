//! Limits, and the order of bytes.

use rtnlc_sys::*;

/// Which byte of a number comes first.
#[derive(Clone, Copy, Debug, PartialEq, Eq, PartialOrd, Ord, Hash)]
pub enum Order {
    /// The lowest, as on x86-64 and on most arm64.
    Little,
    /// The highest, as on s390x.
    Big,
}

impl Order {
    /// That of this machine, in which its kernel writes.
    pub const NATIVE: Order = if cfg!(target_endian = "big") { Order::Big } else { Order::Little };

    pub(crate) fn u16(self, bytes: [u8; 2]) -> u16 {
        match self {
            Order::Little => u16::from_le_bytes(bytes),
            Order::Big => u16::from_be_bytes(bytes),
        }
    }

    pub(crate) fn u32(self, bytes: [u8; 4]) -> u32 {
        match self {
            Order::Little => u32::from_le_bytes(bytes),
            Order::Big => u32::from_be_bytes(bytes),
        }
    }

    pub(crate) fn bytes_of_u16(self, number: u16) -> [u8; 2] {
        match self {
            Order::Little => number.to_le_bytes(),
            Order::Big => number.to_be_bytes(),
        }
    }

    pub(crate) fn bytes_of_u32(self, number: u32) -> [u8; 4] {
        match self {
            Order::Little => number.to_le_bytes(),
            Order::Big => number.to_be_bytes(),
        }
    }

    pub(crate) fn u64(self, bytes: [u8; 8]) -> u64 {
        match self {
            Order::Little => u64::from_le_bytes(bytes),
            Order::Big => u64::from_be_bytes(bytes),
        }
    }
}

/// That of this machine.
impl Default for Order {
    fn default() -> Order {
        Order::NATIVE
    }
}

/// The limits of a reading or a building, and the order of its numbers. A limit that is out of its
/// range is answered by [`Error::BadLimit`](crate::Error::BadLimit) where the options are used.
///
/// ```
/// use rtnl::{Options, Order, Session};
///
/// let options = Options::new().entries(65_536).order(Order::Little);
/// let session = Session::new(&options)?;
/// # assert_eq!(Session::new(&options.depth(33)).err(), Some(rtnl::Error::BadLimit));
/// # Ok::<(), rtnl::Error>(())
/// ```
#[derive(Clone, Copy, Debug, PartialEq, Eq, Hash)]
pub struct Options {
    pub(crate) raw: rtnlc_options,
}

impl Options {
    /// The standard limits, and the order of this machine.
    pub const fn new() -> Options {
        Options {
            raw: rtnlc_options {
                total: RTNLC_STANDARD_TOTAL,
                datagram: RTNLC_STANDARD_DATAGRAM,
                entries: RTNLC_STANDARD_ENTRIES,
                depth: RTNLC_STANDARD_DEPTH,
                big: matches!(Order::NATIVE, Order::Big),
                seed: [0; 16],
            },
        }
    }

    /// Bytes of all datagrams of a session or a stream at most: 0 to 2^40. It is 2^30 where
    /// nothing is said.
    #[must_use]
    pub const fn total(mut self, bytes: u64) -> Options {
        self.raw.total = bytes;
        self
    }

    /// Bytes of a datagram at most: a multiple of 4 from 16 to 1,048,576. It is 65,536 where
    /// nothing is said.
    #[must_use]
    pub const fn datagram(mut self, bytes: u32) -> Options {
        self.raw.datagram = bytes;
        self
    }

    /// Entries of each table of a session at most: 0 to 65,536. It is 4,096 where nothing is said.
    #[must_use]
    pub const fn entries(mut self, count: u32) -> Options {
        self.raw.entries = count;
        self
    }

    /// Levels that attributes which hold others may open at most: 0 to 32. It is 8 where nothing
    /// is said.
    #[must_use]
    pub const fn depth(mut self, levels: u8) -> Options {
        self.raw.depth = levels;
        self
    }

    /// The order of numbers.
    #[must_use]
    pub const fn order(mut self, order: Order) -> Options {
        self.raw.big = matches!(order, Order::Big);
        self
    }

    pub(crate) fn byte_order(&self) -> Order {
        if self.raw.big {
            Order::Big
        } else {
            Order::Little
        }
    }
}

impl Default for Options {
    fn default() -> Options {
        Options::new()
    }
}
