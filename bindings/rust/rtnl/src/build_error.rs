//! Why something was not built.

use crate::error::words_of;
use rtnlc_sys::*;
use std::fmt;

/// Why a call of a [`Builder`](crate::Builder) was refused, and no byte of its buffer was changed;
/// or why a request was, as [`Error::Build`](crate::Error::Build).
#[derive(Clone, Copy, Debug, PartialEq, Eq, Hash)]
#[non_exhaustive]
pub enum BuildError {
    /// The head is not that of its message type, or the message type is none of `NEW`, `DEL` and
    /// `SET`; a whole message is of these, or shorter than its type says; bytes were put for an
    /// attribute that holds others, or one of bytes was opened; next hops stand here, or don't; or
    /// the weight of a next hop is not from 1 to 256. Of a request: the number of a metric is
    /// 16,384 or more.
    Mismatch,
    /// The attribute has more than 65,531 bytes, or, where it holds others, than 65,532; or a
    /// whole message has more than 1,048,576.
    TooLong,
    /// The attribute opens a level above [`Options::depth`](crate::Options::depth).
    TooDeep,
    /// The datagram would be above [`Options::datagram`](crate::Options::datagram); a request
    /// above 65,536 bytes.
    TooLarge,
    /// The buffer has less room.
    NoRoom,
    /// Nothing is open that could be closed, or into which could be put.
    NothingOpen,
    /// Something is still open in what should end, or before the next message.
    StillOpen,
    /// Another code of `rtnlc.h`, which no call of this crate should give.
    Other(u8),
}

impl BuildError {
    /// What a call has answered.
    #[inline]
    pub(crate) fn of(code: u8) -> Result<(), BuildError> {
        if code == RTNLC_OK {
            Ok(())
        } else {
            Err(BuildError::new(code))
        }
    }

    /// The error of a code that isn't [`RTNLC_OK`].
    #[cold]
    fn new(code: u8) -> BuildError {
        match code {
            RTNLC_MISMATCH => BuildError::Mismatch,
            RTNLC_TOO_LONG => BuildError::TooLong,
            RTNLC_TOO_DEEP => BuildError::TooDeep,
            RTNLC_TOO_LARGE => BuildError::TooLarge,
            RTNLC_NO_ROOM => BuildError::NoRoom,
            RTNLC_NOTHING_OPEN => BuildError::NothingOpen,
            RTNLC_STILL_OPEN => BuildError::StillOpen,
            other => BuildError::Other(other),
        }
    }

    /// Its number in `rtnlc.h`.
    pub fn code(&self) -> u8 {
        match self {
            BuildError::Mismatch => RTNLC_MISMATCH,
            BuildError::TooLong => RTNLC_TOO_LONG,
            BuildError::TooDeep => RTNLC_TOO_DEEP,
            BuildError::TooLarge => RTNLC_TOO_LARGE,
            BuildError::NoRoom => RTNLC_NO_ROOM,
            BuildError::NothingOpen => RTNLC_NOTHING_OPEN,
            BuildError::StillOpen => RTNLC_STILL_OPEN,
            BuildError::Other(code) => *code,
        }
    }
}

/// In a few words, as `no room`.
impl fmt::Display for BuildError {
    fn fmt(&self, f: &mut fmt::Formatter<'_>) -> fmt::Result {
        f.pad(words_of(self.code()))
    }
}

impl std::error::Error for BuildError {}
