//! Why something was not done.

use crate::BuildError;
use rtnlc_sys::*;
use std::ffi::CStr;
use std::fmt;

/// A rule that the head of a message, an attribute or a next hop breaks.
#[derive(Clone, Copy, Debug, PartialEq, Eq, PartialOrd, Ord, Hash)]
#[non_exhaustive]
pub enum FaultKind {
    /// Fewer bytes are left than a head has.
    Cut,
    /// A length is below its head's size, or above the bytes that are left.
    BadLength,
    /// A message is shorter than the head of its type.
    ShortBody,
    /// An attribute that holds others has more than 65,532 bytes.
    TooLong,
    /// An attribute that holds others opens a level above
    /// [`Options::depth`](crate::Options::depth).
    TooDeep,
}

impl FaultKind {
    /// Its number in `rtnlc.h`.
    pub fn code(self) -> u8 {
        match self {
            FaultKind::Cut => RTNLC_CUT,
            FaultKind::BadLength => RTNLC_BAD_LENGTH,
            FaultKind::ShortBody => RTNLC_SHORT_BODY,
            FaultKind::TooLong => RTNLC_TOO_LONG,
            FaultKind::TooDeep => RTNLC_TOO_DEEP,
        }
    }
}

/// In a few words, as `bad length`.
impl fmt::Display for FaultKind {
    fn fmt(&self, f: &mut fmt::Formatter<'_>) -> fmt::Result {
        f.pad(words_of(self.code()))
    }
}

/// The first head of a datagram that breaks a rule: no head before it breaks one.
#[derive(Clone, Copy, Debug, PartialEq, Eq, PartialOrd, Ord, Hash)]
pub struct Fault {
    /// The rule that it breaks.
    pub kind: FaultKind,
    /// Where it stands, in bytes from the front of the datagram.
    pub place: usize,
}

/// As `bad length at 40`.
impl fmt::Display for Fault {
    fn fmt(&self, f: &mut fmt::Formatter<'_>) -> fmt::Result {
        write!(f, "{} at {}", self.kind, self.place)
    }
}

/// Why a call of this crate didn't do what it was asked for.
#[derive(Clone, Copy, Debug, PartialEq, Eq, Hash)]
#[non_exhaustive]
pub enum Error {
    /// The datagram is malformed: a part was lost, or it isn't rtnetlink, or of the other byte
    /// order. Nothing of it was taken.
    Broken(Fault),
    /// The datagram is above [`Options::datagram`](crate::Options::datagram); nothing of it was
    /// looked at.
    TooLarge,
    /// All datagrams would be above [`Options::total`](crate::Options::total); nothing of this one
    /// was looked at.
    Total,
    /// No dump waits for its answers.
    NotWaiting,
    /// A dump still waits for its answers.
    Busy,
    /// The sequence number is that of the dump before: take another one.
    SameSequence,
    /// One of the [`Options`](crate::Options) is out of its range; nothing was done.
    BadLimit,
    /// The library was refused memory.
    NoMemory,
    /// The kernel gave no random bytes for the hash of a session's tables.
    NoSeed,
    /// The entry of a table can't be written as a message, which none of a dump has been seen to
    /// be.
    Unwritable,
    /// A request, as a [`LinkRequest`](crate::LinkRequest), was not put into its buffer, and why.
    Build(BuildError),
    /// The library that is linked is not of the version that this crate is made for.
    Version,
    /// Another code of `rtnlc.h`, which no call of this crate should give.
    Other(u8),
}

impl Error {
    /// The error of a code that isn't [`RTNLC_OK`].
    #[cold]
    pub(crate) fn new(code: u8, place: u32) -> Error {
        let broken = |kind| Error::Broken(Fault { kind, place: place as usize });
        match code {
            RTNLC_CUT => broken(FaultKind::Cut),
            RTNLC_BAD_LENGTH => broken(FaultKind::BadLength),
            RTNLC_SHORT_BODY => broken(FaultKind::ShortBody),
            RTNLC_TOO_LONG => broken(FaultKind::TooLong),
            RTNLC_TOO_DEEP => broken(FaultKind::TooDeep),
            RTNLC_TOO_LARGE => Error::TooLarge,
            RTNLC_TOTAL => Error::Total,
            RTNLC_NOT_WAITING => Error::NotWaiting,
            RTNLC_BUSY => Error::Busy,
            RTNLC_SAME_SEQ => Error::SameSequence,
            RTNLC_MISMATCH => Error::Unwritable,
            RTNLC_BAD_LIMIT => Error::BadLimit,
            RTNLC_NO_MEMORY => Error::NoMemory,
            RTNLC_NO_SEED => Error::NoSeed,
            other => Error::Other(other),
        }
    }

    /// Its number in `rtnlc.h`; of [`Error::Version`] there is none.
    pub fn code(&self) -> Option<u8> {
        Some(match self {
            Error::Broken(fault) => fault.kind.code(),
            Error::TooLarge => RTNLC_TOO_LARGE,
            Error::Total => RTNLC_TOTAL,
            Error::NotWaiting => RTNLC_NOT_WAITING,
            Error::Busy => RTNLC_BUSY,
            Error::SameSequence => RTNLC_SAME_SEQ,
            Error::BadLimit => RTNLC_BAD_LIMIT,
            Error::NoMemory => RTNLC_NO_MEMORY,
            Error::NoSeed => RTNLC_NO_SEED,
            Error::Unwritable => RTNLC_MISMATCH,
            Error::Build(error) => error.code(),
            Error::Version => return None,
            Error::Other(code) => *code,
        })
    }

    /// Which head breaks which rule, where the datagram is malformed.
    pub fn fault(&self) -> Option<Fault> {
        match self {
            Error::Broken(fault) => Some(*fault),
            _ => None,
        }
    }
}

/// Of a request that was not put.
impl From<BuildError> for Error {
    fn from(error: BuildError) -> Error {
        Error::Build(error)
    }
}

/// In a few words, as `bad length at 40` or `not waiting`; of [`Error::Version`] also how the
/// library is installed.
impl fmt::Display for Error {
    fn fmt(&self, f: &mut fmt::Formatter<'_>) -> fmt::Result {
        match self {
            Error::Broken(fault) => fault.fmt(f),
            other => match other.code() {
                Some(code) => f.pad(words_of(code)),
                None => crate::version::fmt_mismatch(f),
            },
        }
    }
}

impl std::error::Error for Error {}

/// What the library says of a code.
pub(crate) fn words_of(code: u8) -> &'static str {
    // SAFETY: the library answers a string that is always there and never null.
    let words = unsafe { CStr::from_ptr(rtnlc_code_name(code)) };
    words.to_str().unwrap_or("unknown")
}
