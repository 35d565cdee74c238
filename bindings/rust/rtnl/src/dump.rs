//! The request of a dump, and where a dump stands.

use crate::{Error, Family};
use rtnlc_sys::*;
use std::fmt;
use std::io;
use std::ops::Deref;

/// The bytes of the request of a dump, which go into the socket as they are.
#[derive(Clone, Copy, PartialEq, Eq, Hash)]
pub struct Request {
    bytes: [u8; RTNLC_REQUEST],
    len: u8,
}

impl Request {
    /// The request that the call puts where it is told.
    pub(crate) fn put_by(
        call: impl FnOnce(*mut u8, usize) -> rtnlc_put,
    ) -> Result<Request, Error> {
        let mut bytes = [0; RTNLC_REQUEST];
        let put = call(bytes.as_mut_ptr(), bytes.len());
        match u8::try_from(put.len) {
            Ok(len) if put.code == RTNLC_OK => Ok(Request { bytes, len }),
            _ => Err(Error::new(put.code, 0)),
        }
    }

    /// The bytes.
    pub fn as_bytes(&self) -> &[u8] {
        self.bytes.get(..usize::from(self.len)).unwrap_or_default()
    }
}

impl Deref for Request {
    type Target = [u8];

    fn deref(&self) -> &[u8] {
        self.as_bytes()
    }
}

impl AsRef<[u8]> for Request {
    fn as_ref(&self) -> &[u8] {
        self
    }
}

impl fmt::Debug for Request {
    fn fmt(&self, f: &mut fmt::Formatter<'_>) -> fmt::Result {
        f.debug_tuple("Request").field(&self.as_bytes()).finish()
    }
}

/// Where the last dump of a session or a stream stands.
#[derive(Clone, Copy, Debug, PartialEq, Eq, PartialOrd, Ord, Hash)]
#[non_exhaustive]
pub enum State {
    /// No dump was begun.
    Idle,
    /// It waits for its answers.
    Waiting,
    /// It has ended by `NLMSG_DONE`.
    Done,
    /// It has ended by `NLMSG_ERROR`.
    Failed,
    /// It has ended by `NLMSG_OVERRUN`.
    Overrun,
    /// The caller has ended it.
    Abandoned,
}

/// What is known of the last dump of a session or a stream.
#[derive(Clone, Copy, Debug, PartialEq, Eq, Hash)]
#[non_exhaustive]
pub struct Status {
    /// Where it stands.
    pub state: State,
    /// What it is of; before the first dump [`None`].
    pub family: Option<Family>,
    /// The address family that it has asked for.
    pub address_family: u8,
    /// Its sequence number.
    pub sequence: u32,
    /// Its port id.
    pub port: u32,
    /// Of `NLMSG_DONE`, 0 where it has none; or the code of `NLMSG_ERROR`, a negative errno.
    pub status: i32,
    /// Bytes of all datagrams that were looked at since the session or the stream was made.
    pub received: u64,
    /// Bytes of attributes that were visited in them: at most the depth limit plus one times those
    /// received.
    pub visits: u64,
    /// Messages of this dump that were neither entries nor its end.
    pub ignored: u64,
    /// Whether a datagram of this dump was refused.
    pub is_damaged: bool,
    /// Whether the kernel's table has changed meanwhile: dump again, under another number.
    pub is_interrupted: bool,
    /// Whether it has ended with no failure, nothing of it was lost, it wasn't interrupted, and
    /// the table of a session missed no entry.
    pub is_complete: bool,
}

impl Status {
    pub(crate) fn new(raw: &rtnlc_status) -> Status {
        let state = match raw.state {
            RTNLC_WAITING => State::Waiting,
            RTNLC_DONE => State::Done,
            RTNLC_FAILED => State::Failed,
            RTNLC_OVERRUN => State::Overrun,
            RTNLC_ABANDONED => State::Abandoned,
            _ => State::Idle,
        };
        Status {
            state,
            family: Family::of(raw.kind),
            address_family: raw.family,
            sequence: raw.seq,
            port: raw.port,
            status: raw.status,
            received: raw.received,
            visits: raw.visits,
            ignored: raw.ignored,
            is_damaged: raw.damaged,
            is_interrupted: raw.interrupted,
            is_complete: raw.complete,
        }
    }

    /// Whether the dump is complete, and where it isn't the first reason that applies.
    ///
    /// # Errors
    ///
    /// [`Incomplete`], in the order of its variants.
    pub fn outcome(&self) -> Result<(), Incomplete> {
        Err(match self.state {
            _ if self.is_complete => return Ok(()),
            State::Idle | State::Waiting => Incomplete::Waiting,
            State::Abandoned => Incomplete::Abandoned,
            State::Failed => Incomplete::Refused(self.status.wrapping_neg()),
            State::Done if self.status < 0 => Incomplete::Refused(self.status.wrapping_neg()),
            State::Overrun => Incomplete::Overrun,
            State::Done if self.is_damaged => Incomplete::Damaged,
            State::Done if self.is_interrupted => Incomplete::Interrupted,
            State::Done => Incomplete::Missed,
        })
    }
}

/// Why a dump isn't complete.
#[derive(Clone, Copy, Debug, PartialEq, Eq, Hash)]
#[non_exhaustive]
pub enum Incomplete {
    /// It still waits for its answers, or none was begun.
    Waiting,
    /// The caller has ended it.
    Abandoned,
    /// The kernel has refused it with this errno, by `NLMSG_ERROR` or by a negative status of
    /// `NLMSG_DONE`.
    Refused(i32),
    /// The kernel has lost messages of it, by `NLMSG_OVERRUN`.
    Overrun,
    /// One of its datagrams was refused.
    Damaged,
    /// The kernel's table has changed meanwhile: dump again, under another sequence number.
    Interrupted,
    /// The table of the session has missed an entry, for which it had no room.
    Missed,
}

/// In a few words; of [`Incomplete::Refused`] those of the system.
impl fmt::Display for Incomplete {
    fn fmt(&self, f: &mut fmt::Formatter<'_>) -> fmt::Result {
        f.write_str(match self {
            Incomplete::Waiting => "the dump has not ended",
            Incomplete::Abandoned => "abandoned",
            Incomplete::Refused(code) => return io::Error::from_raw_os_error(*code).fmt(f),
            Incomplete::Overrun => "overrun",
            Incomplete::Damaged => "a datagram was refused",
            Incomplete::Interrupted => "interrupted",
            Incomplete::Missed => "more entries than the table has room for",
        })
    }
}

impl std::error::Error for Incomplete {}

/// What a datagram has brought to a dump.
#[derive(Clone, Copy, Debug, PartialEq, Eq, Hash)]
#[non_exhaustive]
pub struct Fed {
    /// Messages that are entries of the dump, those too that a table missed.
    pub items: u32,
    /// Messages that are neither that nor its end, as those of another dump.
    pub ignored: u32,
    /// Whether one of them has ended the dump.
    pub has_ended: bool,
}

impl Fed {
    pub(crate) fn new(raw: &rtnlc_fed) -> Result<Fed, Error> {
        if raw.code != RTNLC_OK {
            return Err(Error::new(raw.code, raw.place));
        }
        Ok(Fed { items: raw.items, ignored: raw.ignored, has_ended: raw.ended })
    }
}
