//! The heads of a datagram, found in one pass.

use crate::{version, Datagram, Error, Options};
use rtnlc_sys::*;
use std::fmt;

/// What a head is.
#[derive(Clone, Copy, Debug, PartialEq, Eq, PartialOrd, Ord, Hash)]
#[non_exhaustive]
pub enum Sort {
    /// `struct nlmsghdr`.
    Message,
    /// An attribute that holds bytes.
    Bytes,
    /// An attribute that holds attributes.
    List,
    /// `RTA_MULTIPATH` of a route: an attribute that holds next hops.
    NextHops,
    /// `struct rtnexthop`.
    NextHop,
}

/// Where a head of a datagram stands, and what it is.
#[repr(transparent)]
#[derive(Clone, Copy, PartialEq, Eq, Hash)]
pub struct Event(pub(crate) rtnlc_event);

impl Event {
    /// Where the head stands, in bytes from the front of the datagram.
    #[inline]
    pub fn place(&self) -> usize {
        self.0.place as usize
    }

    /// How many bytes stand behind the head, without padding.
    #[inline]
    pub fn payload_len(&self) -> usize {
        self.0.len as usize
    }

    /// A message's type; an attribute's number, without its two flag bits; 0 of a next hop.
    #[inline]
    pub fn number(&self) -> u16 {
        self.0.number
    }

    /// 0 for messages and for the attributes of their bodies; one more in each that holds others.
    #[inline]
    pub fn level(&self) -> u8 {
        self.0.level
    }

    /// What the head is.
    #[inline]
    pub fn sort(&self) -> Sort {
        match self.0.sort {
            RTNLC_MESSAGE => Sort::Message,
            RTNLC_LIST => Sort::List,
            RTNLC_HOPS => Sort::NextHops,
            RTNLC_NEXT_HOP => Sort::NextHop,
            _ => Sort::Bytes,
        }
    }

    /// Whether an attribute has the flag `NLA_F_NESTED`.
    #[inline]
    pub fn is_nested(&self) -> bool {
        self.0.nested
    }

    /// Whether an attribute has the flag `NLA_F_NET_BYTEORDER`.
    #[inline]
    pub fn is_network_order(&self) -> bool {
        self.0.net
    }

    /// Counts its place from this one on, which isn't behind it.
    #[inline]
    pub(crate) fn count_from(&mut self, place: usize) {
        self.0.place = self.0.place.wrapping_sub(place as u32);
    }

    /// Where what stands behind the head begins, and where it ends.
    #[inline]
    pub(crate) fn behind(&self, head: usize) -> std::ops::Range<usize> {
        let begin = self.place() + head;
        begin..begin + self.payload_len()
    }
}

impl fmt::Debug for Event {
    fn fmt(&self, f: &mut fmt::Formatter<'_>) -> fmt::Result {
        f.debug_struct("Event")
            .field("place", &self.place())
            .field("payload_len", &self.payload_len())
            .field("number", &self.number())
            .field("level", &self.level())
            .field("sort", &self.sort())
            .field("is_nested", &self.is_nested())
            .field("is_network_order", &self.is_network_order())
            .finish()
    }
}

/// Reads datagrams, one after another: it checks each, and keeps where its heads stand.
///
/// A tape is made once and used for all datagrams of a socket. It takes memory where a datagram is
/// longer than all before it, four bytes for each of the datagram's, and none otherwise.
///
/// ```
/// use rtnl::{Fault, FaultKind, Options, Order, Tape};
///
/// let mut tape = Tape::with_options(Options::new().order(Order::Little));
/// // The end of a dump, and a message of which 4 bytes are missing.
/// let done = [20, 0, 0, 0, 3, 0, 2, 0, 1, 0, 0, 0, 0, 0, 0, 0, 0, 0, 0, 0];
/// assert_eq!(tape.read(&done)?.messages().count(), 1);
/// let error = tape.read(&done[..16]).unwrap_err();
/// assert_eq!(error.fault(), Some(Fault { kind: FaultKind::BadLength, place: 0 }));
/// # Ok::<(), rtnl::Error>(())
/// ```
#[derive(Clone, Debug, Default)]
pub struct Tape {
    options: Options,
    events: Events,
    visits: u64,
}

impl Tape {
    /// A tape with the standard limits, for datagrams of this machine.
    pub const fn new() -> Tape {
        Tape::with_options(Options::new())
    }

    /// A tape with these limits.
    pub const fn with_options(options: Options) -> Tape {
        Tape { options, events: Events::new(), visits: 0 }
    }

    /// Checks a datagram, and says what stands in it.
    ///
    /// # Errors
    ///
    /// [`Error::Broken`], [`Error::TooLarge`], [`Error::BadLimit`] or [`Error::Version`]. Behind
    /// [`Error::Broken`] the tape has the heads before the fault, and behind the others none.
    #[inline]
    pub fn read<'a>(&'a mut self, bytes: &'a [u8]) -> Result<Datagram<'a>, Error> {
        version::check()?;
        let (out, room) = self.events.cleared(bytes.len(), self.options.raw.datagram);
        // SAFETY: `bytes` is a slice; `out` points to `room` elements that nothing else points to.
        let taped =
            unsafe { rtnlc_tape(bytes.as_ptr(), bytes.len(), &self.options.raw, out, room) };
        // SAFETY: the library has put as many events as there are, or as there is room for.
        unsafe { self.events.put(taped.count) };
        self.visits = taped.visits;
        if taped.code != RTNLC_OK {
            return Err(Error::new(taped.code, taped.place));
        }
        Ok(Datagram::new(bytes, self.events.as_slice(), self.options.byte_order()))
    }

    /// The heads of the last datagram, in the order in which they stand there: each message, and
    /// behind it the heads in it. Where it was refused those before the fault, and that of an
    /// attribute which is too long or too deep itself.
    pub fn events(&self) -> &[Event] {
        self.events.as_slice()
    }

    /// How many bytes of attributes were visited in the last datagram: at most the depth limit
    /// plus one times its length.
    pub fn visits(&self) -> u64 {
        self.visits
    }
}

/// Room for the events of a datagram, which is used again for the next.
#[derive(Clone, Debug, Default)]
pub(crate) struct Events(Vec<Event>);

impl Events {
    pub(crate) const fn new() -> Events {
        Events(Vec::new())
    }

    /// Room for the events of a datagram of this length: a quarter as many as it has bytes, which
    /// is always enough. Of one above the limit there are none.
    #[inline]
    pub(crate) fn cleared(&mut self, len: usize, limit: u32) -> (*mut rtnlc_event, usize) {
        self.0.clear();
        self.0.reserve(len.min(limit as usize) / 4);
        // An event is a `rtnlc_event`, and laid out as it.
        (self.0.as_mut_ptr().cast(), self.0.capacity())
    }

    /// Takes the events that were put, which are so many, or as many as there was room for.
    ///
    /// # Safety
    ///
    /// So many events stand where `cleared` has pointed.
    #[inline]
    pub(crate) unsafe fn put(&mut self, count: usize) {
        // SAFETY: the caller says so, and so many fit.
        unsafe { self.0.set_len(count.min(self.0.capacity())) }
    }

    #[inline]
    pub(crate) fn as_slice(&self) -> &[Event] {
        &self.0
    }
}
