//! Dumps, read into bounded tables.

use crate::dump::{Fed, Request, Status};
use crate::list::{MessageList, MessageListIter};
use crate::{version, Error, Family, Message, Options, Tape};
use rtnlc_sys::*;
use std::cell::UnsafeCell;
use std::fmt;
use std::ptr::null_mut;

/// No entry is longer; those that a session keeps may have more padding than was received.
const LONGEST: u32 = 1_048_576;
/// Room for most entries; one that needs more is written twice.
const ROOM: usize = 4_096;

/// Reads one dump after another into tables, one for each family, whose size is bounded.
///
/// It opens no socket. [`begin`](Session::begin) a dump, send its request, [`feed`](Session::feed)
/// what is received until the dump has ended, and look at the [`table`](Session::table):
///
/// ```
/// use rtnl::constants::AF_UNSPEC;
/// use rtnl::{Family, Options, Order, Session};
///
/// # fn send(_: &[u8]) {}
/// # fn receive() -> [u8; 60] {
/// #     [40, 0, 0, 0, 16, 0, 2, 0, 1, 0, 0, 0, 7, 0, 0, 0,
/// #      0, 0, 1, 0, 2, 0, 0, 0, 0, 0, 0, 0, 0, 0, 0, 0, 8, 0, 3, 0, b'e', b't', b'h', 0,
/// #      20, 0, 0, 0, 3, 0, 2, 0, 1, 0, 0, 0, 7, 0, 0, 0, 0, 0, 0, 0]
/// # }
/// let mut session = Session::new(&Options::new().order(Order::Little))?;
/// let request = session.begin(Family::Link, AF_UNSPEC, 1, 7)?;
/// send(&request);
/// while !session.feed(&receive())?.has_ended {}
///
/// assert!(session.status().is_complete);
/// for message in &session.table(Family::Link)? {
///     let link = message.link().expect("an entry of links");
///     assert_eq!((link.index(), link.name().unwrap().to_str()), (2, Some("eth")));
/// }
/// # Ok::<(), rtnl::Error>(())
/// ```
///
/// A session may go from one thread to another, and is used by one at a time.
pub struct Session {
    /// A call may change it, even one that answers a question. Nobody else points to it: a session
    /// isn't shared by threads, and no call of the library calls back.
    raw: UnsafeCell<rtnlc_session>,
    options: Options,
}

// SAFETY: a session may go from one thread to another between two calls, as rtnlc.h says.
unsafe impl Send for Session {}

/// Two threads don't use a session at once:
///
/// ```compile_fail
/// fn is_shared<T: Sync>() {}
/// is_shared::<rtnl::Session>();
/// ```
#[cfg(doctest)]
struct NotShared;

impl Session {
    /// A session with these limits.
    ///
    /// # Errors
    ///
    /// [`Error::BadLimit`], [`Error::NoMemory`], [`Error::NoSeed`] or [`Error::Version`].
    pub fn new(options: &Options) -> Result<Session, Error> {
        version::check()?;
        let mut raw = rtnlc_session { at: null_mut() };
        // SAFETY: the session isn't made yet, and both pointers are those of references.
        match unsafe { rtnlc_session_new(&mut raw, &options.raw) } {
            RTNLC_OK => Ok(Session { raw: raw.into(), options: *options }),
            code => Err(Error::new(code, 0)),
        }
    }

    /// Begins a dump, and answers the request that is to be sent. The family's table is emptied;
    /// those of the other families stay.
    ///
    /// `address_family` is as [`AF_INET`](crate::constants::AF_INET), or
    /// [`AF_UNSPEC`](crate::constants::AF_UNSPEC) for all. `port` is the port id of the socket, as
    /// getsockname(2) says it: under another one all answers are ignored.
    ///
    /// # Errors
    ///
    /// [`Error::Busy`], [`Error::SameSequence`] or [`Error::NoMemory`]: then none is begun.
    pub fn begin(
        &mut self,
        family: Family,
        address_family: u8,
        sequence: u32,
        port: u32,
    ) -> Result<Request, Error> {
        let (raw, kind) = (self.raw.get_mut(), family.new_type());
        // SAFETY: the session is made, and `out` points to as many bytes as there is room for.
        Request::put_by(|out, room| unsafe {
            rtnlc_session_begin(raw, kind, address_family, sequence, port, out, room)
        })
    }

    /// Takes a datagram into the dump that waits: all of its entries, or none.
    ///
    /// # Errors
    ///
    /// [`Error::NotWaiting`], which changes nothing; [`Error::Total`], [`Error::TooLarge`],
    /// [`Error::Broken`] or [`Error::NoMemory`]: then the dump still waits, all tables are as they
    /// were, and the dump is damaged, which [`Status`] says from then on.
    pub fn feed(&mut self, bytes: &[u8]) -> Result<Fed, Error> {
        // SAFETY: the session is made, and `bytes` is a slice.
        let raw = unsafe { rtnlc_session_feed(self.raw.get_mut(), bytes.as_ptr(), bytes.len()) };
        Fed::new(&raw)
    }

    /// Ends the dump that waits; its table stays.
    ///
    /// # Errors
    ///
    /// [`Error::NotWaiting`].
    pub fn abandon(&mut self) -> Result<(), Error> {
        // SAFETY: the session is made.
        match unsafe { rtnlc_session_abandon(self.raw.get_mut()) } {
            RTNLC_OK => Ok(()),
            code => Err(Error::new(code, 0)),
        }
    }

    /// Where the last dump stands.
    pub fn status(&self) -> Status {
        // SAFETY: the session is made, and in no other call.
        Status::new(&unsafe { rtnlc_session_status(self.raw.get()) })
    }

    /// The table of a family, copied out of the session: the entries of its last dump, in the
    /// order in which each was first received.
    ///
    /// # Errors
    ///
    /// [`Error::NoMemory`], or [`Error::Unwritable`].
    pub fn table(&self, family: Family) -> Result<Table, Error> {
        // SAFETY: the session is made, and in no other call.
        let size = unsafe { rtnlc_session_table(self.raw.get(), family.new_type()) };
        let mut tape = Tape::with_options(self.options.datagram(LONGEST));
        let (mut entry, mut entries) = (Vec::with_capacity(ROOM), MessageList::new());
        for index in 0..size.count {
            self.put_entry(family, index, &mut entry)?;
            entries.extend(tape.read(&entry)?);
        }
        Ok(Table { entries, limit: size.limit as usize, missed: size.missed })
    }

    /// Puts an entry in the place of what is there: one whole message.
    fn put_entry(&self, family: Family, index: u32, to: &mut Vec<u8>) -> Result<(), Error> {
        to.clear();
        loop {
            let (raw, kind, room) = (self.raw.get(), family.new_type(), to.capacity());
            // SAFETY: the session is made, and in no other call; a vector has room for its
            // capacity.
            let put = unsafe { rtnlc_session_entry(raw, kind, index, to.as_mut_ptr(), room) };
            match put.code {
                RTNLC_OK => {
                    // SAFETY: so many bytes were put, which are at most the room.
                    unsafe { to.set_len(put.len.min(room)) };
                    return Ok(());
                }
                RTNLC_NO_ROOM if put.len > room => to.reserve(put.len),
                RTNLC_TOO_LONG | RTNLC_TOO_DEEP => return Err(Error::Unwritable),
                code => return Err(Error::new(code, 0)),
            }
        }
    }

    /// The key of an entry: bytes that two entries of a family share exactly where they are the
    /// same object. [`None`] where the table has no entry of this index.
    pub fn key(&self, family: Family, index: usize) -> Option<Vec<u8>> {
        let (raw, kind) = (self.raw.get(), family.new_type());
        let index = u32::try_from(index).ok()?;
        // SAFETY: the session is made, and in no other call; there is no room.
        let put = unsafe { rtnlc_session_key(raw, kind, index, null_mut(), 0) };
        let mut key = vec![0; put.len];
        // SAFETY: the same, and the room is that of the vector.
        let put = unsafe { rtnlc_session_key(raw, kind, index, key.as_mut_ptr(), key.len()) };
        (put.code == RTNLC_OK).then_some(key)
    }

    /// The index of the entry that has this key, as [`Table::get`] takes it. That of a link is its
    /// index in four bytes, the lowest first, whatever the order.
    pub fn find(&self, family: Family, key: &[u8]) -> Option<usize> {
        let (raw, kind) = (self.raw.get(), family.new_type());
        // SAFETY: the session is made, and in no other call; `key` is a slice.
        let found = unsafe { rtnlc_session_find(raw, kind, key.as_ptr(), key.len()) };
        (found.code == RTNLC_OK).then_some(found.index as usize)
    }
}

impl Drop for Session {
    fn drop(&mut self) {
        // SAFETY: the session is made, and this is its last call.
        unsafe { rtnlc_session_free(self.raw.get_mut()) }
    }
}

impl fmt::Debug for Session {
    fn fmt(&self, f: &mut fmt::Formatter<'_>) -> fmt::Result {
        let status = self.status();
        f.debug_struct("Session").field("status", &status).finish_non_exhaustive()
    }
}

/// The entries of a dump. It is a copy: the session it comes from can go on.
#[derive(Clone)]
pub struct Table {
    entries: MessageList,
    limit: usize,
    missed: u64,
}

impl Table {
    /// How many entries there are.
    pub fn len(&self) -> usize {
        self.entries.len()
    }

    /// Whether there are none.
    pub fn is_empty(&self) -> bool {
        self.entries.is_empty()
    }

    /// How many entries the table of the session can have.
    pub fn limit(&self) -> usize {
        self.limit
    }

    /// How often a new entry found no room in it.
    pub fn missed(&self) -> u64 {
        self.missed
    }

    /// The entry of an index from 0 on: a message of the family's `NEW` type, whose flags,
    /// sequence number and port id are 0.
    pub fn get(&self, index: usize) -> Option<Message<'_>> {
        self.entries.get(index)
    }

    /// All of them, one after another.
    pub fn iter(&self) -> MessageListIter<'_> {
        self.entries.iter()
    }
}

impl<'a> IntoIterator for &'a Table {
    type Item = Message<'a>;
    type IntoIter = MessageListIter<'a>;

    fn into_iter(self) -> MessageListIter<'a> {
        self.iter()
    }
}

impl fmt::Debug for Table {
    fn fmt(&self, f: &mut fmt::Formatter<'_>) -> fmt::Result {
        self.entries.fmt(f)
    }
}
