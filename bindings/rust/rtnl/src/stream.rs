//! Dumps of any length, in constant space.

use crate::datagram::{Datagram, Message, Messages};
use crate::dump::{Fed, Request, Status};
use crate::tape::Events;
use crate::{version, Error, Family, Options, Order};
use rtnlc_sys::*;
use std::fmt;

/// Reads one dump after another, of any length, and hands out the entries of each datagram.
///
/// It is a [`Session`](crate::Session) without tables: what it takes is four bytes for each of the
/// longest datagram. An entry that comes twice is handed out twice, and what an interrupted dump
/// has handed out can't be taken back.
///
/// ```
/// use rtnl::constants::AF_UNSPEC;
/// use rtnl::{Family, Options, Order, Stream};
///
/// # fn send(_: &[u8]) {}
/// # fn receive(into: &mut [u8]) -> usize {
/// #     into[..60].copy_from_slice(&[40, 0, 0, 0, 16, 0, 2, 0, 1, 0, 0, 0, 7, 0, 0, 0,
/// #      0, 0, 1, 0, 2, 0, 0, 0, 0, 0, 0, 0, 0, 0, 0, 0, 8, 0, 3, 0, b'e', b't', b'h', 0,
/// #      20, 0, 0, 0, 3, 0, 2, 0, 1, 0, 0, 0, 7, 0, 0, 0, 0, 0, 0, 0]);
/// #     60
/// # }
/// let mut stream = Stream::new(&Options::new().order(Order::Little))?;
/// let request = stream.begin(Family::Link, AF_UNSPEC, 1, 7)?;
/// send(&request);
/// let mut buffer = [0; 65_536];
/// loop {
///     let len = receive(&mut buffer);
///     let items = stream.feed(&buffer[..len])?;
///     for link in items.messages().filter_map(|it| it.link()) {
///         assert_eq!(link.name().unwrap(), "eth");
///     }
///     if items.has_ended() {
///         break;
///     }
/// }
/// assert!(stream.status().is_complete);
/// # Ok::<(), rtnl::Error>(())
/// ```
#[derive(Clone)]
pub struct Stream {
    raw: rtnlc_stream,
    events: Events,
}

impl Stream {
    /// A stream with these limits; those of tables say nothing here.
    ///
    /// # Errors
    ///
    /// [`Error::BadLimit`] or [`Error::Version`].
    pub fn new(options: &Options) -> Result<Stream, Error> {
        version::check()?;
        let mut raw = rtnlc_stream::default();
        // SAFETY: both pointers are those of references.
        match unsafe { rtnlc_stream_new(&mut raw, &options.raw) } {
            RTNLC_OK => Ok(Stream { raw, events: Events::new() }),
            code => Err(Error::new(code, 0)),
        }
    }

    /// Begins a dump, and answers the request that is to be sent, as
    /// [`Session::begin`](crate::Session::begin).
    ///
    /// # Errors
    ///
    /// [`Error::Busy`] or [`Error::SameSequence`]: then none is begun.
    pub fn begin(
        &mut self,
        family: Family,
        address_family: u8,
        sequence: u32,
        port: u32,
    ) -> Result<Request, Error> {
        let (raw, kind) = (&mut self.raw, family.new_type());
        // SAFETY: `raw` is a reference, and `out` points to as many bytes as there is room for.
        Request::put_by(|out, room| unsafe {
            rtnlc_stream_begin(raw, kind, address_family, sequence, port, out, room)
        })
    }

    /// Takes a datagram into the dump that waits, and hands out the entries in it.
    ///
    /// # Errors
    ///
    /// [`Error::NotWaiting`], which changes nothing; [`Error::Total`], [`Error::TooLarge`] or
    /// [`Error::Broken`]: then nothing of the datagram is handed out, the dump still waits, and is
    /// damaged, which [`Status`] says from then on.
    #[inline]
    pub fn feed<'a>(&'a mut self, bytes: &'a [u8]) -> Result<Items<'a>, Error> {
        let (out, room) = self.events.cleared(bytes.len(), self.raw.datagram);
        // SAFETY: the stream is a reference and `bytes` a slice; `out` points to `room` elements
        // that nothing else points to.
        let raw =
            unsafe { rtnlc_stream_feed(&mut self.raw, bytes.as_ptr(), bytes.len(), out, room) };
        let fed = Fed::new(&raw)?;
        // SAFETY: the library has put so many events.
        unsafe { self.events.put(raw.events) };
        let order = if self.raw.big == 0 { Order::Little } else { Order::Big };
        Ok(Items { datagram: Datagram::new(bytes, self.events.as_slice(), order), fed })
    }

    /// Ends the dump that waits.
    ///
    /// # Errors
    ///
    /// [`Error::NotWaiting`].
    pub fn abandon(&mut self) -> Result<(), Error> {
        // SAFETY: the pointer is that of a reference.
        match unsafe { rtnlc_stream_abandon(&mut self.raw) } {
            RTNLC_OK => Ok(()),
            code => Err(Error::new(code, 0)),
        }
    }

    /// Where the last dump stands.
    pub fn status(&self) -> Status {
        // SAFETY: the pointer is that of a reference.
        Status::new(&unsafe { rtnlc_stream_status(&self.raw) })
    }
}

impl fmt::Debug for Stream {
    fn fmt(&self, f: &mut fmt::Formatter<'_>) -> fmt::Result {
        let status = self.status();
        f.debug_struct("Stream").field("status", &status).finish_non_exhaustive()
    }
}

/// The entries of a dump in one datagram.
#[derive(Clone, Copy, Debug)]
pub struct Items<'a> {
    datagram: Datagram<'a>,
    fed: Fed,
}

impl<'a> Items<'a> {
    /// The entries, one after another.
    #[inline]
    pub fn messages(&self) -> Messages<'a> {
        self.datagram.messages()
    }

    /// Whether the datagram has ended the dump.
    #[inline]
    pub fn has_ended(&self) -> bool {
        self.fed.has_ended
    }

    /// What else the datagram has brought.
    pub fn fed(&self) -> Fed {
        self.fed
    }
}

impl<'a> IntoIterator for Items<'a> {
    type Item = Message<'a>;
    type IntoIter = Messages<'a>;

    #[inline]
    fn into_iter(self) -> Messages<'a> {
        self.messages()
    }
}
