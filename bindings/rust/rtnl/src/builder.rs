//! Datagrams that are built in a buffer of the caller's.

use crate::constants::{AF_INET, AF_INET6};
use crate::heads::Head;
use crate::{version, BuildError, Error, Options};
use rtnlc_sys::*;
use std::ffi::OsStr;
use std::fmt;
use std::marker::PhantomData;
use std::net::IpAddr;
use std::os::unix::ffi::OsStrExt;

/// What the header of a message says, `struct nlmsghdr`, but for its length.
#[derive(Clone, Copy, Debug, Default, PartialEq, Eq, Hash)]
pub struct Header {
    /// As `RTM_NEWROUTE`.
    pub message_type: u16,
    /// `NLM_F_*`.
    pub flags: u16,
    /// A number by which the answer is known.
    pub sequence: u32,
    /// The port id of the sender's socket, or 0.
    pub port: u32,
}

/// What a next hop begins with, `struct rtnexthop`, but for its length.
#[derive(Clone, Copy, Debug, PartialEq, Eq, Hash)]
pub struct NextHopHead {
    /// `RTNH_F_*`.
    pub flags: u8,
    /// Its share of the packets beside the others, as `weight` of ip(8): from 1, the default, to
    /// 256. The kernel's field, `rtnh_hops`, has one less.
    pub weight: u16,
    /// The index of the interface, or 0.
    pub index: u32,
}

impl NextHopHead {
    /// `rtnh_hops`; a weight that is out of its range is refused.
    pub(crate) fn hops(&self) -> Result<u8, BuildError> {
        let hops = self.weight.checked_sub(1).and_then(|it| it.try_into().ok());
        hops.ok_or(BuildError::Mismatch)
    }
}

/// With the weight 1, no flag and no interface.
impl Default for NextHopHead {
    fn default() -> NextHopHead {
        NextHopHead { flags: 0, weight: 1, index: 0 }
    }
}

/// Builds messages in a buffer, without any other memory.
///
/// What it hands out is never malformed: it is within the limits, and is read again as exactly
/// what was put. The first refusal sticks: each call behind it answers it again and does nothing,
/// so the errors before [`finish`](Builder::finish) may be let go.
///
/// ```
/// use rtnl::constants::*;
/// use rtnl::{Builder, Header, NextHopHead, Options, Order, Prefix, RouteHead};
/// use std::net::Ipv4Addr;
///
/// // ip route add 10.9.0.0/16 nexthop via 192.0.2.254 nexthop via 198.51.100.254 weight 10
/// let to = Prefix { address: Ipv4Addr::new(10, 9, 0, 0).into(), len: 16 };
/// let header = Header {
///     message_type: RTM_NEWROUTE,
///     flags: NLM_F_REQUEST | NLM_F_ACK | NLM_F_CREATE | NLM_F_EXCL,
///     sequence: 1,
///     port: 0,
/// };
/// let (table, protocol) = (RT_TABLE_MAIN as u8, RTPROT_BOOT);
/// let head = RouteHead { table, protocol, route_type: RTN_UNICAST, ..RouteHead::to(to) };
///
/// let mut buffer = [0; 256];
/// let mut builder = Builder::new(&Options::new(), &mut buffer)?;
/// builder.message(&header, &head, |route| {
///     route.put_address(RTA_DST, to.address)?;
///     route.list(RTA_MULTIPATH, |hops| {
///         hops.next_hop(&NextHopHead::default(), |hop| {
///             hop.put_address(RTA_GATEWAY, Ipv4Addr::new(192, 0, 2, 254))
///         })?;
///         hops.next_hop(&NextHopHead { weight: 10, ..NextHopHead::default() }, |hop| {
///             hop.put_address(RTA_GATEWAY, Ipv4Addr::new(198, 51, 100, 254))
///         })
///     })
/// })?;
/// assert_eq!(builder.finish()?.len(), 72);
/// # Ok::<(), Box<dyn std::error::Error>>(())
/// ```
///
/// Attributes are put by their number, with [`NLA_F_NESTED`](crate::constants::NLA_F_NESTED) and
/// [`NLA_F_NET_BYTEORDER`](crate::constants::NLA_F_NET_BYTEORDER) where they are meant; neither
/// changes the bytes.
pub struct Builder<'a> {
    raw: rtnlc_builder,
    options: Options,
    buffer: PhantomData<&'a mut [u8]>,
}

// SAFETY: it is numbers, and a buffer that nothing else points to and that only calls with the
// builder alone write to.
unsafe impl Send for Builder<'_> {}
// SAFETY: as above.
unsafe impl Sync for Builder<'_> {}

impl<'a> Builder<'a> {
    /// A builder over a buffer, which has built nothing yet; of the limits those of a datagram
    /// and of its depth count.
    ///
    /// # Errors
    ///
    /// [`Error::BadLimit`] or [`Error::Version`].
    pub fn new(options: &Options, buffer: &'a mut [u8]) -> Result<Builder<'a>, Error> {
        version::check()?;
        let (out, room) = (buffer.as_mut_ptr(), buffer.len());
        let raw = rtnlc_builder { out, room, built: NOTHING };
        let mut builder = Builder { raw, options: *options, buffer: PhantomData };
        match builder.made() {
            RTNLC_OK => Ok(builder),
            code => Err(Error::new(code, 0)),
        }
    }

    /// Begins again, in the same buffer and without a refusal: what was built is gone.
    pub fn clear(&mut self) {
        // The limits were taken before, so they are again.
        self.made();
    }

    fn made(&mut self) -> u8 {
        let (out, room) = (self.raw.out, self.raw.room);
        // SAFETY: `out` points to `room` bytes that are borrowed for as long as the builder is.
        unsafe { rtnlc_builder_new(&mut self.raw, &self.options.raw, out, room) }
    }

    /// Begins a message with its family's head. [`message`](Builder::message) also ends it.
    ///
    /// # Errors
    ///
    /// [`BuildError::StillOpen`] where a message is open; [`BuildError::Mismatch`];
    /// [`BuildError::NoRoom`]; [`BuildError::TooLarge`]; before these, as of all calls, the first
    /// refusal.
    pub fn begin(&mut self, header: &Header, head: &impl Head) -> Result<(), BuildError> {
        let Header { message_type: kind, flags, sequence, port } = *header;
        let bytes = head.bytes(self.options.byte_order());
        let (from, len) = (bytes.as_slice().as_ptr().cast(), bytes.as_slice().len());
        // SAFETY: the builder's buffer is borrowed, and the head is a slice.
        BuildError::of(unsafe {
            rtnlc_builder_begin(&mut self.raw, kind, flags, sequence, port, from, len)
        })
    }

    /// A whole message, with what the function puts into it. Where that fails the message is
    /// still open, and so it is where the function fails though nothing was refused.
    ///
    /// # Errors
    ///
    /// That of the function, or those of [`begin`](Builder::begin) and [`end`](Builder::end).
    pub fn message(
        &mut self,
        header: &Header,
        head: &impl Head,
        put: impl FnOnce(&mut Self) -> Result<(), BuildError>,
    ) -> Result<(), BuildError> {
        self.begin(header, head)?;
        put(self)?;
        self.end()
    }

    /// Puts an attribute that holds these bytes.
    ///
    /// # Errors
    ///
    /// [`BuildError::NothingOpen`] where no message is open; [`BuildError::Mismatch`] where next
    /// hops stand, or for an attribute that holds others; [`BuildError::TooLong`];
    /// [`BuildError::NoRoom`]; [`BuildError::TooLarge`]. So it is of all that put.
    pub fn put(&mut self, number: u16, bytes: &[u8]) -> Result<(), BuildError> {
        let (from, len) = (bytes.as_ptr().cast(), bytes.len());
        // SAFETY: the builder's buffer is borrowed, and the bytes are a slice.
        BuildError::of(unsafe { rtnlc_builder_put(&mut self.raw, number, from, len) })
    }

    /// Puts an attribute that holds a text, and behind it a zero byte.
    ///
    /// # Errors
    ///
    /// Those of [`put`](Builder::put).
    pub fn put_text(&mut self, number: u16, text: impl AsRef<OsStr>) -> Result<(), BuildError> {
        let bytes = text.as_ref().as_bytes();
        let (from, len) = (bytes.as_ptr().cast(), bytes.len());
        // SAFETY: the builder's buffer is borrowed, and the text is a slice.
        BuildError::of(unsafe { rtnlc_builder_put_text(&mut self.raw, number, from, len) })
    }

    /// Puts an attribute that holds an address: four bytes, or sixteen.
    ///
    /// # Errors
    ///
    /// Those of [`put`](Builder::put).
    pub fn put_address(
        &mut self,
        number: u16,
        address: impl Into<IpAddr>,
    ) -> Result<(), BuildError> {
        match address.into() {
            IpAddr::V4(it) => self.put(number, &it.octets()),
            IpAddr::V6(it) => self.put(number, &it.octets()),
        }
    }

    /// Puts an attribute that holds an address behind its address family, as `RTA_VIA`.
    ///
    /// # Errors
    ///
    /// Those of [`put`](Builder::put).
    pub fn put_via(&mut self, number: u16, address: impl Into<IpAddr>) -> Result<(), BuildError> {
        let order = self.options.byte_order();
        let mut bytes = [0; 18];
        let (family, octets) = bytes.split_at_mut(2);
        match address.into() {
            IpAddr::V4(it) => {
                family.copy_from_slice(&order.bytes_of_u16(AF_INET.into()));
                octets[..4].copy_from_slice(&it.octets());
                self.put(number, &bytes[..6])
            }
            IpAddr::V6(it) => {
                family.copy_from_slice(&order.bytes_of_u16(AF_INET6.into()));
                octets.copy_from_slice(&it.octets());
                self.put(number, &bytes)
            }
        }
    }

    /// Opens an attribute that holds attributes, or next hops: what is put next stands in it.
    /// [`list`](Builder::list) also closes it.
    ///
    /// # Errors
    ///
    /// [`BuildError::NothingOpen`]; [`BuildError::Mismatch`] where next hops stand, or for an
    /// attribute that holds bytes; [`BuildError::TooDeep`]; [`BuildError::NoRoom`];
    /// [`BuildError::TooLarge`].
    pub fn open(&mut self, number: u16) -> Result<(), BuildError> {
        // SAFETY: the builder's buffer is borrowed.
        BuildError::of(unsafe { rtnlc_builder_open(&mut self.raw, number) })
    }

    /// An attribute that holds attributes, or next hops, with what the function puts into it.
    /// Where that fails it is still open.
    ///
    /// # Errors
    ///
    /// That of the function, or those of [`open`](Builder::open) and [`close`](Builder::close).
    pub fn list(
        &mut self,
        number: u16,
        put: impl FnOnce(&mut Self) -> Result<(), BuildError>,
    ) -> Result<(), BuildError> {
        self.open(number)?;
        put(self)?;
        self.close()
    }

    /// Opens a next hop, in `RTA_MULTIPATH`; attributes of routes stand in it.
    /// [`next_hop`](Builder::next_hop) also closes it.
    ///
    /// # Errors
    ///
    /// [`BuildError::Mismatch`] where the weight is not from 1 to 256, or no next hops stand;
    /// [`BuildError::NothingOpen`]; [`BuildError::NoRoom`]; [`BuildError::TooLarge`].
    pub fn open_next_hop(&mut self, head: &NextHopHead) -> Result<(), BuildError> {
        BuildError::of(self.raw.built.refusal)?;
        let hops = head.hops().map_err(|refusal| {
            // It sticks as those of the library do.
            self.raw.built.refusal = refusal.code();
            refusal
        })?;
        // In C the index has a sign; its bits are the same.
        let index = head.index as i32;
        // SAFETY: the builder's buffer is borrowed.
        BuildError::of(unsafe { rtnlc_builder_open_hop(&mut self.raw, head.flags, hops, index) })
    }

    /// A next hop, with what the function puts into it. Where that fails it is still open.
    ///
    /// # Errors
    ///
    /// That of the function, or those of [`open_next_hop`](Builder::open_next_hop) and
    /// [`close`](Builder::close).
    pub fn next_hop(
        &mut self,
        head: &NextHopHead,
        put: impl FnOnce(&mut Self) -> Result<(), BuildError>,
    ) -> Result<(), BuildError> {
        self.open_next_hop(head)?;
        put(self)?;
        self.close()
    }

    /// Closes the attribute or the next hop that was opened last. It needs no room.
    ///
    /// # Errors
    ///
    /// [`BuildError::NothingOpen`]; [`BuildError::TooLong`] for more than 65,532 bytes.
    pub fn close(&mut self) -> Result<(), BuildError> {
        // SAFETY: the builder's buffer is borrowed.
        BuildError::of(unsafe { rtnlc_builder_close(&mut self.raw) })
    }

    /// Ends the message. It needs no room.
    ///
    /// # Errors
    ///
    /// [`BuildError::NothingOpen`]; [`BuildError::StillOpen`] where an attribute or a next hop is.
    pub fn end(&mut self) -> Result<(), BuildError> {
        // SAFETY: the builder's buffer is borrowed.
        BuildError::of(unsafe { rtnlc_builder_end(&mut self.raw) })
    }

    /// Puts a whole message of no family, whose body is these bytes: one of netlink itself, as
    /// `NLMSG_DONE`, of a type that isn't known here, or a `GET`.
    ///
    /// # Errors
    ///
    /// [`BuildError::StillOpen`] where a message is open; [`BuildError::Mismatch`] for `NEW`,
    /// `DEL` and `SET` of a family, and for a body that is shorter than its type says, 20 bytes of
    /// `NLMSG_ERROR` and one of a `GET`; [`BuildError::TooLong`] for a message of more than
    /// 1,048,576 bytes; [`BuildError::NoRoom`]; [`BuildError::TooLarge`].
    pub fn put_message(&mut self, header: &Header, body: &[u8]) -> Result<(), BuildError> {
        let Header { message_type: kind, flags, sequence, port } = *header;
        let (from, len) = (body.as_ptr().cast(), body.len());
        // SAFETY: the builder's buffer is borrowed, and the body is a slice.
        BuildError::of(unsafe {
            rtnlc_builder_message(&mut self.raw, kind, flags, sequence, port, from, len)
        })
    }

    /// The datagram: all messages. It changes nothing, and more messages may come behind.
    ///
    /// # Errors
    ///
    /// The first refusal; [`BuildError::StillOpen`] where a message is open.
    pub fn finish(&self) -> Result<&[u8], BuildError> {
        // SAFETY: the builder's buffer is borrowed.
        let put = unsafe { rtnlc_builder_finish(&self.raw) };
        BuildError::of(put.code)?;
        // SAFETY: so many bytes at `out` are the buffer's, which nothing writes to meanwhile.
        Ok(unsafe { std::slice::from_raw_parts(self.raw.out, put.len.min(self.raw.room)) })
    }
}

/// Puts numbers, each by its own call of the library.
macro_rules! put_numbers {
    ($($name:ident $call:ident $kind:ty: $what:literal;)*) => {
        impl Builder<'_> {$(
            #[doc = concat!("Puts an attribute that holds a number of ", $what, ".")]
            ///
            /// # Errors
            ///
            /// Those of [`put`](Builder::put).
            pub fn $name(&mut self, number: u16, value: $kind) -> Result<(), BuildError> {
                // SAFETY: the builder's buffer is borrowed.
                BuildError::of(unsafe { $call(&mut self.raw, number, value) })
            }
        )*}
    };
}

put_numbers! {
    put_u8 rtnlc_builder_put_u8 u8: "one byte";
    put_u16 rtnlc_builder_put_u16 u16: "two bytes, in the order of the options";
    put_u32 rtnlc_builder_put_u32 u32: "four bytes, in the order of the options";
    put_u64 rtnlc_builder_put_u64 u64: "eight bytes, in the order of the options";
    put_be16 rtnlc_builder_put_be16 u16: "two bytes, the highest first";
    put_be32 rtnlc_builder_put_be32 u32: "four bytes, the highest first";
    put_be64 rtnlc_builder_put_be64 u64: "eight bytes, the highest first";
}

/// Nothing is built. The library fills it.
const NOTHING: rtnlc_built = rtnlc_built {
    total: 0,
    entries: 0,
    datagram: 0,
    len: 0,
    starts: [0; 33],
    contents: [0; 33],
    count: 0,
    depth: 0,
    big: 0,
    refusal: 0,
};

impl fmt::Debug for Builder<'_> {
    fn fmt(&self, f: &mut fmt::Formatter<'_>) -> fmt::Result {
        let (len, open) = (self.raw.built.len, self.raw.built.count);
        let refusal = BuildError::of(self.raw.built.refusal).err();
        f.debug_struct("Builder")
            .field("room", &self.raw.room)
            .field("len", &len)
            .field("open", &open)
            .field("refusal", &refusal)
            .finish_non_exhaustive()
    }
}
