//! Requests that change something, each put by one call of the library.

mod address;
mod link;
mod neighbour;
mod route;
mod rule;

pub use address::{AddressRequest, Lifetimes};
pub use link::LinkRequest;
pub use neighbour::NeighbourRequest;
pub use route::{Metric, NextHopRequest, RouteRequest};
pub use rule::RuleRequest;

use crate::constants::AF_UNSPEC;
use crate::heads::family_of;
use crate::{version, BuildError, Error, Prefix};
use rtnlc_sys::*;
use std::ffi::OsStr;
use std::net::IpAddr;
use std::os::unix::ffi::OsStrExt;
use std::ptr;

/// What a request asks for, in the words of ip(8).
///
/// Each has `NLM_F_REQUEST` and `NLM_F_ACK`, so the kernel answers it by `NLMSG_ERROR`: with an
/// error, or with the code 0, which acknowledges it.
#[derive(Clone, Copy, Debug, PartialEq, Eq, PartialOrd, Ord, Hash)]
#[non_exhaustive]
#[repr(u8)]
pub enum Operation {
    /// It is made, and refused where it is there: `NEW`, `NLM_F_CREATE` and `NLM_F_EXCL`.
    Add = RTNLC_ADD,
    /// It is made, or put in the place of what is there: `NEW`, `NLM_F_CREATE` and
    /// `NLM_F_REPLACE`.
    Replace = RTNLC_REPLACE,
    /// It is put in the place of what is there: `NEW` and `NLM_F_REPLACE`. Links take
    /// [`Operation::Set`].
    Change = RTNLC_CHANGE,
    /// It is made behind those that are there: `NEW`, `NLM_F_CREATE` and `NLM_F_APPEND`. Of
    /// routes, and of a bridge's entries.
    Append = RTNLC_APPEND,
    /// It is made before those that are there: `NEW` and `NLM_F_CREATE`. Of routes.
    Prepend = RTNLC_PREPEND,
    /// Fields of what is there are set: `NEW` alone. Of links.
    Set = RTNLC_SET,
    /// It is taken away: `DEL`.
    Delete = RTNLC_DELETE,
}

/// The call that puts a request, by its name in C.
macro_rules! put {
    ($name:ident, $call:ident) => {
        impl $name<'_> {
            /// Puts the request at the front of a buffer, and answers its bytes: one message of
            /// this sequence number and of port id 0, with what is there in an order and with
            /// the bytes in which ip(8) sends it. It takes no memory.
            ///
            /// Several requests in one datagram stand one behind another: each is put into
            /// `&mut buffer[len..]`, where `len` is the sum of the lengths of those before it,
            /// which are multiples of four.
            ///
            /// What the kernel would refuse is put as it is: an address of another family than
            /// the request's, a prefix that is too long, an operation that its family doesn't
            /// know.
            ///
            /// # Errors
            ///
            /// [`Error::Build`](crate::Error::Build), and the front of the buffer may hold a part
            /// of the message, while the rest is as it was:
            /// [`BuildError::TooLong`](crate::BuildError::TooLong) where a name or bytes need an
            /// attribute of more than 65,535 bytes with its head;
            /// [`BuildError::Mismatch`](crate::BuildError::Mismatch) for the number of a metric
            /// that is 16,384 or more; [`BuildError::NoRoom`](crate::BuildError::NoRoom);
            /// [`BuildError::TooLarge`](crate::BuildError::TooLarge) for a message of more than
            /// 65,536 bytes. [`Error::Version`](crate::Error::Version), and nothing was written.
            pub fn put<'b>(
                &self,
                operation: $crate::Operation,
                sequence: u32,
                order: $crate::Order,
                buffer: &'b mut [u8],
            ) -> Result<&'b [u8], $crate::Error> {
                let (operation, is_big) = (operation as u8, order == $crate::Order::Big);
                $crate::requests::put_by(buffer, |out, room| {
                    self.with_raw(|raw| {
                        // SAFETY: what `raw` points to is borrowed until the call is over, and
                        // the buffer is a slice.
                        unsafe { rtnlc_sys::$call(raw, operation, sequence, is_big, out, room) }
                    })
                })
            }
        }
    };
}
pub(crate) use put;

/// The bytes that a call has put at the front of a buffer.
fn put_by(
    buffer: &mut [u8],
    call: impl FnOnce(*mut u8, usize) -> rtnlc_put,
) -> Result<&[u8], Error> {
    version::check()?;
    let put = call(buffer.as_mut_ptr(), buffer.len());
    BuildError::of(put.code)?;
    Ok(buffer.get(..put.len).unwrap_or_default())
}

/// The address family that is said; where that is `AF_UNSPEC`, it is that of the first address that
/// is there, or else another one, since the kernel refuses a request of `AF_UNSPEC`.
fn family_or(said: u8, addresses: impl IntoIterator<Item = Option<IpAddr>>, other: u8) -> u8 {
    match said {
        AF_UNSPEC => addresses.into_iter().flatten().next().map_or(other, family_of),
        said => said,
    }
}

/// The bytes of an address in network order, or none.
struct Octets {
    bytes: [u8; 16],
    len: u8,
}

impl Octets {
    fn of(address: Option<IpAddr>) -> Octets {
        let mut bytes = [0; 16];
        let len = match address {
            None => 0,
            Some(IpAddr::V4(it)) => {
                bytes[..4].copy_from_slice(&it.octets());
                4
            }
            Some(IpAddr::V6(it)) => {
                bytes = it.octets();
                16
            }
        };
        Octets { bytes, len }
    }

    fn of_prefix(prefix: Option<Prefix>) -> Octets {
        Octets::of(address_of(prefix))
    }

    /// What C is told, for as long as these are borrowed.
    fn raw(&self) -> rtnlc_bytes {
        rtnlc_bytes { at: self.bytes.as_ptr().cast(), len: self.len.into() }
    }
}

/// The address of a prefix.
fn address_of(prefix: Option<Prefix>) -> Option<IpAddr> {
    prefix.map(|it| it.address)
}

/// How many bits of a prefix count.
fn len_of(prefix: Option<Prefix>) -> u8 {
    prefix.map_or(0, |it| it.len)
}

/// What C is told of bytes, for as long as they are borrowed.
fn raw_bytes(bytes: Option<&[u8]>) -> rtnlc_bytes {
    let none = rtnlc_bytes { at: ptr::null(), len: 0 };
    bytes.map_or(none, |it| rtnlc_bytes { at: it.as_ptr().cast(), len: it.len() })
}

/// What C is told of a text, for as long as it is borrowed.
fn raw_text(text: Option<&OsStr>) -> rtnlc_bytes {
    raw_bytes(text.map(OsStrExt::as_bytes))
}
