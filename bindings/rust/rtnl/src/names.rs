//! The names of message types and attributes in the kernel's headers.

use rtnlc_sys::*;
use std::fmt;
use std::ops::Deref;
use std::os::raw::c_char;

/// Where an attribute stands, which says what its number means.
#[derive(Clone, Copy, Debug, PartialEq, Eq, PartialOrd, Ord, Hash)]
#[non_exhaustive]
pub enum Context {
    /// Where attributes have no meaning that is known.
    None,
    /// `IFLA_*`.
    Link,
    /// `IFLA_INFO_*`, in `IFLA_LINKINFO` of a link.
    LinkInfo,
    /// `IFA_*`.
    Address,
    /// `RTA_*` of a route, and of each of its next hops.
    Route,
    /// `RTAX_*`, in `RTA_METRICS` of a route.
    Metrics,
    /// `NDA_*`.
    Neighbour,
    /// `FRA_*`.
    Rule,
}

impl Context {
    pub(crate) const fn code(self) -> u8 {
        match self {
            Context::None => RTNLC_NO_CONTEXT,
            Context::Link => RTNLC_LINK,
            Context::LinkInfo => RTNLC_LINK_INFO,
            Context::Address => RTNLC_ADDR,
            Context::Route => RTNLC_ROUTE,
            Context::Metrics => RTNLC_METRICS,
            Context::Neighbour => RTNLC_NEIGH,
            Context::Rule => RTNLC_RULE,
        }
    }

    /// Where attributes stand that are in one of this number, or in its next hops.
    pub(crate) fn inside(self, number: u16, is_nested: bool) -> Context {
        // SAFETY: any numbers are taken.
        match unsafe { rtnlc_holds(self.code(), number, is_nested) }.context {
            RTNLC_LINK_INFO => Context::LinkInfo,
            RTNLC_METRICS => Context::Metrics,
            RTNLC_ROUTE => Context::Route,
            _ => Context::None,
        }
    }
}

/// A name in the kernel's headers, as `IFLA_MTU`: a [`str`] that needs no memory.
#[derive(Clone, Copy, PartialEq, Eq, Hash)]
pub struct Name {
    bytes: [u8; RTNLC_NAME],
    len: u8,
}

impl Name {
    /// The name that the call puts where it is told, where there is one.
    fn put_by(call: impl FnOnce(*mut c_char, usize) -> rtnlc_put) -> Option<Name> {
        let mut bytes = [0; RTNLC_NAME];
        let put = call(bytes.as_mut_ptr().cast(), bytes.len());
        let len = u8::try_from(put.len).ok().filter(|_| put.code == RTNLC_OK)?;
        Some(Name { bytes, len })
    }

    /// The name.
    pub fn as_str(&self) -> &str {
        let bytes = self.bytes.get(..usize::from(self.len)).unwrap_or_default();
        std::str::from_utf8(bytes).unwrap_or_default()
    }
}

impl Deref for Name {
    type Target = str;

    fn deref(&self) -> &str {
        self.as_str()
    }
}

impl AsRef<str> for Name {
    fn as_ref(&self) -> &str {
        self
    }
}

impl PartialEq<str> for Name {
    fn eq(&self, other: &str) -> bool {
        self.as_str() == other
    }
}

impl PartialEq<&str> for Name {
    fn eq(&self, other: &&str) -> bool {
        self.as_str() == *other
    }
}

impl fmt::Display for Name {
    fn fmt(&self, f: &mut fmt::Formatter<'_>) -> fmt::Result {
        f.pad(self)
    }
}

impl fmt::Debug for Name {
    fn fmt(&self, f: &mut fmt::Formatter<'_>) -> fmt::Result {
        f.pad(self)
    }
}

/// The name of a message type in the kernel's headers, as `RTM_NEWLINK` or `NLMSG_DONE`: of the
/// five families, and of netlink itself.
///
/// ```
/// assert_eq!(rtnl::type_name(16).unwrap(), "RTM_NEWLINK");
/// assert!(rtnl::type_name(9_999).is_none());
/// ```
pub fn type_name(kind: u16) -> Option<Name> {
    // SAFETY: the pointer and the room are those of one array.
    Name::put_by(|out, room| unsafe { rtnlc_type_name(kind, out, room) })
}

/// The name of an attribute where it stands, by its number without the two flag bits.
///
/// ```
/// use rtnl::{attribute_name, Context};
///
/// assert_eq!(attribute_name(Context::Link, 4).unwrap(), "IFLA_MTU");
/// assert_eq!(attribute_name(Context::Route, 4).unwrap(), "RTA_OIF");
/// assert!(attribute_name(Context::None, 4).is_none());
/// ```
pub fn attribute_name(context: Context, number: u16) -> Option<Name> {
    // SAFETY: the pointer and the room are those of one array.
    Name::put_by(|out, room| unsafe { rtnlc_attr_name(context.code(), number, out, room) })
}
