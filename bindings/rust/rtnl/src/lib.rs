//! Reads and builds rtnetlink: what a Linux kernel says of its links, addresses, routes,
//! neighbours and rules, and what it is told.
//!
//! All of it is done by `librtnlc`, which is proved: a datagram of up to 65,536 bytes has exactly
//! one reading, or is refused with the place of its first fault. No bytes, whatever they
//! are, make a call panic, loop, or read what isn't there. This crate opens no socket: it is
//! handed what yours has received.
//!
//! - [`Tape`] checks a datagram, as of a notification, and hands out a [`Datagram`]: its messages,
//!   their attributes and next hops, without a copy.
//! - [`Session`] reads dumps into bounded tables.
//! - [`Stream`] reads dumps of any length in constant space; a [`MessageList`] keeps what it is
//!   given of them.
//! - [`Link`], [`Address`], [`Route`], [`Neighbour`] and [`Rule`] say what a message of each
//!   family says.
//! - [`Builder`] builds messages in a buffer of yours, in lists and next hops that are closed, and
//!   takes no memory. What it hands out is never malformed.
//! - [`LinkRequest`], [`AddressRequest`], [`RouteRequest`], [`NeighbourRequest`] and
//!   [`RuleRequest`] ask the kernel to change something, as ip(8) does, each by one call.
//! - [`scan`], [`check`] and [`show`] say something of a whole datagram.
//!
//! ```
//! use rtnl::{Body, Options, Order, Tape};
//!
//! // A notification of a link: its name, and an MTU of 1,500 bytes.
//! let bytes = [
//!     48, 0, 0, 0, 16, 0, 0, 0, 0, 0, 0, 0, 0, 0, 0, 0, // struct nlmsghdr
//!     0, 0, 1, 0, 2, 0, 0, 0, 1, 0, 0, 0, 0, 0, 0, 0, // struct ifinfomsg
//!     8, 0, 3, 0, b'e', b't', b'h', 0, 8, 0, 4, 0, 0xdc, 5, 0, 0,
//! ];
//! let mut tape = Tape::with_options(Options::new().order(Order::Little));
//! for message in tape.read(&bytes)? {
//!     if let Body::Link(link) = message.body() {
//!         assert_eq!(link.name().unwrap(), "eth");
//!         assert_eq!((link.index(), link.mtu(), link.master()), (2, Some(1_500), None));
//!     }
//! }
//!
//! // A byte less: no head is read past the end, and the place of the fault is told.
//! let error = tape.read(&bytes[..47]).unwrap_err();
//! assert_eq!(error.to_string(), "bad length at 0");
//! # Ok::<(), rtnl::Error>(())
//! ```
//!
//! What the kernel leaves out is [`None`], and so is a value whose bytes are fewer or more than
//! its type has: nothing is invented.

#![deny(missing_docs)]
#![deny(unsafe_op_in_unsafe_fn)]

mod attribute;
mod build_error;
mod builder;
mod checks;
pub mod constants;
mod datagram;
mod dump;
mod error;
mod family;
mod heads;
mod list;
mod names;
mod options;
mod requests;
mod session;
mod stream;
mod tape;
mod text;
mod values;
mod version;
mod views;

pub use attribute::{Attribute, Attributes, AttributesIter, NextHop, NextHops};
pub use build_error::BuildError;
pub use builder::{Builder, Header, NextHopHead};
pub use checks::{check, scan, show, Form};
pub use datagram::{Action, Body, Datagram, Message, Messages};
pub use dump::{Fed, Incomplete, Request, State, Status};
pub use error::{Error, Fault, FaultKind};
pub use family::Family;
pub use heads::{AddressHead, Head, LinkHead, NeighbourHead, RouteHead, RuleHead};
pub use list::{MessageList, MessageListIter};
pub use names::{attribute_name, type_name, Context, Name};
pub use options::{Options, Order};
pub use requests::{
    AddressRequest, Lifetimes, LinkRequest, Metric, NeighbourRequest, NextHopRequest, Operation,
    RouteRequest, RuleRequest,
};
pub use session::{Session, Table};
pub use stream::{Items, Stream};
pub use tape::{Event, Sort, Tape};
pub use values::{HardwareAddress, OperationalState, Prefix};
pub use version::{library_proved, library_version};
pub use views::{Address, Link, Neighbour, Route, Rule};

/// The example in README.md, which is tested as those of this crate.
#[cfg(doctest)]
#[doc = include_str!("../README.md")]
pub struct Readme;
