//! Declarations of `librtnlc`, a proved reader and builder of rtnetlink datagrams: `rtnlc.h`
//! in Rust, under the names that it has there. The header says of each call what it takes,
//! what it answers and what is left behind an error; the crate `rtnl` is the same without
//! `unsafe`.
//!
//! The library is found by pkg-config, or in the folder that `RTNLC_LIB_DIR` names; with
//! `RTNLC_STATIC=1` it is linked statically.
//!
//! ```
//! use std::ptr::null;
//!
//! // A message whose length says that it has 20 bytes, of which 16 are here.
//! let bytes = [0x14, 0, 0, 0, 3, 0, 2, 0, 1, 0, 0, 0, 0, 0, 0, 0];
//! // SAFETY: the pointer and the length are those of one slice; null stands for the standard
//! // limits.
//! let scanned = unsafe { rtnlc_sys::rtnlc_scan(bytes.as_ptr(), bytes.len(), null()) };
//! assert_eq!(scanned.code, rtnlc_sys::RTNLC_BAD_LENGTH);
//! assert_eq!(scanned.place, 0);
//! ```

#![allow(non_camel_case_types)]
#![deny(missing_docs)]

mod structs;

pub use structs::*;

use std::os::raw::{c_char, c_void};

/// The version of the header that is declared here.
pub const RTNLC_VERSION: &str = "0.3.0";

/// What programs are linked with: the first two numbers of the version, as one.
pub const RTNLC_ABI: u32 = 3;
/// No call needs more bytes of the stack.
pub const RTNLC_STACK: usize = 32_768;
/// Room for any request.
pub const RTNLC_REQUEST: usize = 32;
/// Room for any name of a message type or an attribute.
pub const RTNLC_NAME: usize = 32;

/// Done.
pub const RTNLC_OK: u8 = 0;
/// Fewer bytes are left than a head has.
pub const RTNLC_CUT: u8 = 1;
/// A length is below its head's size, or above the bytes that are left.
pub const RTNLC_BAD_LENGTH: u8 = 2;
/// A message is shorter than the head of its type.
pub const RTNLC_SHORT_BODY: u8 = 3;
/// A container has more than 65,532 bytes; built, an attribute of bytes more than 65,535.
pub const RTNLC_TOO_LONG: u8 = 4;
/// A container opens a level above the depth limit.
pub const RTNLC_TOO_DEEP: u8 = 5;
/// The datagram is above the datagram limit; nothing was looked at.
pub const RTNLC_TOO_LARGE: u8 = 6;
/// All datagrams would be above the total limit; nothing was looked at.
pub const RTNLC_TOTAL: u8 = 7;
/// No dump waits for its answers.
pub const RTNLC_NOT_WAITING: u8 = 8;
/// A dump waits for its answers, or the session or the mirror is made already.
pub const RTNLC_BUSY: u8 = 9;
/// The sequence number is that of the dump before; of a mirror, it isn't above that of each before.
pub const RTNLC_SAME_SEQ: u8 = 10;
/// A value is of another kind than its attribute holds, or a head is not that of its message type.
pub const RTNLC_MISMATCH: u8 = 11;
/// One of the options is out of its range; nothing was looked at.
pub const RTNLC_BAD_LIMIT: u8 = 12;
/// An allocation was refused.
pub const RTNLC_NO_MEMORY: u8 = 13;
/// The buffer has less room than the answer needs, which is told.
pub const RTNLC_NO_ROOM: u8 = 17;
/// Null, or what no call leaves in a [`rtnlc_stream`].
pub const RTNLC_NO_STREAM: u8 = 18;
/// The message type is of no family that is dumped.
pub const RTNLC_NO_KIND: u8 = 19;
/// Null, or a session that was never made, or is freed.
pub const RTNLC_NO_SESSION: u8 = 20;
/// Nothing is open that could be closed, or into which could be put.
pub const RTNLC_NOTHING_OPEN: u8 = 21;
/// Something is still open in what should end, or before the next.
pub const RTNLC_STILL_OPEN: u8 = 22;
/// Null, or what no call leaves in a [`rtnlc_builder`].
pub const RTNLC_NO_BUILDER: u8 = 23;
/// No random bytes are had for the hash of a session's tables.
pub const RTNLC_NO_SEED: u8 = 24;
/// Null, or a mirror that was never made, or is freed.
pub const RTNLC_NO_MIRROR: u8 = 25;
/// Nothing more stands there.
pub const RTNLC_END: u8 = 255;

/// `struct nlmsghdr`.
pub const RTNLC_MESSAGE: u8 = 0;
/// An attribute that holds bytes.
pub const RTNLC_BYTES: u8 = 1;
/// An attribute that holds attributes.
pub const RTNLC_LIST: u8 = 2;
/// `RTA_MULTIPATH` of a route: an attribute that holds next hops.
pub const RTNLC_HOPS: u8 = 3;
/// `struct rtnexthop`.
pub const RTNLC_NEXT_HOP: u8 = 4;

/// No context.
pub const RTNLC_NO_CONTEXT: u8 = 0;
/// `IFLA_*`.
pub const RTNLC_LINK: u8 = 1;
/// `IFLA_INFO_*` in `IFLA_LINKINFO` of a link.
pub const RTNLC_LINK_INFO: u8 = 2;
/// `IFA_*`.
pub const RTNLC_ADDR: u8 = 3;
/// `RTA_*` of a route, and of each of its next hops.
pub const RTNLC_ROUTE: u8 = 4;
/// `RTAX_*` in `RTA_METRICS` of a route.
pub const RTNLC_METRICS: u8 = 5;
/// `NDA_*`.
pub const RTNLC_NEIGH: u8 = 6;
/// `FRA_*`.
pub const RTNLC_RULE: u8 = 7;
/// Any other list.
pub const RTNLC_PLAIN: u8 = 8;
/// Next hops, in [`rtnlc_built`] alone.
pub const RTNLC_HOPS_BEHIND: u8 = 9;

/// A table of a mirror doesn't differ from the kernel's.
pub const RTNLC_CURRENT: u8 = 0;
/// No dump of it was whole yet, of the address family asked for last.
pub const RTNLC_NEVER_DUMPED: u8 = 1;
/// The kernel dropped messages: `ENOBUFS`, or `NLMSG_OVERRUN`.
pub const RTNLC_LOST: u8 = 2;
/// A datagram was refused.
pub const RTNLC_REFUSED: u8 = 3;
/// There was no memory for what was heard.
pub const RTNLC_SHORT: u8 = 4;
/// More changes came while a dump ran than may wait for its end.
pub const RTNLC_TOO_MANY_WAIT: u8 = 5;
/// The kernel takes routes of IPv4 away with a link or an address, and tells nobody.
pub const RTNLC_SILENT: u8 = 6;
/// A route was replaced, joined or taken from others, and the message doesn't say which.
pub const RTNLC_UNNAMED: u8 = 7;
/// The table had no room for an entry.
pub const RTNLC_FULL: u8 = 8;

/// A message makes nothing of a table.
pub const RTNLC_NOTHING: u8 = 0;
/// The entry is new, and stands last.
pub const RTNLC_ADDED: u8 = 1;
/// The entry was told anew.
pub const RTNLC_CHANGED: u8 = 2;
/// The entry is gone, and the last one stands in its place.
pub const RTNLC_REMOVED: u8 = 3;
/// A dump of the table runs: the change waits for its end.
pub const RTNLC_WAITS: u8 = 4;

/// No dump was begun.
pub const RTNLC_IDLE: u8 = 0;
/// The last dump waits for its answers.
pub const RTNLC_WAITING: u8 = 1;
/// It has ended by DONE.
pub const RTNLC_DONE: u8 = 2;
/// By ERROR, whose code is not 0.
pub const RTNLC_FAILED: u8 = 3;
/// By OVERRUN.
pub const RTNLC_OVERRUN: u8 = 4;
/// By the caller.
pub const RTNLC_ABANDONED: u8 = 5;

/// Made, and refused where it is there.
pub const RTNLC_ADD: u8 = 0;
/// Made, or put in the place of what is there.
pub const RTNLC_REPLACE: u8 = 1;
/// Put in the place of what is there.
pub const RTNLC_CHANGE: u8 = 2;
/// Made behind those that are there: of routes.
pub const RTNLC_APPEND: u8 = 3;
/// Made before those that are there: of routes.
pub const RTNLC_PREPEND: u8 = 4;
/// Fields of what is there are set: of links.
pub const RTNLC_SET: u8 = 5;
/// Taken away.
pub const RTNLC_DELETE: u8 = 6;

/// Bytes of all datagrams of a session or a stream at most, where no options are handed in.
pub const RTNLC_STANDARD_TOTAL: u64 = 1_073_741_824;
/// Bytes of a datagram at most.
pub const RTNLC_STANDARD_DATAGRAM: u32 = 65_536;
/// Entries of each table of a session at most.
pub const RTNLC_STANDARD_ENTRIES: u32 = 4_096;
/// Levels that containers may open at most.
pub const RTNLC_STANDARD_DEPTH: u8 = 8;

extern "C" {
    /// Checks every head of a datagram, and keeps nothing.
    pub fn rtnlc_scan(
        bytes: *const u8,
        len: usize,
        options: *const rtnlc_options,
    ) -> rtnlc_scanned;

    /// The head that breaks a rule at the first fault, and what it says of itself.
    pub fn rtnlc_broken(
        bytes: *const u8,
        len: usize,
        options: *const rtnlc_options,
    ) -> rtnlc_broken_head;

    /// As [`rtnlc_scan`], and puts an event for each head into `out`, as far as it has room.
    pub fn rtnlc_tape(
        bytes: *const u8,
        len: usize,
        options: *const rtnlc_options,
        out: *mut rtnlc_event,
        room: usize,
    ) -> rtnlc_taped;

    /// The message that stands at an offset of a datagram.
    pub fn rtnlc_message_at(bytes: *const u8, len: usize, place: u32, big: bool) -> rtnlc_message;

    /// The attribute that stands at an offset of a region.
    pub fn rtnlc_attr_at(bytes: *const u8, len: usize, place: u32, big: bool) -> rtnlc_attr;

    /// The next hop that stands at an offset of a region.
    pub fn rtnlc_hop_at(bytes: *const u8, len: usize, place: u32, big: bool) -> rtnlc_hop;

    /// The first attribute of a number at an offset of a region or behind it.
    pub fn rtnlc_find(
        bytes: *const u8,
        len: usize,
        place: u32,
        number: u16,
        big: bool,
    ) -> rtnlc_attr;

    /// What the body of a message of this type begins with.
    pub fn rtnlc_family_of(kind: u16) -> rtnlc_family;

    /// What an attribute of this number holds, where it stands.
    pub fn rtnlc_holds(context: u8, number: u16, nested: bool) -> rtnlc_holds;

    /// Whether a datagram is written as its messages are.
    pub fn rtnlc_check(
        bytes: *const u8,
        len: usize,
        options: *const rtnlc_options,
    ) -> rtnlc_checked;

    /// Puts the text that `rtnl show` prints of a datagram of this number, as far as it fits.
    pub fn rtnlc_show(
        number: usize,
        bytes: *const u8,
        len: usize,
        options: *const rtnlc_options,
        out: *mut c_char,
        room: usize,
    ) -> rtnlc_shown;

    /// Puts the line of JSON that `rtnl show --format json` prints of it, as far as it fits.
    pub fn rtnlc_show_json(
        number: usize,
        bytes: *const u8,
        len: usize,
        options: *const rtnlc_options,
        out: *mut c_char,
        room: usize,
    ) -> rtnlc_shown;

    /// Puts the request of a dump into `out`.
    pub fn rtnlc_request(
        kind: u16,
        family: u8,
        seq: u32,
        big: bool,
        out: *mut u8,
        room: usize,
    ) -> rtnlc_put;

    /// Makes a session.
    pub fn rtnlc_session_new(s: *mut rtnlc_session, options: *const rtnlc_options) -> u8;

    /// Frees a session and all that it holds.
    pub fn rtnlc_session_free(s: *mut rtnlc_session);

    /// Begins a dump, and puts its request into `out`.
    pub fn rtnlc_session_begin(
        s: *mut rtnlc_session,
        kind: u16,
        family: u8,
        seq: u32,
        port: u32,
        out: *mut u8,
        room: usize,
    ) -> rtnlc_put;

    /// Takes a datagram into the dump that waits: all of its entries, or none.
    pub fn rtnlc_session_feed(s: *mut rtnlc_session, bytes: *const u8, len: usize) -> rtnlc_fed;

    /// Ends the dump that waits, as abandoned.
    pub fn rtnlc_session_abandon(s: *mut rtnlc_session) -> u8;

    /// Where the last dump stands.
    pub fn rtnlc_session_status(s: *mut rtnlc_session) -> rtnlc_status;

    /// The size of a family's table.
    pub fn rtnlc_session_table(s: *mut rtnlc_session, kind: u16) -> rtnlc_table;

    /// Puts an entry of a table into `out`, a whole message.
    pub fn rtnlc_session_entry(
        s: *mut rtnlc_session,
        kind: u16,
        index: u32,
        out: *mut u8,
        room: usize,
    ) -> rtnlc_put;

    /// Puts the key of an entry into `out`.
    pub fn rtnlc_session_key(
        s: *mut rtnlc_session,
        kind: u16,
        index: u32,
        out: *mut u8,
        room: usize,
    ) -> rtnlc_put;

    /// The index of the entry with these bytes for its key.
    pub fn rtnlc_session_find(
        s: *mut rtnlc_session,
        kind: u16,
        key: *const u8,
        len: usize,
    ) -> rtnlc_found;

    /// Makes a mirror, of whose tables so many changes each wait for the end of a dump at most.
    pub fn rtnlc_mirror_new(
        m: *mut rtnlc_mirror,
        options: *const rtnlc_options,
        waiting: u32,
    ) -> u8;

    /// Frees a mirror and all that it holds.
    pub fn rtnlc_mirror_free(m: *mut rtnlc_mirror);

    /// Begins a dump, and puts its request into `out`.
    pub fn rtnlc_mirror_begin(
        m: *mut rtnlc_mirror,
        kind: u16,
        family: u8,
        seq: u32,
        port: u32,
        out: *mut u8,
        room: usize,
    ) -> rtnlc_put;

    /// Takes a datagram into the tables, and puts what became of each message into `changes`.
    pub fn rtnlc_mirror_feed(
        m: *mut rtnlc_mirror,
        bytes: *const u8,
        len: usize,
        changes: *mut rtnlc_change,
        room: usize,
        before: *mut u8,
        before_room: usize,
    ) -> rtnlc_heard;

    /// Says that the kernel dropped messages: all tables are stale.
    pub fn rtnlc_mirror_lost(m: *mut rtnlc_mirror) -> u8;

    /// How a table stands, and whether it can be trusted.
    pub fn rtnlc_mirror_table(m: *mut rtnlc_mirror, kind: u16) -> rtnlc_mirrored;

    /// Puts an entry of a table into `out`, a whole message.
    pub fn rtnlc_mirror_entry(
        m: *mut rtnlc_mirror,
        kind: u16,
        index: u32,
        out: *mut u8,
        room: usize,
    ) -> rtnlc_put;

    /// Puts the key of an entry into `out`.
    pub fn rtnlc_mirror_key(
        m: *mut rtnlc_mirror,
        kind: u16,
        index: u32,
        out: *mut u8,
        room: usize,
    ) -> rtnlc_put;

    /// The index of the entry with these bytes for its key.
    pub fn rtnlc_mirror_find(
        m: *mut rtnlc_mirror,
        kind: u16,
        key: *const u8,
        len: usize,
    ) -> rtnlc_found;

    /// Makes a stream of these limits.
    pub fn rtnlc_stream_new(stream: *mut rtnlc_stream, options: *const rtnlc_options) -> u8;

    /// Begins a dump, and puts its request into `out`.
    pub fn rtnlc_stream_begin(
        stream: *mut rtnlc_stream,
        kind: u16,
        family: u8,
        seq: u32,
        port: u32,
        out: *mut u8,
        room: usize,
    ) -> rtnlc_put;

    /// Takes a datagram into the dump that waits, and puts the events of its items into `out`.
    pub fn rtnlc_stream_feed(
        stream: *mut rtnlc_stream,
        bytes: *const u8,
        len: usize,
        out: *mut rtnlc_event,
        room: usize,
    ) -> rtnlc_fed;

    /// Ends the dump that waits, as abandoned.
    pub fn rtnlc_stream_abandon(stream: *mut rtnlc_stream) -> u8;

    /// Where the last dump stands.
    pub fn rtnlc_stream_status(stream: *const rtnlc_stream) -> rtnlc_status;

    /// Makes a builder over a buffer, which has accepted nothing yet.
    pub fn rtnlc_builder_new(
        b: *mut rtnlc_builder,
        options: *const rtnlc_options,
        out: *mut u8,
        room: usize,
    ) -> u8;

    /// Begins a message of a family, with its head.
    pub fn rtnlc_builder_begin(
        b: *mut rtnlc_builder,
        kind: u16,
        flags: u16,
        seq: u32,
        port: u32,
        head: *const c_void,
        len: usize,
    ) -> u8;

    /// Puts an attribute that holds these bytes.
    pub fn rtnlc_builder_put(
        b: *mut rtnlc_builder,
        kind: u16,
        bytes: *const c_void,
        len: usize,
    ) -> u8;

    /// The same of a text, with one zero byte behind it.
    pub fn rtnlc_builder_put_text(
        b: *mut rtnlc_builder,
        kind: u16,
        text: *const c_char,
        len: usize,
    ) -> u8;

    /// The same of a number in one byte.
    pub fn rtnlc_builder_put_u8(b: *mut rtnlc_builder, kind: u16, value: u8) -> u8;

    /// The same in two bytes in the builder's order.
    pub fn rtnlc_builder_put_u16(b: *mut rtnlc_builder, kind: u16, value: u16) -> u8;

    /// The same in four bytes.
    pub fn rtnlc_builder_put_u32(b: *mut rtnlc_builder, kind: u16, value: u32) -> u8;

    /// The same in eight bytes.
    pub fn rtnlc_builder_put_u64(b: *mut rtnlc_builder, kind: u16, value: u64) -> u8;

    /// The same in two bytes in network byte order.
    pub fn rtnlc_builder_put_be16(b: *mut rtnlc_builder, kind: u16, value: u16) -> u8;

    /// The same in four.
    pub fn rtnlc_builder_put_be32(b: *mut rtnlc_builder, kind: u16, value: u32) -> u8;

    /// The same in eight.
    pub fn rtnlc_builder_put_be64(b: *mut rtnlc_builder, kind: u16, value: u64) -> u8;

    /// Opens an attribute that holds attributes, or next hops.
    pub fn rtnlc_builder_open(b: *mut rtnlc_builder, kind: u16) -> u8;

    /// Opens a next hop.
    pub fn rtnlc_builder_open_hop(b: *mut rtnlc_builder, flags: u8, hops: u8, ifindex: i32) -> u8;

    /// Closes the attribute or the next hop that was opened last.
    pub fn rtnlc_builder_close(b: *mut rtnlc_builder) -> u8;

    /// Ends the message.
    pub fn rtnlc_builder_end(b: *mut rtnlc_builder) -> u8;

    /// Puts a whole message of no family, whose body is these bytes.
    pub fn rtnlc_builder_message(
        b: *mut rtnlc_builder,
        kind: u16,
        flags: u16,
        seq: u32,
        port: u32,
        body: *const c_void,
        len: usize,
    ) -> u8;

    /// How many bytes the datagram has.
    pub fn rtnlc_builder_finish(b: *const rtnlc_builder) -> rtnlc_put;

    /// Puts a message into `out` that asks for a change of a link.
    pub fn rtnlc_request_link(
        link: *const rtnlc_link_request,
        operation: u8,
        seq: u32,
        big: bool,
        out: *mut u8,
        room: usize,
    ) -> rtnlc_put;

    /// Puts a message into `out` that asks for a change of an address.
    pub fn rtnlc_request_addr(
        addr: *const rtnlc_addr_request,
        operation: u8,
        seq: u32,
        big: bool,
        out: *mut u8,
        room: usize,
    ) -> rtnlc_put;

    /// Puts a message into `out` that asks for a change of a route.
    pub fn rtnlc_request_route(
        route: *const rtnlc_route_request,
        operation: u8,
        seq: u32,
        big: bool,
        out: *mut u8,
        room: usize,
    ) -> rtnlc_put;

    /// Puts a message into `out` that asks for a change of a neighbour.
    pub fn rtnlc_request_neigh(
        neigh: *const rtnlc_neigh_request,
        operation: u8,
        seq: u32,
        big: bool,
        out: *mut u8,
        room: usize,
    ) -> rtnlc_put;

    /// Puts a message into `out` that asks for a change of a rule.
    pub fn rtnlc_request_rule(
        rule: *const rtnlc_rule_request,
        operation: u8,
        seq: u32,
        big: bool,
        out: *mut u8,
        room: usize,
    ) -> rtnlc_put;

    /// Puts the name of a message type in the kernel's headers into `out`.
    pub fn rtnlc_type_name(kind: u16, out: *mut c_char, room: usize) -> rtnlc_put;

    /// The same of an attribute of this number, where it stands.
    pub fn rtnlc_attr_name(context: u8, number: u16, out: *mut c_char, room: usize) -> rtnlc_put;

    /// What a code says, in a few words: never null.
    pub fn rtnlc_code_name(code: u8) -> *const c_char;

    /// The version of the library that is linked: never null.
    pub fn rtnlc_version() -> *const c_char;

    /// Whether the library that is linked was made of what was proved.
    pub fn rtnlc_proved() -> bool;
}
