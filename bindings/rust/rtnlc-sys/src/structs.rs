//! The structs of `rtnlc.h`, field by field.

#[cfg(doc)]
use crate::*; // What is linked to.
use std::os::raw::c_void;

/// The limits of a call, of a session, a stream or a builder.
#[repr(C)]
#[derive(Clone, Copy, Debug, PartialEq, Eq, Hash)]
pub struct rtnlc_options {
    /// Bytes of all datagrams of a session or a stream at most: 0 to 2^40.
    pub total: u64,
    /// Bytes of a datagram at most: a multiple of 4 from 16 to 1,048,576.
    pub datagram: u32,
    /// Entries of each table of a session at most: 0 to 65,536.
    pub entries: u32,
    /// Levels that containers may open at most: 0 to 32.
    pub depth: u8,
    /// Numbers have their highest byte first.
    pub big: bool,
    /// Keys of the hash of a session's tables. Where all are 0, [`rtnlc_session_new`] has the
    /// kernel give them.
    pub seed: [u8; 16],
}

/// What [`rtnlc_scan`] answers.
#[repr(C)]
#[derive(Clone, Copy, Debug, Default, PartialEq, Eq, Hash)]
pub struct rtnlc_scanned {
    /// How many attribute bytes were visited.
    pub visits: u64,
    /// Of the first fault; 0 where there is none.
    pub place: u32,
    /// [`RTNLC_OK`], [`RTNLC_CUT`] to [`RTNLC_TOO_LARGE`], or [`RTNLC_BAD_LIMIT`].
    pub code: u8,
}

/// What [`rtnlc_broken`] answers.
#[repr(C)]
#[derive(Clone, Copy, Debug, Default, PartialEq, Eq, Hash)]
pub struct rtnlc_broken_head {
    /// Of the head, which is that of the first fault.
    pub place: u32,
    /// The length that it says, with its own bytes.
    pub len: u32,
    /// Bytes from there to the end of the list that it lies in; for a message, of the datagram.
    pub left: u32,
    /// As in [`rtnlc_event`].
    pub number: u16,
    /// As there.
    pub level: u8,
    /// [`RTNLC_MESSAGE`], [`RTNLC_NEXT_HOP`], or [`RTNLC_BYTES`] for any attribute.
    pub sort: u8,
    /// Its bytes are all there; else `len` and `number` are 0.
    pub whole: bool,
    /// As of [`rtnlc_scanned`]; where it is no rule, all else is 0.
    pub code: u8,
}

/// A head of a datagram.
#[repr(C)]
#[derive(Clone, Copy, Debug, Default, PartialEq, Eq, Hash)]
pub struct rtnlc_event {
    /// Of the head.
    pub place: u32,
    /// Bytes behind the head, without padding.
    pub len: u32,
    /// A message's type; an attribute's without its two flag bits; 0 of a next hop.
    pub number: u16,
    /// 0 for messages and for the attributes of a body; one more in each container.
    pub level: u8,
    /// [`RTNLC_MESSAGE`] to [`RTNLC_NEXT_HOP`].
    pub sort: u8,
    /// `NLA_F_NESTED`.
    pub nested: bool,
    /// `NLA_F_NET_BYTEORDER`.
    pub net: bool,
}

/// What [`rtnlc_tape`] answers.
#[repr(C)]
#[derive(Clone, Copy, Debug, Default, PartialEq, Eq, Hash)]
pub struct rtnlc_taped {
    /// How many heads there are, or up to the fault; also above the room.
    pub count: usize,
    /// How many attribute bytes were visited.
    pub visits: u64,
    /// Of the first fault; 0 where there is none.
    pub place: u32,
    /// As of [`rtnlc_scanned`].
    pub code: u8,
}

/// What [`rtnlc_message_at`] answers.
#[repr(C)]
#[derive(Clone, Copy, Debug, Default, PartialEq, Eq, Hash)]
pub struct rtnlc_message {
    /// The one asked for.
    pub place: u32,
    /// Where the next message stands.
    pub next: u32,
    /// Bytes of the body, which begins at `place + 16`.
    pub len: u32,
    /// The sequence number.
    pub seq: u32,
    /// The port id.
    pub port: u32,
    /// The message type.
    pub kind: u16,
    /// `NLM_F_*`.
    pub flags: u16,
    /// [`RTNLC_OK`], [`RTNLC_CUT`] to [`RTNLC_SHORT_BODY`], [`RTNLC_TOO_LARGE`] or [`RTNLC_END`].
    pub code: u8,
}

/// What [`rtnlc_attr_at`] and [`rtnlc_find`] answer.
#[repr(C)]
#[derive(Clone, Copy, Debug, Default, PartialEq, Eq, Hash)]
pub struct rtnlc_attr {
    /// Of the attribute.
    pub place: u32,
    /// Where the next one stands.
    pub next: u32,
    /// Bytes of the payload, which begins at `place + 4`.
    pub len: u32,
    /// Without the two flag bits.
    pub number: u16,
    /// `NLA_F_NESTED`.
    pub nested: bool,
    /// `NLA_F_NET_BYTEORDER`.
    pub net: bool,
    /// [`RTNLC_OK`], [`RTNLC_CUT`], [`RTNLC_BAD_LENGTH`], [`RTNLC_TOO_LARGE`] or [`RTNLC_END`].
    pub code: u8,
}

/// What [`rtnlc_hop_at`] answers.
#[repr(C)]
#[derive(Clone, Copy, Debug, Default, PartialEq, Eq, Hash)]
pub struct rtnlc_hop {
    /// The one asked for.
    pub place: u32,
    /// Where the next one stands.
    pub next: u32,
    /// Bytes of its attributes, which begin at `place + 8`.
    pub len: u32,
    /// The index of its interface.
    pub ifindex: i32,
    /// `RTNH_F_*`.
    pub flags: u8,
    /// Its weight less one.
    pub hops: u8,
    /// As of [`rtnlc_attr`].
    pub code: u8,
}

/// What [`rtnlc_family_of`] answers.
#[repr(C)]
#[derive(Clone, Copy, Debug, Default, PartialEq, Eq, Hash)]
pub struct rtnlc_family {
    /// Bytes of the family's head, behind which attributes stand; or 0.
    pub head_size: u8,
    /// [`RTNLC_NO_CONTEXT`] to [`RTNLC_PLAIN`].
    pub context: u8,
}

/// What [`rtnlc_holds()`] answers.
#[repr(C)]
#[derive(Clone, Copy, Debug, Default, PartialEq, Eq, Hash)]
pub struct rtnlc_holds {
    /// [`RTNLC_BYTES`], [`RTNLC_LIST`] or [`RTNLC_HOPS`]; 0 where the context is none.
    pub sort: u8,
    /// Of the attributes in it, or in its next hops; else 0.
    pub context: u8,
}

/// What [`rtnlc_check`] answers.
#[repr(C)]
#[derive(Clone, Copy, Debug, Default, PartialEq, Eq, Hash)]
pub struct rtnlc_checked {
    /// Of the first fault; 0 where there is none.
    pub place: u32,
    /// As of [`rtnlc_scanned`], or [`RTNLC_NO_MEMORY`].
    pub code: u8,
    /// Accepted, and written as its messages are.
    pub canonical: bool,
}

/// What [`rtnlc_show`] answers.
#[repr(C)]
#[derive(Clone, Copy, Debug, Default, PartialEq, Eq, Hash)]
pub struct rtnlc_shown {
    /// Bytes of the text, also above the room.
    pub len: usize,
    /// [`RTNLC_OK`], [`RTNLC_BAD_LIMIT`] or [`RTNLC_NO_MEMORY`].
    pub code: u8,
}

/// What the calls answer that put bytes.
#[repr(C)]
#[derive(Clone, Copy, Debug, Default, PartialEq, Eq, Hash)]
pub struct rtnlc_put {
    /// Bytes; on [`RTNLC_NO_ROOM`] how many there must be room for; else 0.
    pub len: usize,
    /// Where it is not [`RTNLC_OK`], nothing has happened.
    pub code: u8,
}

/// Where a dump stands, of a session and of a stream.
#[repr(C)]
#[derive(Clone, Copy, Debug, Default, PartialEq, Eq, Hash)]
pub struct rtnlc_status {
    /// Bytes of all datagrams that were looked at, since it was made.
    pub received: u64,
    /// Attribute bytes visited in them.
    pub visits: u64,
    /// Messages of the last dump that were neither entries nor its end.
    pub ignored: u64,
    /// The sequence number of the last dump.
    pub seq: u32,
    /// Its port id.
    pub port: u32,
    /// Of DONE, 0 where it has none; or the code of ERROR, a negative errno.
    pub status: i32,
    /// The NEW type of the last dump's family.
    pub kind: u16,
    /// The address family that it asked for.
    pub family: u8,
    /// [`RTNLC_IDLE`] to [`RTNLC_ABANDONED`].
    pub state: u8,
    /// A datagram of the last dump was refused.
    pub damaged: bool,
    /// The kernel's table changed meanwhile.
    pub interrupted: bool,
    /// Ended by DONE with no failure, neither damaged nor interrupted, and nothing was missed.
    pub complete: bool,
    /// [`RTNLC_OK`], [`RTNLC_NO_SESSION`] or [`RTNLC_NO_STREAM`].
    pub code: u8,
}

/// What a session or a stream answers to a datagram.
#[repr(C)]
#[derive(Clone, Copy, Debug, Default, PartialEq, Eq, Hash)]
pub struct rtnlc_fed {
    /// Of a stream: events at the front of `out`, or on [`RTNLC_NO_ROOM`] those that there must be
    /// room for; else 0.
    pub events: usize,
    /// Messages that are entries of the dump.
    pub items: u32,
    /// Messages that are neither that nor its end.
    pub ignored: u32,
    /// Of the first fault; 0 where there is none.
    pub place: u32,
    /// One of them ended the dump.
    pub ended: bool,
    /// [`RTNLC_OK`], or why the datagram was not taken.
    pub code: u8,
}

/// A session, which owns its tables. Null before [`rtnlc_session_new`]; copied only to move it.
#[repr(C)]
#[derive(Debug)]
pub struct rtnlc_session {
    /// The library's.
    pub at: *mut c_void,
}

/// What [`rtnlc_session_table`] answers.
#[repr(C)]
#[derive(Clone, Copy, Debug, Default, PartialEq, Eq, Hash)]
pub struct rtnlc_table {
    /// How often a new entry found no room.
    pub missed: u64,
    /// Entries.
    pub count: u32,
    /// The most that there may be.
    pub limit: u32,
    /// [`RTNLC_OK`], [`RTNLC_NO_KIND`] or [`RTNLC_NO_SESSION`].
    pub code: u8,
}

/// What [`rtnlc_session_find`] answers.
#[repr(C)]
#[derive(Clone, Copy, Debug, Default, PartialEq, Eq, Hash)]
pub struct rtnlc_found {
    /// The index of the entry.
    pub index: u32,
    /// [`RTNLC_OK`]; [`RTNLC_END`] where no entry has the key.
    pub code: u8,
}

/// A mirror, which owns its tables. Null before [`rtnlc_mirror_new`]; copied only to move it.
#[repr(C)]
#[derive(Debug)]
pub struct rtnlc_mirror {
    /// The library's.
    pub at: *mut c_void,
}

/// What became of one message of a datagram that a mirror took.
#[repr(C)]
#[derive(Clone, Copy, Debug, Default, PartialEq, Eq, Hash)]
pub struct rtnlc_change {
    /// Where the entry before it stands in the bytes that were put.
    pub before: u32,
    /// Its length, 0 where none was put.
    pub before_len: u32,
    /// The entry's index in its table; 0 of [`RTNLC_NOTHING`] and [`RTNLC_WAITS`].
    pub index: u32,
    /// The NEW type of the table; 0 where the message is of none, and where the code is not
    /// [`RTNLC_OK`].
    pub kind: u16,
    /// [`RTNLC_NOTHING`] to [`RTNLC_WAITS`].
    pub effect: u8,
    /// [`RTNLC_OK`]; [`RTNLC_NO_MEMORY`] or [`RTNLC_NO_ROOM`] where what it tells is lost.
    pub code: u8,
}

/// What a mirror answers to a datagram.
#[repr(C)]
#[derive(Clone, Copy, Debug, Default, PartialEq, Eq, Hash)]
pub struct rtnlc_heard {
    /// Attribute bytes visited.
    pub visits: u64,
    /// Changes that were put: one for each message, or 0 where there is no room for any.
    pub changes: usize,
    /// Bytes of entries before them that were put.
    pub before: usize,
    /// Of the first fault; 0 where there is none.
    pub place: u32,
    /// [`RTNLC_OK`], or why the datagram was not taken.
    pub code: u8,
}

/// What [`rtnlc_mirror_table`] answers.
#[repr(C)]
#[derive(Clone, Copy, Debug, Default, PartialEq, Eq, Hash)]
pub struct rtnlc_mirrored {
    /// How often a new entry found no room since the last whole dump.
    pub missed: u64,
    /// Entries.
    pub count: u32,
    /// The most that there may be.
    pub limit: u32,
    /// The sequence number of the dump of it that runs; 0 where none does.
    pub seq: u32,
    /// [`RTNLC_CURRENT`] to [`RTNLC_FULL`].
    pub stale: u8,
    /// A dump of it runs.
    pub dumps: bool,
    /// [`RTNLC_OK`], [`RTNLC_NO_KIND`] or [`RTNLC_NO_MIRROR`].
    pub code: u8,
}

/// Where the dumps of one socket stand, with no table. Any bytes are taken for one.
#[repr(C)]
#[derive(Clone, Copy, Debug, Default, PartialEq, Eq, Hash)]
pub struct rtnlc_stream {
    /// As in [`rtnlc_options`].
    pub total: u64,
    /// Bytes of all datagrams so far.
    pub received: u64,
    /// Attribute bytes visited.
    pub visits: u64,
    /// Messages of the last dump that are neither its items nor its end.
    pub ignored: u64,
    /// As in [`rtnlc_options`].
    pub datagram: u32,
    /// As there; it says nothing of a stream.
    pub entries: u32,
    /// The sequence number of the last dump.
    pub seq: u32,
    /// Its port id.
    pub port: u32,
    /// Of its DONE, or the code of its ERROR; else 0.
    pub status: i32,
    /// The NEW type of its family.
    pub kind: u16,
    /// The address family of its request.
    pub family: u8,
    /// [`RTNLC_IDLE`] to [`RTNLC_ABANDONED`].
    pub state: u8,
    /// As in [`rtnlc_options`].
    pub depth: u8,
    /// 0 or 1.
    pub big: u8,
    /// 1 where a datagram of it was refused, else 0.
    pub damaged: u8,
    /// 1 where an item or its DONE has `NLM_F_DUMP_INTR`, else 0.
    pub interrupted: u8,
}

/// What is built in a buffer, and how far. Any bytes are taken for it.
#[repr(C)]
#[derive(Clone, Copy, Debug, PartialEq, Eq, Hash)]
pub struct rtnlc_built {
    /// As in [`rtnlc_options`]; it says nothing of a builder.
    pub total: u64,
    /// The same.
    pub entries: u32,
    /// As in [`rtnlc_options`].
    pub datagram: u32,
    /// Bytes of the buffer that are accepted.
    pub len: u32,
    /// The offsets of the open heads, the outermost, a message's, first; what is behind the last
    /// one says nothing.
    pub starts: [u32; 33],
    /// What stands behind each: [`RTNLC_LINK`] to [`RTNLC_HOPS_BEHIND`].
    pub contents: [u8; 33],
    /// How many heads are open: at most `depth` plus one.
    pub count: u8,
    /// As in [`rtnlc_options`].
    pub depth: u8,
    /// 0 or 1.
    pub big: u8,
    /// The code of the first refusal, or 0.
    pub refusal: u8,
}

/// A builder over a buffer of the caller's.
#[repr(C)]
#[derive(Clone, Copy, Debug, PartialEq, Eq, Hash)]
pub struct rtnlc_builder {
    /// The buffer: `room` bytes that can be written.
    pub out: *mut u8,
    /// Its bytes.
    pub room: usize,
    /// What is built in it.
    pub built: rtnlc_built,
}

/// Bytes of the caller's: an address in network order, or a name without its zero byte.
#[repr(C)]
#[derive(Clone, Copy, Debug, PartialEq, Eq, Hash)]
pub struct rtnlc_bytes {
    /// Where they are; null where there are none.
    pub at: *const c_void,
    /// How many they are; 0 where there are none.
    pub len: usize,
}

/// What is asked for of a link. A field beside a `has_` of its name is put where that is true.
#[repr(C)]
#[derive(Clone, Copy, Debug, PartialEq, Eq, Hash)]
pub struct rtnlc_link_request {
    /// `IFLA_IFNAME`: which link it is where `index` is 0, else its new name.
    pub name: rtnlc_bytes,
    /// `IFLA_ADDRESS`.
    pub address: rtnlc_bytes,
    /// `IFLA_INFO_KIND`.
    pub kind: rtnlc_bytes,
    /// `IFLA_INFO_DATA`: attributes, as bytes; nothing where there is no kind.
    pub data: rtnlc_bytes,
    /// 0 where the name says which one it is, or the kernel chooses it.
    pub index: i32,
    /// `IFLA_MTU`, in bytes.
    pub mtu: u32,
    /// `IFLA_MASTER`, an index; 0 for none.
    pub master: u32,
    /// `IFLA_LINK`, the index of the interface that it lies on.
    pub link: u32,
    /// The MTU is there.
    pub has_mtu: bool,
    /// The master is there.
    pub has_master: bool,
    /// The interface that it lies on is there.
    pub has_link: bool,
    /// It is brought up or down.
    pub has_up: bool,
    /// `IFF_UP`.
    pub up: bool,
}

/// What is asked for of an address of an interface.
#[repr(C)]
#[derive(Clone, Copy, Debug, PartialEq, Eq, Hash)]
pub struct rtnlc_addr_request {
    /// `IFA_LOCAL`, which is always put.
    pub local: rtnlc_bytes,
    /// `IFA_ADDRESS`, the other end's; the local one where there is none.
    pub peer: rtnlc_bytes,
    /// `IFA_BROADCAST`.
    pub broadcast: rtnlc_bytes,
    /// `IFA_LABEL`.
    pub label: rtnlc_bytes,
    /// The index of the interface.
    pub index: u32,
    /// `IFA_F_*`; those above 255 stand in `IFA_FLAGS`.
    pub flags: u32,
    /// In seconds, 2^32 - 1 for ever: `IFA_CACHEINFO`.
    pub preferred: u32,
    /// The same.
    pub valid: u32,
    /// The two lifetimes are there.
    pub has_lifetimes: bool,
    /// `AF_INET` or `AF_INET6`.
    pub family: u8,
    /// Of the address, or of the other end's.
    pub prefix_length: u8,
    /// `RT_SCOPE_*`.
    pub scope: u8,
}

/// A metric of a route, in `RTA_METRICS`.
#[repr(C)]
#[derive(Clone, Copy, Debug, Default, PartialEq, Eq, Hash)]
pub struct rtnlc_metric {
    /// `RTAX_*`, below 16,384.
    pub number: u16,
    /// Its value.
    pub value: u32,
}

/// One of several next hops of a route, as `struct rtnexthop`.
#[repr(C)]
#[derive(Clone, Copy, Debug, Default, PartialEq, Eq, Hash)]
pub struct rtnlc_next_hop {
    /// The index of the interface, or 0.
    pub index: i32,
    /// `RTNH_F_*`.
    pub flags: u8,
    /// Its weight less one.
    pub hops: u8,
    /// 4, 16, or 0 for none; above 16 as 16.
    pub gateway_len: u8,
    /// In network order.
    pub gateway: [u8; 16],
}

/// What is asked for of a route.
#[repr(C)]
#[derive(Clone, Copy, Debug, PartialEq, Eq, Hash)]
pub struct rtnlc_route_request {
    /// `RTA_DST`; none for the default route.
    pub destination: rtnlc_bytes,
    /// `RTA_SRC`.
    pub source: rtnlc_bytes,
    /// `RTA_GATEWAY`.
    pub gateway: rtnlc_bytes,
    /// `RTA_PREFSRC`.
    pub preferred_source: rtnlc_bytes,
    /// `RTA_METRICS`.
    pub metrics: *const rtnlc_metric,
    /// How many metrics there are.
    pub metric_count: usize,
    /// `RTA_MULTIPATH`.
    pub hops: *const rtnlc_next_hop,
    /// How many next hops there are.
    pub hop_count: usize,
    /// Up to 255 in the head, above in `RTA_TABLE`.
    pub table: u32,
    /// `RTM_F_*` and `RTNH_F_*`.
    pub flags: u32,
    /// `RTA_PRIORITY`: the lowest is taken.
    pub priority: u32,
    /// `RTA_OIF`, the index of the output interface.
    pub oif: u32,
    /// The priority is there.
    pub has_priority: bool,
    /// The output interface is there.
    pub has_oif: bool,
    /// `AF_INET` or `AF_INET6`.
    pub family: u8,
    /// How many bits of the destination count.
    pub destination_length: u8,
    /// How many bits of the source count.
    pub source_length: u8,
    /// The type of service of packets.
    pub tos: u8,
    /// `RTPROT_*`.
    pub protocol: u8,
    /// `RT_SCOPE_*`.
    pub scope: u8,
    /// `RTN_*`, which the kernel calls `rtm_type`.
    pub route_type: u8,
}

/// What is asked for of a neighbour.
#[repr(C)]
#[derive(Clone, Copy, Debug, PartialEq, Eq, Hash)]
pub struct rtnlc_neigh_request {
    /// `NDA_DST`, the network address.
    pub destination: rtnlc_bytes,
    /// `NDA_LLADDR`.
    pub link_address: rtnlc_bytes,
    /// The index of the interface.
    pub index: i32,
    /// `NUD_*`.
    pub state: u16,
    /// `NDA_VLAN`, of a bridge's entry.
    pub vlan: u16,
    /// The VLAN is there.
    pub has_vlan: bool,
    /// `AF_INET`, `AF_INET6` or `AF_BRIDGE`.
    pub family: u8,
    /// `NTF_*`.
    pub flags: u8,
}

/// What is asked for of a rule.
#[repr(C)]
#[derive(Clone, Copy, Debug, PartialEq, Eq, Hash)]
pub struct rtnlc_rule_request {
    /// `FRA_SRC`.
    pub source: rtnlc_bytes,
    /// `FRA_DST`.
    pub destination: rtnlc_bytes,
    /// `FRA_IIFNAME`, by which packets come.
    pub iif: rtnlc_bytes,
    /// `FRA_OIFNAME`, by which they leave.
    pub oif: rtnlc_bytes,
    /// Up to 255 in the head, above in `FRA_TABLE`.
    pub table: u32,
    /// `FRA_FWMARK`.
    pub mark: u32,
    /// `FRA_FWMASK`.
    pub mask: u32,
    /// `FRA_GOTO`, under `FR_ACT_GOTO`.
    pub target: u32,
    /// `FRA_SUPPRESS_PREFIXLEN`.
    pub suppress_prefix_length: u32,
    /// `FRA_PRIORITY`, its place among the others.
    pub priority: u32,
    /// The mark is there.
    pub has_mark: bool,
    /// Its mask is there.
    pub has_mask: bool,
    /// The target is there.
    pub has_target: bool,
    /// The length below which a route doesn't count is there.
    pub has_suppress_prefix_length: bool,
    /// The priority is there.
    pub has_priority: bool,
    /// `FIB_RULE_INVERT`: for the packets that don't match.
    pub invert: bool,
    /// `AF_INET` or `AF_INET6`.
    pub family: u8,
    /// How many bits of the source count.
    pub source_length: u8,
    /// How many bits of the destination count.
    pub destination_length: u8,
    /// The type of service of packets.
    pub tos: u8,
    /// `FR_ACT_*`.
    pub action: u8,
}
