//! The heads of messages that are built: the kernel's structs, by the names that the views have
//! for their fields.

use crate::constants::{AF_INET, AF_INET6};
use crate::{Order, Prefix};
use std::net::IpAddr;

/// The longest head has so many bytes.
const LONGEST: usize = 16;

/// What a message begins with: [`LinkHead`], [`AddressHead`], [`RouteHead`], [`NeighbourHead`] or
/// [`RuleHead`].
pub trait Head: sealed::Head {}

pub(crate) mod sealed {
    use super::{HeadBytes, Order};

    /// A struct of the kernel's.
    pub trait Head {
        fn bytes(&self, order: Order) -> HeadBytes;
    }
}

/// The bytes of a head, which are put one field after another.
pub struct HeadBytes {
    bytes: [u8; LONGEST],
    len: usize,
    order: Order,
}

impl HeadBytes {
    fn new(order: Order, bytes: &[u8]) -> HeadBytes {
        HeadBytes { bytes: [0; LONGEST], len: 0, order }.with(bytes)
    }

    fn with(mut self, bytes: &[u8]) -> HeadBytes {
        for (to, byte) in self.bytes.iter_mut().skip(self.len).zip(bytes) {
            *to = *byte;
        }
        self.len += bytes.len();
        self
    }

    fn with_u16(self, number: u16) -> HeadBytes {
        let bytes = self.order.bytes_of_u16(number);
        self.with(&bytes)
    }

    fn with_u32(self, number: u32) -> HeadBytes {
        let bytes = self.order.bytes_of_u32(number);
        self.with(&bytes)
    }

    pub(crate) fn as_slice(&self) -> &[u8] {
        self.bytes.get(..self.len).unwrap_or_default()
    }
}

/// The head of a link, `struct ifinfomsg`.
#[derive(Clone, Copy, Debug, Default, PartialEq, Eq, Hash)]
pub struct LinkHead {
    /// `AF_UNSPEC`, or the address family whose settings are meant.
    pub address_family: u8,
    /// `ARPHRD_*`, which the kernel doesn't look at.
    pub hardware_type: u16,
    /// The index of the interface; 0 where its name says which it is, or for a new one.
    pub index: u32,
    /// Flags, `IFF_*`.
    pub flags: u32,
    /// Which of the flags are to be taken over.
    pub change: u32,
}

/// The head of an address, `struct ifaddrmsg`.
#[derive(Clone, Copy, Debug, Default, PartialEq, Eq, Hash)]
pub struct AddressHead {
    /// As `AF_INET`.
    pub address_family: u8,
    /// How many bits of the address are those of its network.
    pub prefix_len: u8,
    /// Flags, `IFA_F_*`, as far as they fit.
    pub flags: u8,
    /// Where it holds, `RT_SCOPE_*`.
    pub scope: u8,
    /// The index of its interface.
    pub index: u32,
}

impl AddressHead {
    /// That of an address with the length of its network's prefix, on an interface.
    pub fn of(prefix: Prefix, index: u32) -> AddressHead {
        let (address_family, prefix_len) = (family_of(prefix.address), prefix.len);
        AddressHead { address_family, prefix_len, index, ..AddressHead::default() }
    }
}

/// The head of a route, `struct rtmsg`.
#[derive(Clone, Copy, Debug, Default, PartialEq, Eq, Hash)]
pub struct RouteHead {
    /// As `AF_INET`.
    pub address_family: u8,
    /// How many bits of the destination count, `RTA_DST`.
    pub destination_len: u8,
    /// The same of the source, `RTA_SRC`.
    pub source_len: u8,
    /// The type of service of packets.
    pub type_of_service: u8,
    /// The table, `RT_TABLE_*`; `RTA_TABLE` has one above 255.
    pub table: u8,
    /// Who makes it, `RTPROT_*`.
    pub protocol: u8,
    /// How far its destination is, `RT_SCOPE_*`.
    pub scope: u8,
    /// What becomes of a packet, `RTN_*`. In C it is `rtm_type`.
    pub route_type: u8,
    /// Flags, `RTM_F_*` and `RTNH_F_*`.
    pub flags: u32,
}

impl RouteHead {
    /// That of a route to these addresses: its address family, and the length of its destination.
    pub fn to(prefix: Prefix) -> RouteHead {
        let (address_family, destination_len) = (family_of(prefix.address), prefix.len);
        RouteHead { address_family, destination_len, ..RouteHead::default() }
    }
}

/// The head of a neighbour, `struct ndmsg`.
#[derive(Clone, Copy, Debug, Default, PartialEq, Eq, Hash)]
pub struct NeighbourHead {
    /// As `AF_INET`, or `AF_BRIDGE` of an entry of a bridge.
    pub address_family: u8,
    /// The index of its interface.
    pub index: u32,
    /// What is known of it, `NUD_*`.
    pub state: u16,
    /// Flags, `NTF_*`.
    pub flags: u8,
    /// `RTN_*`. In C it is `ndm_type`.
    pub route_type: u8,
}

/// The head of a rule, `struct fib_rule_hdr`.
#[derive(Clone, Copy, Debug, Default, PartialEq, Eq, Hash)]
pub struct RuleHead {
    /// As `AF_INET`.
    pub address_family: u8,
    /// How many bits of the destination count, `FRA_DST`.
    pub destination_len: u8,
    /// The same of the source, `FRA_SRC`.
    pub source_len: u8,
    /// The type of service of packets.
    pub type_of_service: u8,
    /// The table, `RT_TABLE_*`; `FRA_TABLE` has one above 255.
    pub table: u8,
    /// What is done, `FR_ACT_*`.
    pub action: u8,
    /// Flags, `FIB_RULE_*`.
    pub flags: u32,
}

/// The address family of an address.
pub(crate) fn family_of(address: IpAddr) -> u8 {
    if address.is_ipv4() {
        AF_INET
    } else {
        AF_INET6
    }
}

impl sealed::Head for LinkHead {
    fn bytes(&self, order: Order) -> HeadBytes {
        let front = HeadBytes::new(order, &[self.address_family, 0]);
        let front = front.with_u16(self.hardware_type).with_u32(self.index);
        front.with_u32(self.flags).with_u32(self.change)
    }
}

impl sealed::Head for AddressHead {
    fn bytes(&self, order: Order) -> HeadBytes {
        let front = [self.address_family, self.prefix_len, self.flags, self.scope];
        HeadBytes::new(order, &front).with_u32(self.index)
    }
}

impl sealed::Head for RouteHead {
    fn bytes(&self, order: Order) -> HeadBytes {
        let lengths = [self.address_family, self.destination_len, self.source_len];
        let front = HeadBytes::new(order, &lengths).with(&[self.type_of_service, self.table]);
        front.with(&[self.protocol, self.scope, self.route_type]).with_u32(self.flags)
    }
}

impl sealed::Head for NeighbourHead {
    fn bytes(&self, order: Order) -> HeadBytes {
        let front = HeadBytes::new(order, &[self.address_family, 0, 0, 0]);
        let front = front.with_u32(self.index).with_u16(self.state);
        front.with(&[self.flags, self.route_type])
    }
}

impl sealed::Head for RuleHead {
    fn bytes(&self, order: Order) -> HeadBytes {
        let lengths = [self.address_family, self.destination_len, self.source_len];
        let front = HeadBytes::new(order, &lengths).with(&[self.type_of_service, self.table]);
        front.with(&[0, 0, self.action]).with_u32(self.flags)
    }
}

impl Head for LinkHead {}
impl Head for AddressHead {}
impl Head for RouteHead {}
impl Head for NeighbourHead {}
impl Head for RuleHead {}
