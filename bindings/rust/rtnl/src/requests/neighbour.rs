use super::{family_or, raw_bytes, Octets};
use crate::constants::AF_BRIDGE;
use crate::heads::family_of;
use crate::HardwareAddress;
use rtnlc_sys::*;
use std::net::IpAddr;

/// What is asked for of a neighbour, as by `ip neighbour`, or of an entry of a bridge's forwarding
/// table, as by `bridge fdb`: it is added, replaced, changed or taken away.
///
/// ip(8) takes `NUD_PERMANENT` where no state is said. A field that is [`None`] isn't put.
///
/// ```
/// use rtnl::constants::NUD_PERMANENT;
/// use rtnl::{HardwareAddress, NeighbourRequest, Operation, Order};
/// use std::net::Ipv4Addr;
///
/// // ip neighbour add 192.0.2.20 lladdr 02:00:00:00:00:20 dev NAME, whose index is 10
/// let neighbour = NeighbourRequest {
///     state: NUD_PERMANENT,
///     link_layer_address: HardwareAddress::new(&[2, 0, 0, 0, 0, 0x20]),
///     ..NeighbourRequest::of(Ipv4Addr::new(192, 0, 2, 20), 10)
/// };
/// let mut buffer = [0; 128];
/// let request = neighbour.put(Operation::Add, 1, Order::NATIVE, &mut buffer)?;
/// assert_eq!(request.len(), 48);
/// # Ok::<(), rtnl::Error>(())
/// ```
#[derive(Clone, Copy, Debug, Default, PartialEq, Eq, Hash)]
pub struct NeighbourRequest<'a> {
    /// As `AF_INET`, or `AF_BRIDGE` of an entry of a bridge; where it is `AF_UNSPEC`, that of the
    /// address is put, and `AF_BRIDGE` where there is none.
    pub address_family: u8,
    /// The index of its interface.
    pub index: u32,
    /// What is known of it, `NUD_*`.
    pub state: u16,
    /// Flags, `NTF_*`.
    pub flags: u8,
    /// Its address: `NDA_DST`.
    pub address: Option<IpAddr>,
    /// Its address in the link layer: `NDA_LLADDR`.
    pub link_layer_address: Option<HardwareAddress<'a>>,
    /// The VLAN of an entry of a bridge: `NDA_VLAN`.
    pub vlan: Option<u16>,
}

impl NeighbourRequest<'_> {
    /// That of the neighbour with this address, of its family, on the interface of this index, and
    /// with nothing else.
    pub fn of(address: impl Into<IpAddr>, index: u32) -> Self {
        let address = address.into();
        let (address_family, address) = (family_of(address), Some(address));
        NeighbourRequest { address_family, index, address, ..NeighbourRequest::default() }
    }

    fn with_raw(&self, call: impl FnOnce(&rtnlc_neigh_request) -> rtnlc_put) -> rtnlc_put {
        let destination = Octets::of(self.address);
        call(&rtnlc_neigh_request {
            destination: destination.raw(),
            link_address: raw_bytes(self.link_layer_address.map(|it| it.as_bytes())),
            // In C the index has a sign; its bits are the same.
            index: self.index as i32,
            state: self.state,
            vlan: self.vlan.unwrap_or(0),
            has_vlan: self.vlan.is_some(),
            family: family_or(self.address_family, [self.address], AF_BRIDGE),
            flags: self.flags,
        })
    }
}

super::put!(NeighbourRequest, rtnlc_request_neigh);
