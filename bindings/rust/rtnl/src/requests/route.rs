use super::{address_of, family_or, len_of, Octets};
use crate::constants::AF_INET;
use crate::heads::family_of;
use crate::{BuildError, NextHopHead, Prefix};
use rtnlc_sys::*;
use std::fmt;
use std::mem::{align_of, size_of};
use std::net::IpAddr;

/// A metric of a route, in `RTA_METRICS`.
#[derive(Clone, Copy, Debug, Default, PartialEq, Eq, Hash)]
#[repr(C)] // As `rtnlc_metric`, so that a slice of these is one of those.
pub struct Metric {
    /// As `RTAX_MTU`, below 16,384.
    pub number: u16,
    /// Its value, in the unit that its number has.
    pub value: u32,
}

const _: () = assert!(size_of::<Metric>() == size_of::<rtnlc_metric>());
const _: () = assert!(align_of::<Metric>() == align_of::<rtnlc_metric>());

/// One of several next hops that a route is to have, in `RTA_MULTIPATH`. By default it has the
/// weight 1, and nothing else.
#[derive(Clone, Copy, Default, PartialEq, Eq, Hash)]
#[repr(transparent)]
pub struct NextHopRequest(rtnlc_next_hop);

impl NextHopRequest {
    /// One with this head, and with a gateway, `RTA_GATEWAY`, where there is one.
    ///
    /// # Errors
    ///
    /// [`BuildError::Mismatch`] where the weight is not from 1 to 256.
    pub fn new(head: NextHopHead, gateway: Option<IpAddr>) -> Result<NextHopRequest, BuildError> {
        let gateway = Octets::of(gateway);
        Ok(NextHopRequest(rtnlc_next_hop {
            // In C the index has a sign; its bits are the same.
            index: head.index as i32,
            flags: head.flags,
            hops: head.hops()?,
            gateway_len: gateway.len,
            gateway: gateway.bytes,
        }))
    }

    /// What it begins with.
    pub fn head(&self) -> NextHopHead {
        let weight = u16::from(self.0.hops) + 1;
        NextHopHead { flags: self.0.flags, weight, index: self.0.index as u32 }
    }

    /// Its gateway, where it has one.
    pub fn gateway(&self) -> Option<IpAddr> {
        match (self.0.gateway_len, self.0.gateway) {
            (0, _) => None,
            (4, [a, b, c, d, ..]) => Some([a, b, c, d].into()),
            (_, whole) => Some(whole.into()),
        }
    }
}

impl fmt::Debug for NextHopRequest {
    fn fmt(&self, f: &mut fmt::Formatter<'_>) -> fmt::Result {
        let (head, gateway) = (self.head(), self.gateway());
        f.debug_struct("NextHopRequest").field("head", &head).field("gateway", &gateway).finish()
    }
}

/// What is asked for of a route, as by `ip route`: it is added in one of five ways, or taken away.
///
/// ip(8) adds one with `RT_TABLE_MAIN`, `RTPROT_BOOT` and `RTN_UNICAST`, and one of IPv4 without a
/// gateway with `RT_SCOPE_LINK`; it takes one away with `RT_TABLE_MAIN`, and of IPv4 with
/// `RT_SCOPE_NOWHERE`. A field that is [`None`], or a slice of nothing, isn't put.
///
/// ```
/// use rtnl::constants::*;
/// use rtnl::{NextHopHead, NextHopRequest, Operation, Order, Prefix, RouteRequest};
/// use std::net::Ipv4Addr;
///
/// // ip route add 10.9.0.0/16 nexthop via 192.0.2.254 nexthop via 198.51.100.254 weight 10
/// let (first, second) = (Ipv4Addr::new(192, 0, 2, 254), Ipv4Addr::new(198, 51, 100, 254));
/// let heavy = NextHopHead { weight: 10, ..NextHopHead::default() };
/// let hops = [
///     NextHopRequest::new(NextHopHead::default(), Some(first.into()))?,
///     NextHopRequest::new(heavy, Some(second.into()))?,
/// ];
/// let to = Prefix { address: Ipv4Addr::new(10, 9, 0, 0).into(), len: 16 };
/// let route = RouteRequest {
///     table: RT_TABLE_MAIN,
///     protocol: RTPROT_BOOT,
///     route_type: RTN_UNICAST,
///     next_hops: &hops,
///     ..RouteRequest::to(to)
/// };
/// let mut buffer = [0; 256];
/// let len = route.put(Operation::Add, 1, Order::NATIVE, &mut buffer)?.len();
/// assert_eq!(len, 72);
///
/// // Another one in the same datagram.
/// let second = RouteRequest { priority: Some(100), ..route };
/// let len = len + second.put(Operation::Add, 2, Order::NATIVE, &mut buffer[len..])?.len();
/// assert_eq!(len, 72 + 80);
/// # Ok::<(), rtnl::Error>(())
/// ```
#[derive(Clone, Copy, Debug, Default, PartialEq, Eq, Hash)]
pub struct RouteRequest<'a> {
    /// As `AF_INET6`; where it is `AF_UNSPEC`, that of the first address that is there is put, of
    /// the destination, the source, the gateway, the preferred source and the next hops' gateways,
    /// and `AF_INET` where there is none, as by ip(8).
    pub address_family: u8,
    /// Where it leads: `RTA_DST`, which a default route has not.
    pub destination: Option<Prefix>,
    /// Where packets must come from: `RTA_SRC`.
    pub source: Option<Prefix>,
    /// The type of service of packets.
    pub type_of_service: u8,
    /// Its table, `RT_TABLE_*`: `RTA_TABLE` where it is above 255.
    pub table: u32,
    /// Who makes it, `RTPROT_*`.
    pub protocol: u8,
    /// How far its destination is, `RT_SCOPE_*`.
    pub scope: u8,
    /// What becomes of a packet, `RTN_*`. In C it is `rtm_type`.
    pub route_type: u8,
    /// Flags, `RTM_F_*` and `RTNH_F_*`, as `RTNH_F_ONLINK` where the gateway is on the link though
    /// no address says so.
    pub flags: u32,
    /// The gateway: `RTA_GATEWAY`.
    pub gateway: Option<IpAddr>,
    /// The address that packets get for their source: `RTA_PREFSRC`.
    pub preferred_source: Option<IpAddr>,
    /// Its priority, of which the least is taken first: `RTA_PRIORITY`.
    pub priority: Option<u32>,
    /// The index of the interface that it leads out of: `RTA_OIF`.
    pub out_interface: Option<u32>,
    /// Its metrics: `RTA_METRICS`.
    pub metrics: &'a [Metric],
    /// Its next hops, where it has more than one: `RTA_MULTIPATH`.
    pub next_hops: &'a [NextHopRequest],
}

impl RouteRequest<'_> {
    /// That of a route to these addresses, of their family, and with nothing else.
    pub fn to(prefix: Prefix) -> Self {
        let (address_family, destination) = (family_of(prefix.address), Some(prefix));
        RouteRequest { address_family, destination, ..RouteRequest::default() }
    }

    /// Its addresses, of which the first says its family.
    fn addresses(&self) -> impl Iterator<Item = Option<IpAddr>> + '_ {
        let (to, from) = (address_of(self.destination), address_of(self.source));
        let own = [to, from, self.gateway, self.preferred_source];
        own.into_iter().chain(self.next_hops.iter().map(NextHopRequest::gateway))
    }

    fn with_raw(&self, call: impl FnOnce(&rtnlc_route_request) -> rtnlc_put) -> rtnlc_put {
        let destination = Octets::of_prefix(self.destination);
        let source = Octets::of_prefix(self.source);
        let gateway = Octets::of(self.gateway);
        let preferred_source = Octets::of(self.preferred_source);
        call(&rtnlc_route_request {
            destination: destination.raw(),
            source: source.raw(),
            gateway: gateway.raw(),
            preferred_source: preferred_source.raw(),
            metrics: self.metrics.as_ptr().cast(),
            metric_count: self.metrics.len(),
            hops: self.next_hops.as_ptr().cast(),
            hop_count: self.next_hops.len(),
            table: self.table,
            flags: self.flags,
            priority: self.priority.unwrap_or(0),
            oif: self.out_interface.unwrap_or(0),
            has_priority: self.priority.is_some(),
            has_oif: self.out_interface.is_some(),
            family: family_or(self.address_family, self.addresses(), AF_INET),
            destination_length: len_of(self.destination),
            source_length: len_of(self.source),
            tos: self.type_of_service,
            protocol: self.protocol,
            scope: self.scope,
            route_type: self.route_type,
        })
    }
}

super::put!(RouteRequest, rtnlc_request_route);
