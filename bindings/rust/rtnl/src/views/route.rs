use super::view;
use crate::attribute::NextHops;
use crate::constants::*;
use crate::{Family, Prefix};
use std::fmt;
use std::net::IpAddr;

view! {
    /// A route: `struct rtmsg`, and attributes `RTA_*`.
    Route, 12, Family::Route
}

impl<'a> Route<'a> {
    /// The address family, as [`AF_INET`].
    #[inline]
    pub fn address_family(&self) -> u8 {
        self.head[0]
    }

    /// How many bits of the destination count: 0 of a default route.
    #[inline]
    pub fn destination_len(&self) -> u8 {
        self.head[1]
    }

    /// Who made it, `RTPROT_*`.
    pub fn protocol(&self) -> u8 {
        self.head[5]
    }

    /// How far its destination is, `RT_SCOPE_*`.
    pub fn scope(&self) -> u8 {
        self.head[6]
    }

    /// What becomes of a packet, `RTN_*`. In C it is `rtm_type`.
    pub fn route_type(&self) -> u8 {
        self.head[7]
    }

    /// Its flags, `RTM_F_*` and `RTNH_F_*`.
    pub fn flags(&self) -> u32 {
        self.u32_at(8)
    }

    /// Where it leads: `RTA_DST`, which a default route has not.
    #[inline]
    pub fn destination(&self) -> Option<Prefix> {
        let address = self.find(RTA_DST)?.address_of(self.address_family())?;
        Some(Prefix { address, len: self.destination_len() })
    }

    /// Whether it is a default route: no bit of its destination counts.
    #[inline]
    pub fn is_default(&self) -> bool {
        self.destination_len() == 0
    }

    /// The gateway: `RTA_GATEWAY`, or the address in `RTA_VIA`.
    #[inline]
    pub fn gateway(&self) -> Option<IpAddr> {
        self.attributes().gateway()
    }

    /// The index of the interface that it leads out of: `RTA_OIF`.
    #[inline]
    pub fn out_interface(&self) -> Option<u32> {
        self.find(RTA_OIF)?.u32()
    }

    /// The number of its table: `RTA_TABLE`, or where it isn't there that of the head.
    #[inline]
    pub fn table(&self) -> u32 {
        self.find(RTA_TABLE).and_then(|it| it.u32()).unwrap_or_else(|| self.head[4].into())
    }

    /// Its priority, of which the least is taken first: `RTA_PRIORITY`.
    pub fn priority(&self) -> Option<u32> {
        self.find(RTA_PRIORITY)?.u32()
    }

    /// The address that packets get for their source: `RTA_PREFSRC`.
    pub fn preferred_source(&self) -> Option<IpAddr> {
        self.find(RTA_PREFSRC)?.address_of(self.address_family())
    }

    /// The next hops of a route that has more than one: `RTA_MULTIPATH`.
    #[inline]
    pub fn next_hops(&self) -> NextHops<'a> {
        self.find(RTA_MULTIPATH).map_or_else(NextHops::none, |it| it.next_hops())
    }
}

impl fmt::Debug for Route<'_> {
    fn fmt(&self, f: &mut fmt::Formatter<'_>) -> fmt::Result {
        f.debug_struct("Route")
            .field("address_family", &self.address_family())
            .field("destination", &self.destination())
            .field("gateway", &self.gateway())
            .field("out_interface", &self.out_interface())
            .field("table", &self.table())
            .field("priority", &self.priority())
            .field("protocol", &self.protocol())
            .field("route_type", &self.route_type())
            .field("next_hops", &self.next_hops())
            .finish_non_exhaustive()
    }
}
