use super::view;
use crate::constants::*;
use crate::{Family, HardwareAddress};
use std::fmt;
use std::net::IpAddr;

view! {
    /// A neighbour, or an entry of a bridge's forwarding table: `struct ndmsg`, and attributes
    /// `NDA_*`.
    Neighbour, 12, Family::Neighbour
}

impl<'a> Neighbour<'a> {
    /// The address family, as [`AF_INET`], or [`AF_BRIDGE`].
    #[inline]
    pub fn address_family(&self) -> u8 {
        self.head[0]
    }

    /// The index of the interface that it is seen on.
    #[inline]
    pub fn index(&self) -> u32 {
        self.u32_at(4)
    }

    /// What is known of it, `NUD_*`.
    #[inline]
    pub fn state(&self) -> u16 {
        self.message.order().u16([self.head[8], self.head[9]])
    }

    /// Its flags, `NTF_*`.
    pub fn flags(&self) -> u8 {
        self.head[10]
    }

    /// What becomes of a packet to it, `RTN_*`. In C it is `ndm_type`.
    pub fn route_type(&self) -> u8 {
        self.head[11]
    }

    /// Its address: `NDA_DST`, of four bytes or of sixteen.
    #[inline]
    pub fn address(&self) -> Option<IpAddr> {
        self.find(NDA_DST)?.ip_address()
    }

    /// Its address in the link layer: `NDA_LLADDR`.
    #[inline]
    pub fn link_layer_address(&self) -> Option<HardwareAddress<'a>> {
        self.find(NDA_LLADDR)?.hardware_address()
    }
}

impl fmt::Debug for Neighbour<'_> {
    fn fmt(&self, f: &mut fmt::Formatter<'_>) -> fmt::Result {
        f.debug_struct("Neighbour")
            .field("index", &self.index())
            .field("address", &self.address())
            .field("link_layer_address", &self.link_layer_address())
            .field("state", &self.state())
            .field("flags", &self.flags())
            .finish_non_exhaustive()
    }
}
