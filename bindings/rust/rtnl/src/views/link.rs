use super::view;
use crate::constants::*;
use crate::{Family, HardwareAddress, OperationalState};
use std::ffi::OsStr;
use std::fmt;

view! {
    /// An interface: `struct ifinfomsg`, and attributes `IFLA_*`.
    Link, 16, Family::Link
}

impl<'a> Link<'a> {
    /// Its index.
    #[inline]
    pub fn index(&self) -> u32 {
        self.u32_at(4)
    }

    /// Its flags, `IFF_*`.
    #[inline]
    pub fn flags(&self) -> u32 {
        self.u32_at(8)
    }

    /// The type of its hardware, `ARPHRD_*`.
    #[inline]
    pub fn hardware_type(&self) -> u16 {
        self.message.order().u16([self.head[2], self.head[3]])
    }

    /// Its name, which needn't be UTF-8: `IFLA_IFNAME`.
    #[inline]
    pub fn name(&self) -> Option<&'a OsStr> {
        self.find(IFLA_IFNAME)?.text()
    }

    /// How many bytes a packet may have: `IFLA_MTU`.
    #[inline]
    pub fn mtu(&self) -> Option<u32> {
        self.find(IFLA_MTU)?.u32()
    }

    /// Its hardware address: `IFLA_ADDRESS`.
    #[inline]
    pub fn hardware_address(&self) -> Option<HardwareAddress<'a>> {
        self.find(IFLA_ADDRESS)?.hardware_address()
    }

    /// The index of the interface that it belongs to, as a bridge: `IFLA_MASTER`.
    #[inline]
    pub fn master(&self) -> Option<u32> {
        self.find(IFLA_MASTER)?.u32()
    }

    /// What it is, as `vlan` or `bridge`: `IFLA_INFO_KIND` in `IFLA_LINKINFO`.
    pub fn kind(&self) -> Option<&'a OsStr> {
        self.find(IFLA_LINKINFO)?.attributes().find(IFLA_INFO_KIND)?.text()
    }

    /// Its operational state: `IFLA_OPERSTATE`.
    #[inline]
    pub fn operational_state(&self) -> Option<OperationalState> {
        self.find(IFLA_OPERSTATE)?.u8().map(OperationalState::from)
    }
}

impl fmt::Debug for Link<'_> {
    fn fmt(&self, f: &mut fmt::Formatter<'_>) -> fmt::Result {
        f.debug_struct("Link")
            .field("index", &self.index())
            .field("name", &self.name())
            .field("flags", &self.flags())
            .field("mtu", &self.mtu())
            .field("hardware_address", &self.hardware_address())
            .field("master", &self.master())
            .field("kind", &self.kind())
            .field("operational_state", &self.operational_state())
            .finish_non_exhaustive()
    }
}
