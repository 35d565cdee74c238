use super::view;
use crate::constants::*;
use crate::{Family, Prefix};
use std::ffi::OsStr;
use std::fmt;
use std::net::IpAddr;

view! {
    /// An address of an interface: `struct ifaddrmsg`, and attributes `IFA_*`.
    Address, 8, Family::Address
}

impl<'a> Address<'a> {
    /// The address family, as [`AF_INET`].
    #[inline]
    pub fn address_family(&self) -> u8 {
        self.head[0]
    }

    /// How many bits of the address are those of its network.
    #[inline]
    pub fn prefix_len(&self) -> u8 {
        self.head[1]
    }

    /// Where it holds, `RT_SCOPE_*`.
    pub fn scope(&self) -> u8 {
        self.head[3]
    }

    /// The index of its interface.
    #[inline]
    pub fn index(&self) -> u32 {
        self.u32_at(4)
    }

    /// The address with the length of its prefix: `IFA_ADDRESS`, which is the other end's where
    /// the interface leads to one peer alone.
    #[inline]
    pub fn prefix(&self) -> Option<Prefix> {
        let address = self.find(IFA_ADDRESS)?.address_of(self.address_family())?;
        Some(Prefix { address, len: self.prefix_len() })
    }

    /// This end's address: `IFA_LOCAL`, which IPv6 mostly leaves out.
    #[inline]
    pub fn local(&self) -> Option<IpAddr> {
        self.find(IFA_LOCAL)?.address_of(self.address_family())
    }

    /// Its label: `IFA_LABEL`.
    pub fn label(&self) -> Option<&'a OsStr> {
        self.find(IFA_LABEL)?.text()
    }

    /// Its flags, `IFA_F_*`: `IFA_FLAGS`, or where it isn't there the eight of the head.
    #[inline]
    pub fn flags(&self) -> u32 {
        self.find(IFA_FLAGS).and_then(|it| it.u32()).unwrap_or_else(|| self.head[2].into())
    }
}

impl fmt::Debug for Address<'_> {
    fn fmt(&self, f: &mut fmt::Formatter<'_>) -> fmt::Result {
        f.debug_struct("Address")
            .field("index", &self.index())
            .field("prefix", &self.prefix())
            .field("local", &self.local())
            .field("label", &self.label())
            .field("flags", &self.flags())
            .finish_non_exhaustive()
    }
}
