use super::{raw_text, Octets};
use crate::heads::family_of;
use crate::Prefix;
use rtnlc_sys::*;
use std::ffi::OsStr;
use std::net::IpAddr;

/// How long an address holds, in seconds from now, [`u32::MAX`] for ever: `IFA_CACHEINFO`.
#[derive(Clone, Copy, Debug, PartialEq, Eq, Hash)]
pub struct Lifetimes {
    /// How long new connections take it for their source: `ifa_prefered`.
    pub preferred: u32,
    /// How long it is there: `ifa_valid`.
    pub valid: u32,
}

/// What is asked for of an address of an interface, as by `ip address`: it is added, replaced,
/// changed or taken away.
///
/// Its address family is that of `local`. A field that is [`None`], or a text of no byte, isn't
/// put.
///
/// ```
/// use rtnl::{AddressRequest, Operation, Order, Prefix};
/// use std::net::Ipv4Addr;
///
/// // ip address add 192.0.2.11/24 broadcast 192.0.2.255 dev NAME, whose index is 10
/// let own = Prefix { address: Ipv4Addr::new(192, 0, 2, 11).into(), len: 24 };
/// let address = AddressRequest {
///     broadcast: Some(Ipv4Addr::new(192, 0, 2, 255).into()),
///     ..AddressRequest::of(own, 10)
/// };
/// let mut buffer = [0; 128];
/// let request = address.put(Operation::Add, 1, Order::NATIVE, &mut buffer)?;
/// assert_eq!(request.len(), 48);
/// # Ok::<(), rtnl::Error>(())
/// ```
#[derive(Clone, Copy, Debug, PartialEq, Eq, Hash)]
pub struct AddressRequest<'a> {
    /// This end's address, `IFA_LOCAL`, with the length of its network's prefix.
    pub local: Prefix,
    /// The other end's, where the interface leads to one peer alone, whose length counts then, and
    /// not that of `local`: `IFA_ADDRESS`, which else is `local`, too.
    pub peer: Option<Prefix>,
    /// The address to which all on the network listen: `IFA_BROADCAST`.
    pub broadcast: Option<IpAddr>,
    /// Its label, of 15 bytes at most, which begins with the name of its interface: `IFA_LABEL`.
    pub label: Option<&'a OsStr>,
    /// The index of its interface.
    pub index: u32,
    /// Its flags, `IFA_F_*`: `IFA_FLAGS` where one of them is above 255.
    pub flags: u32,
    /// Where it holds, `RT_SCOPE_*`.
    pub scope: u8,
    /// How long it holds; for ever where nothing is said.
    pub lifetimes: Option<Lifetimes>,
}

impl AddressRequest<'_> {
    /// That of an address with the length of its network's prefix, on an interface of this index,
    /// and with nothing else.
    pub fn of(prefix: Prefix, index: u32) -> Self {
        AddressRequest {
            local: prefix,
            peer: None,
            broadcast: None,
            label: None,
            index,
            flags: 0,
            scope: 0,
            lifetimes: None,
        }
    }

    fn with_raw(&self, call: impl FnOnce(&rtnlc_addr_request) -> rtnlc_put) -> rtnlc_put {
        let (local, peer) = (Octets::of_prefix(Some(self.local)), Octets::of_prefix(self.peer));
        let broadcast = Octets::of(self.broadcast);
        call(&rtnlc_addr_request {
            local: local.raw(),
            peer: peer.raw(),
            broadcast: broadcast.raw(),
            label: raw_text(self.label),
            index: self.index,
            flags: self.flags,
            preferred: self.lifetimes.map_or(0, |it| it.preferred),
            valid: self.lifetimes.map_or(0, |it| it.valid),
            has_lifetimes: self.lifetimes.is_some(),
            family: family_of(self.local.address),
            prefix_length: self.peer.unwrap_or(self.local).len,
            scope: self.scope,
        })
    }
}

super::put!(AddressRequest, rtnlc_request_addr);
