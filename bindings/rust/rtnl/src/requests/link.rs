use super::{raw_bytes, raw_text};
use crate::HardwareAddress;
use rtnlc_sys::*;
use std::ffi::OsStr;

/// What is asked for of a link, as by `ip link`: it is made, some of its fields are set, or it is
/// taken away.
///
/// It is the interface with this index; or, where that is 0, the one with this name. With an
/// index, the name is its new one. A field that is [`None`], or a text of no byte, isn't put.
///
/// ```
/// use rtnl::{LinkRequest, Operation, Order};
///
/// // ip link set dev eth0 up mtu 1400
/// let link = LinkRequest {
///     name: Some("eth0".as_ref()),
///     up: Some(true),
///     mtu: Some(1_400),
///     ..LinkRequest::default()
/// };
/// let mut buffer = [0; 128];
/// let request = link.put(Operation::Set, 1, Order::NATIVE, &mut buffer)?;
/// assert_eq!(request.len(), 52);
/// # Ok::<(), rtnl::Error>(())
/// ```
#[derive(Clone, Copy, Debug, Default, PartialEq, Eq, Hash)]
pub struct LinkRequest<'a> {
    /// Its index; 0 where the name says which one it is, or the kernel chooses it.
    pub index: u32,
    /// Its name, of 15 bytes at most: `IFLA_IFNAME`.
    pub name: Option<&'a OsStr>,
    /// Whether it is brought up, or down: `IFF_UP`.
    pub up: Option<bool>,
    /// How many bytes a packet may have: `IFLA_MTU`.
    pub mtu: Option<u32>,
    /// The index of the interface that it is to belong to, as a bridge; 0 takes it out of the one
    /// that it belongs to: `IFLA_MASTER`.
    pub master: Option<u32>,
    /// The index of the interface that it lies on, as that of a VLAN: `IFLA_LINK`.
    pub link: Option<u32>,
    /// Its hardware address: `IFLA_ADDRESS`.
    pub hardware_address: Option<HardwareAddress<'a>>,
    /// What it is, where it is a virtual one, as `vlan` or `bridge`: `IFLA_INFO_KIND` in
    /// `IFLA_LINKINFO`.
    pub kind: Option<&'a OsStr>,
    /// What else its kind is told, as attributes in bytes, each with its head and its padding;
    /// none where there is no byte, or no kind: `IFLA_INFO_DATA` in `IFLA_LINKINFO`.
    pub data: &'a [u8],
}

impl LinkRequest<'_> {
    fn with_raw(&self, call: impl FnOnce(&rtnlc_link_request) -> rtnlc_put) -> rtnlc_put {
        call(&rtnlc_link_request {
            name: raw_text(self.name),
            address: raw_bytes(self.hardware_address.map(|it| it.as_bytes())),
            kind: raw_text(self.kind),
            data: raw_bytes(Some(self.data)),
            // In C the index has a sign; its bits are the same.
            index: self.index as i32,
            mtu: self.mtu.unwrap_or(0),
            master: self.master.unwrap_or(0),
            link: self.link.unwrap_or(0),
            has_mtu: self.mtu.is_some(),
            has_master: self.master.is_some(),
            has_link: self.link.is_some(),
            has_up: self.up.is_some(),
            up: self.up.unwrap_or(false),
        })
    }
}

super::put!(LinkRequest, rtnlc_request_link);
