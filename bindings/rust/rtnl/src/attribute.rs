//! Attributes and next hops.

use crate::constants::{AF_INET, AF_INET6, RTA_GATEWAY, RTA_VIA};
use crate::names::{attribute_name, Context, Name};
use crate::tape::{Event, Sort};
use crate::values::{address_of, HardwareAddress};
use crate::Order;
use std::ffi::OsStr;
use std::fmt;
use std::iter::FusedIterator;
use std::net::IpAddr;
use std::os::unix::ffi::OsStrExt;

/// The bytes of an attribute's head, `struct rtattr`.
const ATTRIBUTE: usize = 4;
/// The bytes of a next hop's head, `struct rtnexthop`.
const NEXT_HOP: usize = 8;

/// A part of a tape: heads of one level, and behind each those in it.
#[derive(Clone, Copy)]
struct Region<'a> {
    bytes: &'a [u8],
    events: &'a [Event],
    order: Order,
    context: Context,
}

impl<'a> Region<'a> {
    /// The head at the front, with those in it.
    #[inline]
    fn take_front(&mut self) -> Option<Region<'a>> {
        let level = self.events.first()?.level();
        let inside = self.events[1..].iter().position(|it| it.level() <= level);
        let (own, rest) = self.events.split_at(inside.map_or(self.events.len(), |it| it + 1));
        self.events = rest;
        Some(Region { events: own, ..*self })
    }

    /// What stands in the head at the front, where that has a sort that holds others.
    #[inline]
    fn inside(&self, sort: Sort, context: Context) -> Region<'a> {
        let (own, inside) = self.events.split_at(1);
        let events = if own[0].sort() == sort { inside } else { &[] };
        Region { events, context, ..*self }
    }

    #[inline]
    fn behind(&self, head: usize) -> &'a [u8] {
        self.bytes.get(self.events[0].behind(head)).unwrap_or_default()
    }
}

/// The attributes of a message, of another attribute, or of a next hop.
#[derive(Clone, Copy)]
pub struct Attributes<'a>(Region<'a>);

impl<'a> Attributes<'a> {
    #[inline]
    pub(crate) fn new(
        bytes: &'a [u8],
        events: &'a [Event],
        order: Order,
        context: Context,
    ) -> Attributes<'a> {
        Attributes(Region { bytes, events, order, context })
    }

    /// The first attribute of this number, which is the one that counts where it stands twice.
    #[inline]
    pub fn find(&self, number: u16) -> Option<Attribute<'a>> {
        self.first(|it| it == number)
    }

    /// The first attribute whose number is one of those.
    #[inline]
    fn first(&self, is_one: impl Fn(u16) -> bool) -> Option<Attribute<'a>> {
        let region = self.0;
        let level = region.events.first()?.level();
        let is_it = |it: &Event| is_one(it.number()) && it.level() == level;
        let at = region.events.iter().position(is_it)?;
        Some(Attribute(Region { events: &region.events[at..], ..region }))
    }

    /// Of a route or a next hop: `RTA_GATEWAY`, or the address in `RTA_VIA`.
    #[inline]
    pub(crate) fn gateway(&self) -> Option<IpAddr> {
        let first = self.first(|it| it == RTA_GATEWAY || it == RTA_VIA)?;
        if first.number() == RTA_GATEWAY {
            return first.ip_address();
        }
        self.find(RTA_GATEWAY).map_or_else(|| first.via(), |it| it.ip_address())
    }

    /// All of them, one after another.
    #[inline]
    pub fn iter(&self) -> AttributesIter<'a> {
        AttributesIter(self.0)
    }

    /// Whether there are none.
    pub fn is_empty(&self) -> bool {
        self.0.events.is_empty()
    }

    /// What the numbers of these attributes mean.
    pub fn context(&self) -> Context {
        self.0.context
    }
}

impl<'a> IntoIterator for Attributes<'a> {
    type Item = Attribute<'a>;
    type IntoIter = AttributesIter<'a>;

    #[inline]
    fn into_iter(self) -> AttributesIter<'a> {
        self.iter()
    }
}

impl fmt::Debug for Attributes<'_> {
    fn fmt(&self, f: &mut fmt::Formatter<'_>) -> fmt::Result {
        f.debug_list().entries(*self).finish()
    }
}

/// An iterator over [`Attributes`].
#[derive(Clone)]
pub struct AttributesIter<'a>(Region<'a>);

impl<'a> Iterator for AttributesIter<'a> {
    type Item = Attribute<'a>;

    #[inline]
    fn next(&mut self) -> Option<Attribute<'a>> {
        self.0.take_front().map(Attribute)
    }
}

impl FusedIterator for AttributesIter<'_> {}

/// As the list of those that are still to come.
impl fmt::Debug for AttributesIter<'_> {
    fn fmt(&self, f: &mut fmt::Formatter<'_>) -> fmt::Result {
        f.debug_list().entries(self.clone()).finish()
    }
}

/// An attribute, without a copy.
///
/// The calls that answer a value say [`None`] where the payload has another size, or holds
/// attributes or next hops; [`payload`](Attribute::payload) has its bytes, whatever they are.
/// Numbers are in the order of the datagram, or in network order where the attribute says so.
#[derive(Clone, Copy)]
pub struct Attribute<'a>(Region<'a>);

impl<'a> Attribute<'a> {
    #[inline]
    fn event(&self) -> &'a Event {
        &self.0.events[0]
    }

    /// Its number, without the two flag bits, as [`IFLA_MTU`](crate::constants::IFLA_MTU).
    #[inline]
    pub fn number(&self) -> u16 {
        self.event().number()
    }

    /// Its name in the kernel's headers, as `IFLA_MTU`, where it has one.
    pub fn name(&self) -> Option<Name> {
        attribute_name(self.0.context, self.number())
    }

    /// Whether it has the flag `NLA_F_NESTED`. Some hold attributes without it.
    pub fn is_nested(&self) -> bool {
        self.event().is_nested()
    }

    /// Whether it has the flag `NLA_F_NET_BYTEORDER`: numbers in it are in network order.
    #[inline]
    pub fn is_network_order(&self) -> bool {
        self.event().is_network_order()
    }

    /// Whether it holds bytes, attributes or next hops.
    #[inline]
    pub fn sort(&self) -> Sort {
        self.event().sort()
    }

    /// Where its head stands, in bytes from the front of the datagram.
    pub fn place(&self) -> usize {
        self.event().place()
    }

    /// All bytes behind its head, without padding.
    #[inline]
    pub fn payload(&self) -> &'a [u8] {
        self.0.behind(ATTRIBUTE)
    }

    /// The attributes that it holds, or none.
    #[inline]
    pub fn attributes(&self) -> Attributes<'a> {
        Attributes(self.inside(Sort::List))
    }

    /// The next hops that it holds, or none.
    #[inline]
    pub fn next_hops(&self) -> NextHops<'a> {
        NextHops(self.inside(Sort::NextHops))
    }

    #[inline]
    fn inside(&self, sort: Sort) -> Region<'a> {
        let mut region = self.0;
        let own = region.take_front().unwrap_or(region);
        own.inside(sort, self.0.context.inside(self.number(), self.is_nested()))
    }

    /// The payload where it is bytes.
    #[inline]
    fn bytes(&self) -> Option<&'a [u8]> {
        (self.sort() == Sort::Bytes).then(|| self.payload())
    }

    /// The payload where it is so many bytes.
    #[inline]
    fn array<const SIZE: usize>(&self) -> Option<[u8; SIZE]> {
        self.bytes()?.try_into().ok()
    }

    #[inline]
    fn order(&self) -> Order {
        if self.is_network_order() {
            Order::Big
        } else {
            self.0.order
        }
    }

    /// The number of one byte.
    #[inline]
    pub fn u8(&self) -> Option<u8> {
        self.array().map(u8::from_ne_bytes)
    }

    /// The number of two bytes.
    #[inline]
    pub fn u16(&self) -> Option<u16> {
        Some(self.order().u16(self.array()?))
    }

    /// The number of four bytes.
    #[inline]
    pub fn u32(&self) -> Option<u32> {
        Some(self.order().u32(self.array()?))
    }

    /// The number of eight bytes.
    #[inline]
    pub fn u64(&self) -> Option<u64> {
        Some(self.order().u64(self.array()?))
    }

    /// The bytes before the first zero byte, or all: names needn't be UTF-8.
    #[inline]
    pub fn text(&self) -> Option<&'a OsStr> {
        let text = self.bytes()?.split(|it| *it == 0).next()?;
        Some(OsStr::from_bytes(text))
    }

    /// The IPv4 address of four bytes, or the IPv6 address of sixteen.
    #[inline]
    pub fn ip_address(&self) -> Option<IpAddr> {
        let bytes = self.bytes()?;
        address_of(AF_INET.into(), bytes).or_else(|| address_of(AF_INET6.into(), bytes))
    }

    /// The address of this address family, as [`AF_INET`].
    #[inline]
    pub(crate) fn address_of(&self, family: u8) -> Option<IpAddr> {
        address_of(family.into(), self.bytes()?)
    }

    /// The address in `struct rtvia`, an address family and as many bytes as it has.
    #[inline]
    pub(crate) fn via(&self) -> Option<IpAddr> {
        let (family, address) = self.bytes().filter(|it| it.len() > 2)?.split_at(2);
        address_of(self.order().u16([family[0], family[1]]), address)
    }

    /// The hardware address, where there is a byte at least.
    #[inline]
    pub fn hardware_address(&self) -> Option<HardwareAddress<'a>> {
        self.bytes().and_then(HardwareAddress::new)
    }
}

impl fmt::Debug for Attribute<'_> {
    fn fmt(&self, f: &mut fmt::Formatter<'_>) -> fmt::Result {
        let mut found = f.debug_struct("Attribute");
        found.field("number", &self.number());
        if let Some(name) = self.name() {
            found.field("name", &name);
        }
        match self.sort() {
            Sort::List => found.field("attributes", &self.attributes()),
            Sort::NextHops => found.field("next_hops", &self.next_hops()),
            _ => found.field("payload", &self.payload()),
        };
        found.finish()
    }
}

/// The next hops of a route, one after another.
#[derive(Clone)]
pub struct NextHops<'a>(Region<'a>);

impl<'a> NextHops<'a> {
    /// None, as those of a route that has no attribute for them.
    pub(crate) fn none() -> NextHops<'a> {
        let (bytes, events) = (&[], &[]);
        NextHops(Region { bytes, events, order: Order::NATIVE, context: Context::None })
    }
}

impl<'a> Iterator for NextHops<'a> {
    type Item = NextHop<'a>;

    #[inline]
    fn next(&mut self) -> Option<NextHop<'a>> {
        let own = self.0.take_front()?;
        let place = own.events[0].place();
        let head = own.bytes.get(place..place + NEXT_HOP)?.try_into().ok()?;
        Some(NextHop { region: own, head })
    }
}

impl FusedIterator for NextHops<'_> {}

/// As the list of those that are still to come.
impl fmt::Debug for NextHops<'_> {
    fn fmt(&self, f: &mut fmt::Formatter<'_>) -> fmt::Result {
        f.debug_list().entries(self.clone()).finish()
    }
}

/// A next hop of a route: `struct rtnexthop`, and attributes `RTA_*`.
#[derive(Clone, Copy)]
pub struct NextHop<'a> {
    region: Region<'a>,
    head: &'a [u8; NEXT_HOP],
}

impl<'a> NextHop<'a> {
    /// Its flags, `RTNH_F_*`.
    #[inline]
    pub fn flags(&self) -> u8 {
        self.head[2]
    }

    /// Its share of the packets, from 1 to 256: the kernel's field, `rtnh_hops`, has one less.
    pub fn weight(&self) -> u16 {
        u16::from(self.head[3]) + 1
    }

    /// The index of the interface that it leads out of; 0 for none.
    #[inline]
    pub fn index(&self) -> u32 {
        let h = self.head;
        self.region.order.u32([h[4], h[5], h[6], h[7]])
    }

    /// Its attributes, `RTA_*`.
    #[inline]
    pub fn attributes(&self) -> Attributes<'a> {
        Attributes(self.region.inside(Sort::NextHop, self.region.context))
    }

    /// The gateway: `RTA_GATEWAY`, or the address in `RTA_VIA`.
    #[inline]
    pub fn gateway(&self) -> Option<IpAddr> {
        self.attributes().gateway()
    }
}

impl fmt::Debug for NextHop<'_> {
    fn fmt(&self, f: &mut fmt::Formatter<'_>) -> fmt::Result {
        f.debug_struct("NextHop")
            .field("flags", &self.flags())
            .field("weight", &self.weight())
            .field("index", &self.index())
            .field("attributes", &self.attributes())
            .finish()
    }
}
