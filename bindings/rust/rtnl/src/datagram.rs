//! Datagrams and their messages.

use crate::attribute::Attributes;
use crate::constants::*;
use crate::family::Family;
use crate::names::{type_name, Context, Name};
use crate::tape::Event;
use crate::views::{Address, Link, Neighbour, Route, Rule};
use crate::Order;
use rtnlc_sys::RTNLC_MESSAGE;
use std::fmt;
use std::iter::FusedIterator;

/// The bytes of a message's header, `struct nlmsghdr`.
const HEADER: usize = 16;

/// A datagram that was found to keep all rules, as [`Tape::read`](crate::Tape::read) hands it out.
#[derive(Clone, Copy)]
pub struct Datagram<'a> {
    bytes: &'a [u8],
    events: &'a [Event],
    order: Order,
}

impl<'a> Datagram<'a> {
    #[inline]
    pub(crate) fn new(bytes: &'a [u8], events: &'a [Event], order: Order) -> Datagram<'a> {
        Datagram { bytes, events, order }
    }

    /// Its messages, one after another.
    #[inline]
    pub fn messages(&self) -> Messages<'a> {
        Messages { bytes: self.bytes, events: self.events, order: self.order }
    }

    /// Its bytes.
    pub fn as_bytes(&self) -> &'a [u8] {
        self.bytes
    }

    /// All of its heads, in the order in which they stand there.
    #[inline]
    pub fn events(&self) -> &'a [Event] {
        self.events
    }
}

impl<'a> IntoIterator for Datagram<'a> {
    type Item = Message<'a>;
    type IntoIter = Messages<'a>;

    fn into_iter(self) -> Messages<'a> {
        self.messages()
    }
}

/// As the list of its messages.
impl fmt::Debug for Datagram<'_> {
    fn fmt(&self, f: &mut fmt::Formatter<'_>) -> fmt::Result {
        f.debug_list().entries(self.messages()).finish()
    }
}

/// The messages of a datagram.
#[derive(Clone)]
pub struct Messages<'a> {
    bytes: &'a [u8],
    events: &'a [Event],
    order: Order,
}

impl<'a> Iterator for Messages<'a> {
    type Item = Message<'a>;

    #[inline]
    fn next(&mut self) -> Option<Message<'a>> {
        let inside = self.events.get(1..)?;
        let count = inside.iter().position(|it| it.0.sort == RTNLC_MESSAGE);
        let (own, rest) = self.events.split_at(count.map_or(self.events.len(), |it| it + 1));
        self.events = rest;
        Message::new(self.bytes, own, self.order)
    }
}

impl FusedIterator for Messages<'_> {}

/// As the list of those that are still to come.
impl fmt::Debug for Messages<'_> {
    fn fmt(&self, f: &mut fmt::Formatter<'_>) -> fmt::Result {
        f.debug_list().entries(self.clone()).finish()
    }
}

/// What a message of a family does.
#[derive(Clone, Copy, Debug, PartialEq, Eq, PartialOrd, Ord, Hash)]
pub enum Action {
    /// `RTM_NEW*`: the object is there, or is to be made.
    New,
    /// `RTM_DEL*`: it is gone, or is to be removed.
    Delete,
    /// `RTM_GET*`: a request.
    Get,
    /// `RTM_SET*`: it is to be changed.
    Set,
}

/// What a message holds.
#[derive(Clone, Copy, Debug)]
#[non_exhaustive]
pub enum Body<'a> {
    /// `RTM_NEWLINK`, `RTM_DELLINK` or `RTM_SETLINK`.
    Link(Link<'a>),
    /// `RTM_NEWADDR` or `RTM_DELADDR`.
    Address(Address<'a>),
    /// `RTM_NEWROUTE` or `RTM_DELROUTE`.
    Route(Route<'a>),
    /// `RTM_NEWNEIGH` or `RTM_DELNEIGH`.
    Neighbour(Neighbour<'a>),
    /// `RTM_NEWRULE` or `RTM_DELRULE`.
    Rule(Rule<'a>),
    /// `NLMSG_ERROR`: a negative errno, or 0 for an acknowledgement.
    Error(i32),
    /// `NLMSG_DONE`, the end of a dump: its status, 0 where it has none.
    Done(i32),
    /// Any other: its bytes.
    Other(&'a [u8]),
}

/// A message, without a copy.
#[derive(Clone, Copy)]
pub struct Message<'a> {
    bytes: &'a [u8],
    /// Its own event, and behind it those of the heads in it.
    events: &'a [Event],
    header: &'a [u8; HEADER],
    order: Order,
}

impl<'a> Message<'a> {
    #[inline]
    pub(crate) fn new(bytes: &'a [u8], events: &'a [Event], order: Order) -> Option<Message<'a>> {
        let place = events.first()?.place();
        let header = bytes.get(place..place + HEADER)?.try_into().ok()?;
        Some(Message { bytes, events, header, order })
    }

    #[inline]
    fn u32_at(&self, place: usize) -> u32 {
        let h = self.header;
        self.order.u32([h[place], h[place + 1], h[place + 2], h[place + 3]])
    }

    /// Its type, as [`RTM_NEWLINK`].
    #[inline]
    pub fn kind(&self) -> u16 {
        self.order.u16([self.header[4], self.header[5]])
    }

    /// The name of its type in the kernel's headers, as `RTM_NEWLINK`, where it has one.
    pub fn type_name(&self) -> Option<Name> {
        type_name(self.kind())
    }

    /// Its flags, `NLM_F_*`.
    #[inline]
    pub fn flags(&self) -> u16 {
        self.order.u16([self.header[6], self.header[7]])
    }

    /// Its sequence number.
    #[inline]
    pub fn sequence(&self) -> u32 {
        self.u32_at(8)
    }

    /// Its port id.
    #[inline]
    pub fn port(&self) -> u32 {
        self.u32_at(12)
    }

    /// Where it stands, in bytes from the front of the datagram.
    #[inline]
    pub fn place(&self) -> usize {
        self.events[0].place()
    }

    /// The family whose objects messages of its type are about.
    #[inline]
    pub fn family(&self) -> Option<Family> {
        Family::of(self.kind())
    }

    /// What it does to an object of a family.
    #[inline]
    pub fn action(&self) -> Option<Action> {
        Some(match self.kind() {
            RTM_NEWLINK | RTM_NEWADDR | RTM_NEWROUTE | RTM_NEWNEIGH | RTM_NEWRULE => Action::New,
            RTM_DELLINK | RTM_DELADDR | RTM_DELROUTE | RTM_DELNEIGH | RTM_DELRULE => {
                Action::Delete
            }
            RTM_GETLINK | RTM_GETADDR | RTM_GETROUTE | RTM_GETNEIGH | RTM_GETRULE => Action::Get,
            RTM_SETLINK => Action::Set,
            _ => return None,
        })
    }

    /// What stands behind its header, without padding.
    #[inline]
    pub fn payload(&self) -> &'a [u8] {
        self.bytes.get(self.events[0].behind(HEADER)).unwrap_or_default()
    }

    /// All of its bytes, without the padding behind it.
    #[inline]
    pub fn as_bytes(&self) -> &'a [u8] {
        let place = self.place();
        self.bytes.get(place..self.events[0].behind(HEADER).end).unwrap_or_default()
    }

    /// Its own head, and behind it those in it.
    #[inline]
    pub(crate) fn events(&self) -> &'a [Event] {
        self.events
    }

    /// What it holds.
    #[inline]
    pub fn body(&self) -> Body<'a> {
        let payload = self.payload();
        let number = payload.get(..4).and_then(|it| it.try_into().ok());
        let number = number.map(|it| self.order.u32(it) as i32);
        let found = match self.kind() {
            NLMSG_ERROR => number.map(Body::Error),
            NLMSG_DONE => Some(Body::Done(number.unwrap_or(0))),
            _ => match self.family() {
                Some(Family::Link) => self.link().map(Body::Link),
                Some(Family::Address) => self.address().map(Body::Address),
                Some(Family::Route) => self.route().map(Body::Route),
                Some(Family::Neighbour) => self.neighbour().map(Body::Neighbour),
                Some(Family::Rule) => self.rule().map(Body::Rule),
                None => None,
            },
        };
        found.unwrap_or(Body::Other(payload))
    }

    /// The link that it is about; of an `RTM_GETLINK` there is none.
    #[inline]
    pub fn link(self) -> Option<Link<'a>> {
        Link::new(self)
    }

    /// The address that it is about; of an `RTM_GETADDR` there is none.
    #[inline]
    pub fn address(self) -> Option<Address<'a>> {
        Address::new(self)
    }

    /// The route that it is about; of an `RTM_GETROUTE` there is none.
    #[inline]
    pub fn route(self) -> Option<Route<'a>> {
        Route::new(self)
    }

    /// The neighbour that it is about; of an `RTM_GETNEIGH` there is none.
    #[inline]
    pub fn neighbour(self) -> Option<Neighbour<'a>> {
        Neighbour::new(self)
    }

    /// The rule that it is about; of an `RTM_GETRULE` there is none.
    #[inline]
    pub fn rule(self) -> Option<Rule<'a>> {
        Rule::new(self)
    }

    /// The attributes of its body: of a message of no family, or of a `GET`, there are none.
    #[inline]
    pub fn attributes(&self) -> Attributes<'a> {
        self.attributes_of(self.family().map_or(Context::None, Family::context))
    }

    #[inline]
    pub(crate) fn attributes_of(&self, context: Context) -> Attributes<'a> {
        Attributes::new(self.bytes, &self.events[1..], self.order, context)
    }

    /// The front of its payload, where this is a message about an object of the family.
    #[inline]
    pub(crate) fn head<const SIZE: usize>(&self, family: Family) -> Option<&'a [u8; SIZE]> {
        if self.family() != Some(family) || self.action() == Some(Action::Get) {
            return None;
        }
        self.payload().get(..SIZE)?.try_into().ok()
    }

    #[inline]
    pub(crate) fn order(&self) -> Order {
        self.order
    }
}

impl fmt::Debug for Message<'_> {
    fn fmt(&self, f: &mut fmt::Formatter<'_>) -> fmt::Result {
        f.debug_struct("Message")
            .field("kind", &self.kind())
            .field("flags", &self.flags())
            .field("sequence", &self.sequence())
            .field("port", &self.port())
            .field("body", &self.body())
            .finish()
    }
}
