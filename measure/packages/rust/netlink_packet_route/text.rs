//! What the programs over netlink-packet-route print.
#![allow(dead_code)] // No program uses all of it.

use crate::source::Destination;
use netlink_packet_route::nlas::link::{Nla, State};
use netlink_packet_route::{LinkMessage, RouteMessage};
use std::fmt::{Display, Formatter, Result};
use std::net::IpAddr;

pub fn name(link: &LinkMessage) -> Option<&str> {
    link.nlas.iter().find_map(|nla| match nla {
        Nla::IfName(name) => Some(name.as_str()),
        _ => None,
    })
}

pub fn state(link: &LinkMessage) -> Option<&'static str> {
    link.nlas.iter().find_map(|nla| match nla {
        Nla::OperState(state) => match state {
            State::Unknown => Some("UNKNOWN"),
            State::NotPresent => Some("NOTPRESENT"),
            State::Down => Some("DOWN"),
            State::LowerLayerDown => Some("LOWERLAYERDOWN"),
            State::Testing => Some("TESTING"),
            State::Dormant => Some("DORMANT"),
            State::Up => Some("UP"),
            State::Other(_) => None,
        },
        _ => None,
    })
}

pub struct Hardware<'a>(pub &'a [u8]);

impl Display for Hardware<'_> {
    fn fmt(&self, f: &mut Formatter<'_>) -> Result {
        for (at, byte) in self.0.iter().enumerate() {
            write!(f, "{}{byte:02x}", if at == 0 { "" } else { ":" })?;
        }
        Ok(())
    }
}

pub struct Prefix(pub IpAddr, pub u8);

impl Display for Prefix {
    fn fmt(&self, f: &mut Formatter<'_>) -> Result {
        write!(f, "{}/{}", self.0, self.1)
    }
}

pub fn ip_address(bytes: &[u8]) -> Option<IpAddr> {
    match bytes.len() {
        4 => <[u8; 4]>::try_from(bytes).ok().map(IpAddr::from),
        _ => <[u8; 16]>::try_from(bytes).ok().map(IpAddr::from),
    }
}

pub fn destination(route: &RouteMessage) -> Destination<Prefix> {
    match route.header.destination_prefix_length {
        0 => Destination::Default,
        length => Destination::Prefix(route.destination_prefix().map(|it| Prefix(it.0, length))),
    }
}
