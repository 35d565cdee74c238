//! Prints a line for each notification of links, addresses, routes and neighbours, by
//! netlink-packet-route.

#[path = "../source.rs"]
mod source;
mod text;

use netlink_packet_route::nlas::{address, neighbour, route};
use netlink_packet_route::{NetlinkMessage, NetlinkPayload, RouteMessage, RtnlMessage};
use source::{OrDash, Out};
use std::error::Error;
use std::io::{self, Write};
use text::{destination, name, state, Hardware, Prefix};

fn main() -> Result<(), Box<dyn Error>> {
    let mut source = source::Source::open()?;
    let mut out = Out::new()?;
    while let Some(mut rest) = source.receive()? {
        while !rest.is_empty() {
            let message = NetlinkMessage::<RtnlMessage>::deserialize(rest)?;
            let length = message.header.length as usize;
            rest = rest.get(length.next_multiple_of(4)..).unwrap_or_default();
            if let NetlinkPayload::InnerMessage(change) = message.payload {
                print(&mut out, change)?;
                out.flush()?;
            }
        }
    }
    Ok(())
}

fn print(out: &mut impl Write, change: RtnlMessage) -> io::Result<()> {
    use RtnlMessage::*;
    let what = match change {
        NewLink(_) | NewAddress(_) | NewRoute(_) | NewNeighbour(_) => "new",
        _ => "del",
    };
    match change {
        NewLink(link) | DelLink(link) => {
            writeln!(out, "{what} link {} {}", OrDash(name(&link)), OrDash(state(&link)))
        }
        NewAddress(it) | DelAddress(it) => {
            let address = it.nlas.iter().find_map(|nla| match nla {
                address::Nla::Address(bytes) => text::ip_address(bytes),
                _ => None,
            });
            let prefix = address.map(|address| Prefix(address, it.header.prefix_len));
            writeln!(out, "{what} addr {} {}", OrDash(prefix), it.header.index)
        }
        NewRoute(route) | DelRoute(route) => {
            let (to, index) = (destination(&route), OrDash(route.output_interface()));
            writeln!(out, "{what} route {to} {} {index}", OrDash(gateway(&route)))
        }
        NewNeighbour(it) | DelNeighbour(it) => {
            let address = it.nlas.iter().find_map(|nla| match nla {
                neighbour::Nla::Destination(bytes) => text::ip_address(bytes),
                _ => None,
            });
            let link_layer = it.nlas.iter().find_map(|nla| match nla {
                neighbour::Nla::LinkLocalAddress(bytes) => Some(Hardware(bytes)),
                _ => None,
            });
            let (address, link_layer) = (OrDash(address), OrDash(link_layer));
            writeln!(out, "{what} neigh {address} {link_layer} {}", it.header.ifindex)
        }
        _ => Ok(()),
    }
}

fn gateway(route: &RouteMessage) -> Option<std::net::IpAddr> {
    let via = || {
        route.nlas.iter().find_map(|nla| match nla {
            route::Nla::Via(via) => text::ip_address(via.get(2..)?),
            _ => None,
        })
    };
    route.gateway().or_else(via)
}
