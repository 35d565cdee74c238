//! Prints a line for each next hop of each route of two dumps, by netlink-packet-route.

mod dump;
#[path = "../source.rs"]
mod source;
mod text;

use netlink_packet_route::nlas::route::Nla;
use netlink_packet_route::{LinkMessage, RouteMessage, RtnlMessage, AF_INET, AF_INET6};
use source::{OrDash, Out};
use std::collections::HashMap;
use std::error::Error;
use std::io::{self, Write};
use std::net::IpAddr;
use text::{destination, ip_address, name};

type Names = HashMap<u32, String>;

fn main() -> Result<(), Box<dyn Error>> {
    let mut source = source::Source::open()?;
    let mut out = Out::new()?;
    let mut names = Names::new();
    dump::dump(&mut source, 1, RtnlMessage::GetLink(LinkMessage::default()), |item| {
        if let RtnlMessage::NewLink(link) = item {
            names.insert(link.header.index, name(&link).unwrap_or_default().to_owned());
        }
        Ok(())
    })?;
    for (seq, family) in [(2, AF_INET), (3, AF_INET6)] {
        let mut request = RouteMessage::default();
        request.header.address_family = family as u8;
        dump::dump(&mut source, seq, RtnlMessage::GetRoute(request), |item| match item {
            RtnlMessage::NewRoute(route) => print(&mut out, &route, &names),
            _ => Ok(()),
        })?;
    }
    Ok(out.flush()?)
}

/// The address in an RTA_VIA, behind its family.
fn via(nlas: &[Nla]) -> Option<IpAddr> {
    nlas.iter().find_map(|nla| match nla {
        Nla::Via(via) => ip_address(via.get(2..)?),
        _ => None,
    })
}

fn print(out: &mut impl Write, route: &RouteMessage, names: &Names) -> io::Result<()> {
    let table = route.nlas.iter().find_map(|nla| match nla {
        Nla::Table(table) => Some(*table),
        _ => None,
    });
    let table = table.unwrap_or(route.header.table.into());
    let mut line = |gateway: Option<IpAddr>, index: Option<u32>| {
        let name = index.and_then(|index| names.get(&index));
        writeln!(out, "{} {} {} {table}", destination(route), OrDash(gateway), OrDash(name))
    };
    let hops = route.nlas.iter().find_map(|nla| match nla {
        Nla::MultiPath(hops) => Some(hops),
        _ => None,
    });
    let Some(hops) = hops else {
        return line(route.gateway().or_else(|| via(&route.nlas)), route.output_interface());
    };
    hops.iter()
        .try_for_each(|hop| line(hop.gateway().or_else(|| via(&hop.nlas)), Some(hop.interface_id)))
}
