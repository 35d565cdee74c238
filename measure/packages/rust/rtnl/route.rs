//! The lines of a route, one for each next hop.

use crate::source::{Destination, OrDash};
use rtnl::Route;
use std::collections::HashMap;
use std::io::{self, Write};
use std::net::IpAddr;

pub type Names = HashMap<u32, String>;

pub fn print_route(out: &mut impl Write, route: &Route<'_>, names: &Names) -> io::Result<()> {
    let destination = match route.is_default() {
        true => Destination::Default,
        false => Destination::Prefix(route.destination()),
    };
    let table = route.table();
    let mut line = |gateway: Option<IpAddr>, index: Option<u32>| {
        let name = index.and_then(|index| names.get(&index));
        let (gateway, name) = (OrDash(gateway), OrDash(name));
        writeln!(out, "{destination} {gateway} {name} {table}")
    };
    let mut hops = route.next_hops();
    let Some(first) = hops.next() else {
        return line(route.gateway(), route.out_interface());
    };
    line(first.gateway(), Some(first.index()))?;
    hops.try_for_each(|hop| line(hop.gateway(), Some(hop.index())))
}
