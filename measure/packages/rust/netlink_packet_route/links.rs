//! Prints a line for each interface of a dump, by netlink-packet-route.

mod dump;
#[path = "../source.rs"]
mod source;
mod text;

use netlink_packet_route::nlas::link::Nla;
use netlink_packet_route::{LinkMessage, RtnlMessage};
use source::{OrDash, Out};
use std::error::Error;
use std::io::{self, Write};
use text::{name, state, Hardware};

fn main() -> Result<(), Box<dyn Error>> {
    let mut source = source::Source::open()?;
    let mut out = Out::new()?;
    dump::dump(&mut source, 1, RtnlMessage::GetLink(LinkMessage::default()), |item| match item {
        RtnlMessage::NewLink(link) => print(&mut out, &link),
        _ => Ok(()),
    })?;
    Ok(out.flush()?)
}

fn print(out: &mut impl Write, link: &LinkMessage) -> io::Result<()> {
    let mtu = link.nlas.iter().find_map(|nla| match nla {
        Nla::Mtu(mtu) => Some(*mtu),
        _ => None,
    });
    let address = link.nlas.iter().find_map(|nla| match nla {
        Nla::Address(address) if !address.is_empty() => Some(Hardware(address)),
        _ => None,
    });
    let (name, state) = (OrDash(name(link)), OrDash(state(link)));
    writeln!(out, "{name} {state} {} {}", OrDash(mtu), OrDash(address))
}
