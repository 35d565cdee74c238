//! Prints a line for each notification of links, addresses, routes and neighbours, by our package.

#[path = "../source.rs"]
mod source;

use rtnl::{Action, Body, Message, Tape};
use source::{Destination, OrDash, Out};
use std::error::Error;
use std::ffi::OsStr;
use std::io::{self, Write};

fn main() -> Result<(), Box<dyn Error>> {
    let mut source = source::Source::open()?;
    let mut tape = Tape::new();
    let mut out = Out::new()?;
    while let Some(bytes) = source.receive()? {
        for message in tape.read(bytes)? {
            print(&mut out, message)?;
            out.flush()?;
        }
    }
    Ok(())
}

fn print(out: &mut impl Write, message: Message<'_>) -> io::Result<()> {
    let what = match message.action() {
        Some(Action::New) => "new",
        Some(Action::Delete) => "del",
        _ => return Ok(()),
    };
    match message.body() {
        Body::Link(it) => {
            let name = OrDash(it.name().map(OsStr::to_string_lossy));
            writeln!(out, "{what} link {name} {}", OrDash(it.operational_state()))
        }
        Body::Address(it) => writeln!(out, "{what} addr {} {}", OrDash(it.prefix()), it.index()),
        Body::Route(it) => {
            let to = match it.is_default() {
                true => Destination::Default,
                false => Destination::Prefix(it.destination()),
            };
            let (gateway, index) = (OrDash(it.gateway()), OrDash(it.out_interface()));
            writeln!(out, "{what} route {to} {gateway} {index}")
        }
        Body::Neighbour(it) => {
            let (address, hardware) = (OrDash(it.address()), OrDash(it.link_layer_address()));
            writeln!(out, "{what} neigh {address} {hardware} {}", it.index())
        }
        _ => Ok(()),
    }
}
