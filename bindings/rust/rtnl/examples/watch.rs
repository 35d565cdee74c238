//! Prints what changes of links, addresses, routes and neighbours, until it is interrupted.
//!
//! watch [SOCKET]

mod source;

use rtnl::constants::*;
use rtnl::{Action, Body, Message, Tape};
use source::text::{or_dash, plain};
use source::Source;
use std::env;
use std::fmt::Display;
use std::io::{self, Write};

const IP: u32 = IPV4 | RTMGRP_IPV6_IFADDR | RTMGRP_IPV6_ROUTE;
const IPV4: u32 = RTMGRP_IPV4_IFADDR | RTMGRP_IPV4_ROUTE;

fn main() {
    run().unwrap_or_else(|error| source::fail("watch", &*error))
}

fn run() -> source::Result<()> {
    let mut source = Source::open(RTMGRP_LINK | RTMGRP_NEIGH | IP, env::args_os().nth(1))?;
    let mut tape = Tape::new();
    let mut out = io::stdout().lock();
    while let Some(bytes) = source.receive()? {
        for message in tape.read(bytes)? {
            print(&mut out, message)?;
        }
        out.flush()?;
    }
    Ok(())
}

fn print(out: &mut impl Write, message: Message<'_>) -> io::Result<()> {
    let what = match message.action() {
        Some(Action::New) => "new",
        Some(Action::Delete) => "del",
        _ => return Ok(()),
    };
    match message.body() {
        Body::Link(it) => {
            let name = it.name().map(plain);
            let state = it.operational_state().and_then(|it| it.word());
            writeln!(out, "{what} link {} {}", or_dash(&name), or_dash(&state))
        }
        Body::Address(it) => writeln!(out, "{what} addr {} {}", or_dash(&it.prefix()), it.index()),
        Body::Route(it) => {
            let to = if it.is_default() { None } else { Some(it.destination()) };
            let to = to.as_ref().map_or(&"default" as &dyn Display, or_dash);
            let (gateway, index) = (it.gateway(), it.out_interface());
            writeln!(out, "{what} route {to} {} {}", or_dash(&gateway), or_dash(&index))
        }
        Body::Neighbour(it) => {
            let (to, at, index) = (it.address(), it.link_layer_address(), it.index());
            writeln!(out, "{what} neigh {} {} {index}", or_dash(&to), or_dash(&at))
        }
        _ => Ok(()),
    }
}
