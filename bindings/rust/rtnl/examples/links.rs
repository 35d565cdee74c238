//! Prints a line for each interface: its name, state, MTU and hardware address.
//!
//! links [SOCKET]

mod source;

use rtnl::{constants::AF_UNSPEC, Family, Link, Message, Options, Stream};
use source::text::{or_dash, plain};
use source::Source;
use std::env;
use std::io::{self, BufWriter, Write};

fn main() {
    run().unwrap_or_else(|error| source::fail("links", &*error))
}

fn run() -> source::Result<()> {
    let mut stream = Stream::new(&Options::new())?;
    let mut source = Source::open(0, env::args_os().nth(1))?;
    let links = source.dump(&mut stream, Family::Link, AF_UNSPEC)?;
    let mut out = BufWriter::new(io::stdout().lock());
    for link in links.iter().filter_map(Message::link) {
        print(&mut out, &link)?;
    }
    Ok(out.flush()?)
}

fn print(out: &mut impl Write, link: &Link<'_>) -> io::Result<()> {
    let name = link.name().map(plain);
    let state = link.operational_state().and_then(|it| it.word());
    let (mtu, address) = (link.mtu(), link.hardware_address());
    write!(out, "{} {} ", or_dash(&name), or_dash(&state))?;
    writeln!(out, "{} {}", or_dash(&mtu), or_dash(&address))
}
