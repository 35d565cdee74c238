//! Prints a line for each next hop of each route, IPv4 and then IPv6: its destination, gateway,
//! interface and table.
//!
//! routes [SOCKET]

mod source;

use rtnl::constants::{AF_INET, AF_INET6, AF_UNSPEC};
use rtnl::{Family, Message, Options, Route, Stream};
use source::text::{or_dash, plain};
use source::Source;
use std::collections::HashMap;
use std::env;
use std::fmt::Display;
use std::io::{self, BufWriter, Write};

type Names = HashMap<u32, String>;

fn main() {
    run().unwrap_or_else(|error| source::fail("routes", &*error))
}

fn run() -> source::Result<()> {
    let mut stream = Stream::new(&Options::new())?;
    let mut source = Source::open(0, env::args_os().nth(1))?;
    let links = source.dump(&mut stream, Family::Link, AF_UNSPEC)?;
    let links = links.iter().filter_map(Message::link);
    let names: Names = links.filter_map(|it| Some((it.index(), plain(it.name()?)))).collect();
    let mut out = BufWriter::new(io::stdout().lock());
    for family in [AF_INET, AF_INET6] {
        let routes = source.dump(&mut stream, Family::Route, family)?;
        for route in routes.iter().filter_map(Message::route) {
            print(&mut out, &route, &names)?;
        }
    }
    Ok(out.flush()?)
}

fn print(out: &mut impl Write, route: &Route<'_>, names: &Names) -> io::Result<()> {
    let to = if route.is_default() { None } else { Some(route.destination()) };
    let to = to.as_ref().map_or(&"default" as &dyn Display, or_dash);
    let table = route.table();
    let mut line = |gateway, index: Option<u32>| {
        let name = index.and_then(|it| names.get(&it));
        writeln!(out, "{to} {} {} {table}", or_dash(&gateway), or_dash(&name))
    };
    let mut hops = route.next_hops().peekable();
    if hops.peek().is_none() {
        line(route.gateway(), route.out_interface())?;
    }
    hops.try_for_each(|hop| line(hop.gateway(), Some(hop.index())))
}
