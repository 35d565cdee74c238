//! Prints a line for each next hop of each route of two dumps, by our package: from lists.

mod common;
mod route;
#[path = "../source.rs"]
mod source;

use route::Names;
use rtnl::constants::{AF_INET, AF_INET6, AF_UNSPEC};
use rtnl::{Family, Message, MessageList, Options, Stream};
use source::Out;
use std::error::Error;
use std::io::Write;

fn main() -> Result<(), Box<dyn Error>> {
    let mut source = source::Source::open()?;
    let mut stream = Stream::new(&Options::new())?;
    let mut list = MessageList::new();
    common::list(&mut source, &mut stream, Family::Link, AF_UNSPEC, 1, &mut list)?;
    let links = list.iter().filter_map(Message::link);
    let names = links.filter_map(|it| Some((it.index(), it.name()?.to_string_lossy().into())));
    let names: Names = names.collect();
    let mut out = Out::new()?;
    for (seq, family) in [(2, AF_INET), (3, AF_INET6)] {
        common::list(&mut source, &mut stream, Family::Route, family, seq, &mut list)?;
        for route in list.iter().filter_map(Message::route) {
            route::print_route(&mut out, &route, &names)?;
        }
    }
    Ok(out.flush()?)
}
