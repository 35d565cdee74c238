//! Prints a line for each next hop of each route of two dumps, by our package: from tables.

mod common;
mod route;
#[path = "../source.rs"]
mod source;

use route::Names;
use rtnl::constants::{AF_INET, AF_INET6, AF_UNSPEC};
use rtnl::{Family, Message, Options, Session};
use source::Out;
use std::error::Error;
use std::io::Write;

fn main() -> Result<(), Box<dyn Error>> {
    let mut source = source::Source::open()?;
    let mut session = Session::new(&Options::new().entries(65_536))?;
    let links = common::dump(&mut source, &mut session, Family::Link, AF_UNSPEC, 1)?;
    let links = links.iter().filter_map(Message::link);
    let names = links.filter_map(|it| Some((it.index(), it.name()?.to_string_lossy().into())));
    let names: Names = names.collect();
    let mut out = Out::new()?;
    for (seq, family) in [(2, AF_INET), (3, AF_INET6)] {
        let routes = common::dump(&mut source, &mut session, Family::Route, family, seq)?;
        for route in routes.iter().filter_map(Message::route) {
            route::print_route(&mut out, &route, &names)?;
        }
    }
    Ok(out.flush()?)
}
