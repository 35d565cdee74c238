//! Prints a line for each next hop of each route of two dumps, by our package: as they come.

mod common;
mod route;
#[path = "../source.rs"]
mod source;

use route::Names;
use rtnl::constants::{AF_INET, AF_INET6, AF_UNSPEC};
use rtnl::{Family, Options, Stream};
use source::Out;
use std::error::Error;
use std::io::Write;

fn main() -> Result<(), Box<dyn Error>> {
    let mut source = source::Source::open()?;
    let mut stream = Stream::new(&Options::new())?;
    let mut out = Out::new()?;
    let mut names = Names::new();
    common::each_item(&mut source, &mut stream, Family::Link, AF_UNSPEC, 1, |message| {
        let link = message.link().and_then(|it| Some((it.index(), it.name()?)));
        names.extend(link.map(|(index, name)| (index, name.to_string_lossy().into())));
        Ok(())
    })?;
    for (seq, family) in [(2, AF_INET), (3, AF_INET6)] {
        common::each_item(&mut source, &mut stream, Family::Route, family, seq, |message| {
            message.route().map_or(Ok(()), |route| route::print_route(&mut out, &route, &names))
        })?;
    }
    Ok(out.flush()?)
}
