//! Prints a line for each interface of a dump, by our package: as they come.

mod common;
mod link;
#[path = "../source.rs"]
mod source;

use rtnl::{constants::AF_UNSPEC, Family, Options, Stream};
use source::{Out, Source};
use std::error::Error;
use std::io::Write;

fn main() -> Result<(), Box<dyn Error>> {
    let mut stream = Stream::new(&Options::new())?;
    let mut out = Out::new()?;
    common::each_item(&mut Source::open()?, &mut stream, Family::Link, AF_UNSPEC, 1, |message| {
        message.link().map_or(Ok(()), |link| link::print_link(&mut out, &link))
    })?;
    Ok(out.flush()?)
}
