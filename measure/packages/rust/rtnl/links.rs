//! Prints a line for each interface of a dump, by our package: from a table.

mod common;
mod link;
#[path = "../source.rs"]
mod source;

use rtnl::{constants::AF_UNSPEC, Family, Message, Options, Session};
use source::Out;
use std::error::Error;
use std::io::Write;

fn main() -> Result<(), Box<dyn Error>> {
    let mut source = source::Source::open()?;
    let mut session = Session::new(&Options::new())?;
    let links = common::dump(&mut source, &mut session, Family::Link, AF_UNSPEC, 1)?;
    let mut out = Out::new()?;
    for link in links.iter().filter_map(Message::link) {
        link::print_link(&mut out, &link)?;
    }
    Ok(out.flush()?)
}
