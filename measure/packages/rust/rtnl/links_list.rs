//! Prints a line for each interface of a dump, by our package: from a list.

mod common;
mod link;
#[path = "../source.rs"]
mod source;

use rtnl::{constants::AF_UNSPEC, Family, Message, MessageList, Options, Stream};
use source::Out;
use std::error::Error;
use std::io::Write;

fn main() -> Result<(), Box<dyn Error>> {
    let mut source = source::Source::open()?;
    let mut stream = Stream::new(&Options::new())?;
    let mut links = MessageList::new();
    common::list(&mut source, &mut stream, Family::Link, AF_UNSPEC, 1, &mut links)?;
    let mut out = Out::new()?;
    for link in links.iter().filter_map(Message::link) {
        link::print_link(&mut out, &link)?;
    }
    Ok(out.flush()?)
}
