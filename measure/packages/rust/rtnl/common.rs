//! What the programs over our package share.
#![allow(dead_code)] // No program uses all of it.

use crate::source::{Source, PORT};
use rtnl::{Family, Message, MessageList, Session, State, Stream, Table};
use std::error::Error;
use std::io;

/// The table of a dump.
pub fn dump(
    source: &mut Source,
    session: &mut Session,
    of: Family,
    family: u8,
    seq: u32,
) -> Result<Table, Box<dyn Error>> {
    source.send(&session.begin(of, family, seq, PORT)?)?;
    while !session.feed(source.receive()?.ok_or("the answer ended early")?)?.has_ended {}
    session.status().outcome()?;
    Ok(session.table(of)?)
}

/// A dump that is handed out as it comes.
pub fn each_item(
    source: &mut Source,
    stream: &mut Stream,
    of: Family,
    family: u8,
    seq: u32,
    mut each: impl FnMut(Message<'_>) -> io::Result<()>,
) -> Result<(), Box<dyn Error>> {
    source.send(&stream.begin(of, family, seq, PORT)?)?;
    let mut has_ended = false;
    while !has_ended {
        let items = stream.feed(source.receive()?.ok_or("the answer ended early")?)?;
        items.messages().try_for_each(&mut each)?;
        has_ended = items.has_ended();
    }
    Ok(stream.status().outcome()?)
}

/// The entries of a dump, which are kept as they come, in the place of those before.
pub fn list(
    source: &mut Source,
    by: &mut Stream,
    of: Family,
    family: u8,
    seq: u32,
    entries: &mut MessageList,
) -> Result<(), Box<dyn Error>> {
    source.send(&by.begin(of, family, seq, PORT)?)?;
    entries.clear();
    while by.status().state == State::Waiting {
        entries.extend(by.feed(source.receive()?.ok_or("the answer ended early")?)?);
    }
    Ok(by.status().outcome()?)
}
