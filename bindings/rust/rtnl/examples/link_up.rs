//! Brings an interface up, and waits for the kernel's acknowledgement.
//!
//! link_up DEV [SOCKET]

mod source;

use rtnl::{LinkRequest, Operation, Order};
use source::{change::misused, Source};
use std::env;

fn main() {
    run().unwrap_or_else(|error| source::fail("link_up", &*error))
}

fn run() -> source::Result<()> {
    let mut words = env::args_os().skip(1);
    let (name, path) = match (words.next(), words.next(), words.next()) {
        (Some(name), path, None) => (name, path),
        _ => misused("link_up DEV [SOCKET]"),
    };
    let mut source = Source::open(0, path)?;
    let link = LinkRequest { name: Some(&name), up: Some(true), ..LinkRequest::default() };
    let mut buffer = [0; 256];
    let request = link.put(Operation::Set, source.next_sequence(), Order::NATIVE, &mut buffer)?;
    source.change(request)
}
