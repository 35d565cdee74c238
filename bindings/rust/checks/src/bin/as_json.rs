//! Prints what this crate reads in a recording, as lines of JSON, for a comparison with what the
//! program `rtnl` prints:
//!
//! as_json check FILE                   a verdict of each datagram, as of `rtnl check`
//! as_json show FILE                    the messages of each datagram, with all attributes
//! as_json table FAMILY SEQ PORT FILE   the entries of a dump by their views, and how it has ended
//! as_json stream FAMILY SEQ PORT FILE  the same, of a stream
//!
//! Texts, payloads and hardware addresses are hexadecimal.

use checks::hex;
use rtnl::constants::AF_UNSPEC;
use rtnl::*;
use std::env;
use std::error::Error;
use std::fmt::{self, Display, Write};
use std::os::unix::ffi::OsStrExt;
use std::path::Path;

/// An object of JSON, field by field.
#[derive(Default)]
struct Object(String);

impl Object {
    fn with(mut self, name: &str, value: impl Display) -> Object {
        let comma = if self.0.is_empty() { "" } else { "," };
        write!(self.0, "{comma}\"{name}\":{value}").expect("a string takes all");
        self
    }

    fn text(self, name: &str, value: impl Display) -> Object {
        self.with(name, format_args!("\"{value}\""))
    }

    fn number(self, name: &str, value: Option<impl Display>) -> Object {
        match value {
            Some(it) => self.with(name, it),
            None => self.with(name, "null"),
        }
    }

    fn word(self, name: &str, value: Option<impl Display>) -> Object {
        self.number(name, value.map(|it| format!("\"{it}\"")))
    }

    fn hex(self, name: &str, value: Option<&[u8]>) -> Object {
        self.word(name, value.map(hex))
    }
}

impl Display for Object {
    fn fmt(&self, f: &mut fmt::Formatter<'_>) -> fmt::Result {
        write!(f, "{{{}}}", self.0)
    }
}

fn array(objects: impl Iterator<Item = Object>) -> String {
    let objects: Vec<String> = objects.map(|it| it.to_string()).collect();
    format!("[{}]", objects.join(","))
}

fn of_link(it: Link<'_>) -> Object {
    Object::default()
        .with("index", it.index())
        .with("flags", it.flags())
        .with("type", it.hardware_type())
        .hex("name", it.name().map(OsStrExt::as_bytes))
        .number("mtu", it.mtu())
        .hex("hardware_address", it.hardware_address().map(|it| it.as_bytes()))
        .number("master", it.master())
        .hex("kind", it.kind().map(OsStrExt::as_bytes))
        .word("operational_state", it.operational_state())
}

fn of_address(it: Address<'_>) -> Object {
    Object::default()
        .with("family", it.address_family())
        .with("index", it.index())
        .with("scope", it.scope())
        .word("prefix", it.prefix())
        .word("local", it.local())
        .hex("label", it.label().map(OsStrExt::as_bytes))
        .with("flags", it.flags())
}

fn of_route(it: Route<'_>) -> Object {
    let of_hop = |hop: NextHop<'_>| {
        let front = Object::default().with("index", hop.index()).with("weight", hop.weight());
        front.with("flags", hop.flags()).word("gateway", hop.gateway())
    };
    Object::default()
        .with("family", it.address_family())
        .word("destination", it.destination())
        .with("is_default", it.is_default())
        .word("gateway", it.gateway())
        .number("out_interface", it.out_interface())
        .with("table", it.table())
        .number("priority", it.priority())
        .with("protocol", it.protocol())
        .with("scope", it.scope())
        .with("type", it.route_type())
        .with("flags", it.flags())
        .word("preferred_source", it.preferred_source())
        .with("next_hops", array(it.next_hops().map(of_hop)))
}

fn of_neighbour(it: Neighbour<'_>) -> Object {
    Object::default()
        .with("family", it.address_family())
        .with("index", it.index())
        .with("state", it.state())
        .with("flags", it.flags())
        .with("type", it.route_type())
        .word("address", it.address())
        .hex("link_layer_address", it.link_layer_address().map(|it| it.as_bytes()))
}

fn of_rule(it: rtnl::Rule<'_>) -> Object {
    Object::default()
        .with("family", it.address_family())
        .with("table", it.table())
        .with("action", it.action())
        .with("flags", it.flags())
        .number("priority", it.priority())
        .number("mark", it.mark())
        .number("mark_mask", it.mark_mask())
        .word("from", it.from())
        .word("to", it.to())
        .hex("in_interface", it.in_interface().map(OsStrExt::as_bytes))
        .hex("out_interface", it.out_interface().map(OsStrExt::as_bytes))
}

/// The view of a message, under the name that `rtnl` has for its family.
fn with_view(object: Object, message: Message<'_>) -> Object {
    match message.body() {
        Body::Link(it) => object.with("link", of_link(it)),
        Body::Address(it) => object.with("addr", of_address(it)),
        Body::Route(it) => object.with("route", of_route(it)),
        Body::Neighbour(it) => object.with("neigh", of_neighbour(it)),
        Body::Rule(it) => object.with("rule", of_rule(it)),
        Body::Error(code) => object.with("error", code),
        Body::Done(status) => object.with("done", status),
        Body::Other(bytes) => object.text("bytes", hex(bytes)),
        _ => object,
    }
}

fn of_attribute(it: Attribute<'_>) -> Object {
    let of_hop = |hop: NextHop<'_>| {
        let front = Object::default().with("index", hop.index());
        front.with("attrs", array(hop.attributes().iter().map(of_attribute)))
    };
    let front = Object::default()
        .with("number", it.number())
        .word("name", it.name())
        .with("nested", it.is_nested())
        .with("net", it.is_network_order());
    match it.sort() {
        Sort::List => front.with("list", array(it.attributes().iter().map(of_attribute))),
        Sort::NextHops => front.with("hops", array(it.next_hops().map(of_hop))),
        _ => front.text("payload", hex(it.payload())),
    }
}

fn of_message(it: Message<'_>) -> Object {
    let front = Object::default()
        .with("message", it.kind())
        .word("name", it.type_name())
        .with("flags", it.flags())
        .with("seq", it.sequence())
        .with("port", it.port());
    let attributes = array(it.attributes().iter().map(of_attribute));
    with_view(front, it).with("attrs", attributes)
}

fn with_refusal(object: Object, error: &rtnl::Error) -> Object {
    match error.fault() {
        Some(fault) => object.text("refused", fault.kind).with("at", fault.place),
        None => object.text("refused", error),
    }
}

/// How a dump stands, by the names of the last line of `rtnl table`.
fn of_status(it: &Status) -> Object {
    let end = match it.state {
        State::Done => "done",
        State::Failed => "error",
        State::Overrun => "overrun",
        _ => "none",
    };
    assert_eq!(it.outcome().is_ok(), it.is_complete);
    Object::default()
        .text("end", end)
        .with("code", it.status)
        .with("ignored", it.ignored)
        .with("damaged", it.is_damaged)
        .with("interrupted", it.is_interrupted)
        .with("received", it.received)
        .with("visits", it.visits)
        .with("complete", it.is_complete)
}

fn check(number: usize, bytes: &[u8], tape: &mut Tape) -> Object {
    let front = Object::default().with("datagram", number);
    let read = tape.read(bytes).map(drop);
    match rtnl::check(bytes, &Options::new()) {
        Ok(form) => {
            assert_eq!(read, Ok(()));
            front.with("canonical", form == Form::Canonical)
        }
        Err(error) => {
            assert_eq!(read, Err(error));
            with_refusal(front, &error)
        }
    }
}

fn show(number: usize, bytes: &[u8], tape: &mut Tape) -> Object {
    let front = Object::default().with("datagram", number);
    match tape.read(bytes) {
        Ok(datagram) => front.with("messages", array(datagram.messages().map(of_message))),
        Err(error) => with_refusal(front, &error),
    }
}

fn family(word: &str) -> Option<Family> {
    let words = ["link", "addr", "route", "neigh", "rule"];
    words.iter().zip(Family::ALL).find(|it| *it.0 == word).map(|it| it.1)
}

fn table(family: Family, ids: (u32, u32), datagrams: &[Vec<u8>]) -> Result<(), Box<dyn Error>> {
    let mut session = Session::new(&Options::new())?;
    session.begin(family, AF_UNSPEC, ids.0, ids.1)?;
    for bytes in datagrams {
        if session.feed(bytes) == Err(rtnl::Error::NotWaiting) {
            break;
        }
    }
    let table = session.table(family)?;
    for (index, message) in table.iter().enumerate() {
        let key = session.key(family, index).ok_or("an entry has a key")?;
        assert_eq!(session.find(family, &key), Some(index));
        println!("{}", with_view(Object::default().with("entry", index + 1), message));
    }
    assert_eq!(table.iter().rev().count(), table.len());
    let sizes = of_status(&session.status()).with("entries", table.len());
    println!("{}", sizes.with("missed", table.missed()));
    Ok(())
}

fn stream(family: Family, ids: (u32, u32), datagrams: &[Vec<u8>]) -> Result<(), Box<dyn Error>> {
    let mut stream = Stream::new(&Options::new())?;
    stream.begin(family, AF_UNSPEC, ids.0, ids.1)?;
    let mut count = 0;
    for bytes in datagrams {
        let items = match stream.feed(bytes) {
            Err(rtnl::Error::NotWaiting) => break,
            other => other?,
        };
        // What is kept says the same.
        let kept: MessageList = items.messages().collect();
        assert_eq!(format!("{kept:?}"), format!("{:?}", items.messages()));
        for message in &kept {
            count += 1;
            println!("{}", with_view(Object::default().with("entry", count), message));
        }
    }
    println!("{}", of_status(&stream.status()));
    Ok(())
}

fn main() -> Result<(), Box<dyn Error>> {
    let words: Vec<String> = env::args().skip(1).collect();
    let words: Vec<&str> = words.iter().map(String::as_str).collect();
    let path = words.last().ok_or("no file")?;
    let found = checks::datagrams(Path::new(path));
    let mut tape = Tape::new();
    let each = |of: fn(usize, &[u8], &mut Tape) -> Object, tape: &mut Tape| {
        found.iter().enumerate().for_each(|(at, it)| println!("{}", of(at + 1, it, tape)));
    };
    match words[..] {
        ["check", _] => each(check, &mut tape),
        ["show", _] => each(show, &mut tape),
        [how @ ("table" | "stream"), word, sequence, port, _] => {
            let of = if how == "table" { table } else { stream };
            of(family(word).ok_or("no family")?, (sequence.parse()?, port.parse()?), &found)?;
        }
        _ => return Err("check, show, table or stream".into()),
    }
    Ok(())
}
