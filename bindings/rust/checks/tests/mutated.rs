//! Hands mutated datagrams of the recordings to the crate, the same ones in each run: it must
//! answer all that it can be asked, without a panic, and refuse exactly what `rtnlc_scan` refuses,
//! with the same code and place. `RTNL_MUTATIONS` says how many instead of 100,000.

use checks::{recordings, Random};
use rtnl::constants::AF_UNSPEC;
use rtnl::*;
use rtnlc_sys::{rtnlc_find, rtnlc_options, rtnlc_scan, rtnlc_scanned, RTNLC_OK};
use std::collections::BTreeMap;
use std::fmt::Write;

/// The heads in each whole datagram, and how many bytes each head has.
struct Whole {
    bytes: Vec<u8>,
    heads: Vec<Event>,
}

fn wholes() -> Vec<Whole> {
    let mut tape = Tape::with_options(Options::new().order(Order::Little));
    let mut found = Vec::new();
    for bytes in recordings() {
        if tape.read(&bytes).is_ok() {
            found.push(Whole { heads: tape.events().to_vec(), bytes });
        }
    }
    assert!(found.len() > 30, "{} datagrams", found.len());
    found
}

/// Sets the length field of a head to what is near a limit, or anything.
fn with_length(random: &mut Random, bytes: &mut [u8], head: &Event) {
    let size = if head.sort() == Sort::Message { 4 } else { 2 };
    let own = head.payload_len() as u32 + 4;
    let near = [0, 3, 4, 7, 15, 16, own - 1, own + 1, own + 4, own + 16, 0xffff, random.next()];
    let length = random.of(&near).to_le_bytes();
    let place = head.place();
    bytes[place..place + size].copy_from_slice(&length[..size]);
}

/// Sets the type of a message, or the number or a flag of an attribute.
fn with_number(random: &mut Random, bytes: &mut [u8], head: &Event) {
    let number = match random.below(4) {
        0 => head.number() ^ 0x8000,
        1 => head.number() ^ 0x4000,
        2 => random.below(40) as u16,
        _ => random.below(40) as u16 | 0x8000,
    };
    let place = head.place() + if head.sort() == Sort::Message { 4 } else { 2 };
    bytes[place..place + 2].copy_from_slice(&number.to_le_bytes());
}

/// An item of another datagram in front of a head, the lengths of what holds it mended or not.
fn spliced(random: &mut Random, whole: &Whole, other: &Whole) -> Vec<u8> {
    let from = random.of(&other.heads);
    let size = if from.sort() == Sort::Message { 16 } else { 4 };
    let end = (from.place() + size + from.payload_len() + 3) & !3;
    let item = &other.bytes[from.place()..end.min(other.bytes.len())];
    let to = random.of(&whole.heads).place();
    let mut bytes = [&whole.bytes[..to], item, &whole.bytes[to..]].concat();
    let is_mended = random.below(2) == 0;
    for it in whole.heads.iter().filter(|_| is_mended) {
        let head = if it.sort() == Sort::Message { 16 } else { 4 };
        let own = it.place()..it.place() + head + it.payload_len();
        if own.start < to && to <= own.end && it.sort() == Sort::Message {
            let length = (own.len() + item.len()) as u32;
            bytes[own.start..own.start + 4].copy_from_slice(&length.to_le_bytes());
        } else if own.start < to && to < own.end {
            let length = (own.len() + item.len()) as u16;
            bytes[own.start..own.start + 2].copy_from_slice(&length.to_le_bytes());
        }
    }
    bytes
}

fn mutated(random: &mut Random, wholes: &[Whole]) -> Vec<u8> {
    let (whole, other) = (random.of(wholes), random.of(wholes));
    let mut bytes = match random.below(3) {
        0 => spliced(random, whole, other),
        _ => whole.bytes.clone(),
    };
    for _ in 0..=random.below(2) {
        let head = random.of(&whole.heads);
        let place = random.below(bytes.len());
        match random.below(6) {
            0 | 1 => with_length(random, &mut bytes, head),
            2 | 3 => with_number(random, &mut bytes, head),
            4 => bytes[place] = random.next() as u8,
            _ if random.below(4) == 0 => bytes.truncate(place.max(whole.bytes.len().min(24))),
            _ => {}
        }
        if bytes.len() < whole.bytes.len() {
            break;
        }
    }
    bytes
}

/// The text of everything that can be asked of an attribute; how many heads there were.
fn ask_attribute(it: Attribute<'_>, text: &mut String) -> usize {
    let numbers = (it.u8(), it.u16(), it.u32(), it.u64());
    let values = (it.text(), it.ip_address(), it.hardware_address(), it.payload());
    write!(text, "{it:?} {numbers:?} {values:?} {:?}", it.place()).unwrap();
    let inside: usize = it.attributes().iter().map(|it| ask_attribute(it, text)).sum();
    let of_hops: usize = it.next_hops().map(|it| ask_hop(it, text)).sum();
    1 + inside + of_hops
}

fn ask_hop(it: NextHop<'_>, text: &mut String) -> usize {
    write!(text, "{:?} {} {}", it.gateway(), it.index(), it.weight()).unwrap();
    1 + it.attributes().iter().map(|it| ask_attribute(it, text)).sum::<usize>()
}

/// The text of everything that can be asked of a message; how many heads there were.
fn ask_message(it: Message<'_>, text: &mut String) -> usize {
    let own = (it.kind(), it.flags(), it.sequence(), it.port(), it.place(), it.action());
    write!(text, "{own:?} {:?} {:?} {it:?}", it.type_name(), it.payload().len()).unwrap();
    match it.body() {
        Body::Link(it) => write!(text, "{} {:?}", it.hardware_type(), it.operational_state()),
        Body::Address(it) => write!(text, "{:?} {}", it.prefix(), it.scope()),
        Body::Route(it) => write!(text, "{:?} {:?}", it.preferred_source(), it.is_default()),
        Body::Neighbour(it) => write!(text, "{:?} {}", it.address(), it.route_type()),
        Body::Rule(it) => write!(text, "{:?} {:?}", it.mark_mask(), it.in_interface()),
        other => write!(text, "{other:?}"),
    }
    .unwrap();
    1 + it.attributes().iter().map(|it| ask_attribute(it, text)).sum::<usize>()
}

/// Compares what is found in a message with what `rtnlc_find` finds.
fn compare_found(it: Message<'_>, is_big: bool) {
    let attributes = it.attributes();
    let first = match attributes.iter().next() {
        Some(first) => first.place() - it.place() - 16,
        None => return,
    };
    let region = &it.payload()[first..];
    let numbers = attributes.iter().map(|it| it.number());
    for number in numbers.chain([0, 1, 5, 9, 18, 40]) {
        // SAFETY: the pointer and the length are those of one slice.
        let found = unsafe { rtnlc_find(region.as_ptr(), region.len(), 0, number, is_big) };
        let own = attributes.find(number);
        assert_eq!(own.is_some(), found.code == RTNLC_OK, "{number}");
        if let Some(own) = own {
            assert_eq!(own.place() - it.place() - 16 - first, found.place as usize);
            assert_eq!(own.payload().len(), found.len as usize);
        }
    }
}

fn scanned(bytes: &[u8], depth: u8, big: bool) -> rtnlc_scanned {
    let (total, datagram, entries, seed) = (1 << 40, 65_536, 4_096, [0; 16]);
    let options = rtnlc_options { total, datagram, entries, depth, big, seed };
    // SAFETY: the pointers are those of a slice, with its length, and of a reference.
    unsafe { rtnlc_scan(bytes.as_ptr(), bytes.len(), &options) }
}

/// Whether an error has the code and the place that `rtnlc_scan` answers.
fn is_same(error: &Error, wanted: &rtnlc_scanned) -> bool {
    let place = error.fault().map_or(0, |it| it.place);
    error.code() == Some(wanted.code) && place == wanted.place as usize
}

/// A session and a stream, whose dump is begun anew where it has ended.
struct Dumps {
    session: Session,
    stream: Stream,
    sequence: u32,
}

impl Dumps {
    fn new() -> Dumps {
        let options = Options::new().order(Order::Little).total(1 << 40);
        let (session, stream) = (Session::new(&options), Stream::new(&options));
        Dumps { session: session.unwrap(), stream: stream.unwrap(), sequence: 0 }
    }

    /// Both must take and refuse the same, which is what `rtnlc_scan` accepts and refuses.
    fn feed(&mut self, bytes: &[u8], wanted: &rtnlc_scanned) {
        if self.session.status().state != State::Waiting {
            self.sequence += 1;
            let family = Family::ALL[self.sequence as usize % 5];
            let one = self.session.begin(family, AF_UNSPEC, self.sequence, 0);
            assert_eq!(one, self.stream.begin(family, AF_UNSPEC, self.sequence, 0));
        }
        let one = self.session.feed(bytes);
        let other = self.stream.feed(bytes);
        if let Ok(items) = &other {
            assert_eq!(items.messages().count(), items.fed().items as usize);
        }
        assert_eq!(one, other.map(|it| it.fed()));
        match one {
            Ok(_) => assert_eq!(wanted.code, RTNLC_OK),
            Err(error) => assert!(is_same(&error, wanted), "{error:?} {wanted:?}"),
        }
        assert_eq!(self.session.status(), self.stream.status());
    }
}

/// Reads a datagram, and asks everything of it. Whether it is accepted, or its fault.
fn compare(bytes: &[u8], tape: &mut Tape, wanted: &rtnlc_scanned, is_big: bool) -> String {
    let mut text = String::new();
    let (verdict, heads) = match tape.read(bytes) {
        Ok(datagram) => {
            assert_eq!(wanted.code, RTNLC_OK);
            let heads = datagram.messages().map(|it| ask_message(it, &mut text)).sum();
            datagram.messages().for_each(|it| compare_found(it, is_big));
            ("accepted".into(), Some(heads))
        }
        Err(error) => {
            assert!(is_same(&error, wanted), "{error:?} {wanted:?}");
            (error.fault().map_or(error.to_string(), |it| it.kind.to_string()), None)
        }
    };
    assert_eq!(tape.visits(), wanted.visits);
    assert_eq!(heads.unwrap_or(tape.events().len()), tape.events().len());
    verdict
}

#[test]
fn what_scan_refuses_is_refused_and_no_question_panics() {
    let count = std::env::var("RTNL_MUTATIONS").map_or(100_000, |it| it.parse().unwrap());
    let (wholes, mut random, mut dumps) = (wholes(), Random::new(1), Dumps::new());
    let mut verdicts: BTreeMap<String, usize> = BTreeMap::new();
    for _ in 0..count {
        let bytes = mutated(&mut random, &wholes);
        let order = if random.below(16) == 0 { Order::Big } else { Order::Little };
        let (depth, is_big) = (*random.of(&[8, 8, 8, 0, 1, 2, 32]), order == Order::Big);
        let mut tape = Tape::with_options(Options::new().depth(depth).order(order));
        let verdict = compare(&bytes, &mut tape, &scanned(&bytes, depth, is_big), is_big);
        *verdicts.entry(verdict).or_default() += 1;
        dumps.feed(&bytes, &scanned(&bytes, 8, false));
    }
    println!("{verdicts:?}");
    // Each verdict has come, and none of them hides the others.
    for name in ["accepted", "cut", "bad length", "short body", "too deep"] {
        let found = verdicts.get(name).copied().unwrap_or(0);
        assert!(found > 0 && found < count * 3 / 4, "{name}: {found} of {count}");
    }
}
