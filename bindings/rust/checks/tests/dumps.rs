//! Dumps by sessions and streams, of datagrams that are made by hand, in both orders: what is
//! handed out, how a dump ends, and what each wrong use gets.

use rtnl::constants::*;
use rtnl::*;
use std::net::IpAddr;
use std::thread;

const ORDERS: [Order; 2] = [Order::Little, Order::Big];
const PORT: u32 = 77;

/// Numbers of an order, one behind another.
struct Bytes(Vec<u8>, Order);

impl Bytes {
    fn u16(mut self, number: u16) -> Bytes {
        let little = number.to_le_bytes();
        self.0.extend(if self.1 == Order::Big { number.to_be_bytes() } else { little });
        self
    }

    fn u32(mut self, number: u32) -> Bytes {
        let little = number.to_le_bytes();
        self.0.extend(if self.1 == Order::Big { number.to_be_bytes() } else { little });
        self
    }

    fn bytes(mut self, bytes: &[u8]) -> Bytes {
        self.0.extend(bytes);
        self.0.resize((self.0.len() + 3) & !3, 0);
        self
    }

    fn attribute(self, number: u16, payload: &[u8]) -> Bytes {
        self.u16(4 + payload.len() as u16).u16(number).bytes(payload)
    }
}

fn message(order: Order, kind: u16, flags: u16, sequence: u32, body: &[u8]) -> Vec<u8> {
    let header = Bytes(Vec::new(), order).u32(16 + body.len() as u32).u16(kind).u16(flags);
    header.u32(sequence).u32(PORT).bytes(body).0
}

fn link(order: Order, index: u32, name: &str) -> Vec<u8> {
    let head = Bytes(Vec::new(), order).u16(0).u16(1).u32(index).u32(IFF_UP).u32(0);
    let mtu = Bytes(Vec::new(), order).u32(1_500).0;
    let body = head.attribute(IFLA_IFNAME, name.as_bytes()).attribute(IFLA_MTU, &mtu);
    message(order, RTM_NEWLINK, NLM_F_MULTI, 1, &body.0)
}

fn done(order: Order, status: i32) -> Vec<u8> {
    message(order, NLMSG_DONE, NLM_F_MULTI, 1, &Bytes(Vec::new(), order).u32(status as u32).0)
}

fn session(options: Options) -> Session {
    let mut session = Session::new(&options).unwrap();
    let request = session.begin(Family::Link, AF_UNSPEC, 1, PORT).unwrap();
    assert_eq!(request.len(), 32);
    session
}

/// How a dump of links ends that is answered so, in a table of one entry.
fn outcome(answers: &[Vec<u8>]) -> Result<(), Incomplete> {
    let mut session = session(Options::new().order(Order::Little).entries(1));
    for answer in answers {
        let _ = session.feed(answer);
    }
    session.status().outcome()
}

#[test]
fn entries_are_read_in_both_orders() {
    for order in ORDERS {
        let answers =
            [link(order, 7, "seven"), link(order, 258, "other"), done(order, 0)].concat();
        let mut session = session(Options::new().order(order));
        let fed = session.feed(&answers).unwrap();
        assert_eq!((fed.items, fed.ignored, fed.has_ended), (2, 0, true));
        let table = session.table(Family::Link).unwrap();
        let links: Vec<_> = table.iter().filter_map(Message::link).collect();
        let found: Vec<_> = links.iter().map(|it| (it.index(), it.name().unwrap())).collect();
        assert_eq!(found, [(7, "seven".as_ref()), (258, "other".as_ref())]);
        assert!(links.iter().all(|it| it.mtu() == Some(1_500) && it.flags() == IFF_UP));
        assert_eq!((table.len(), table.limit(), table.missed()), (2, 4_096, 0));
        assert_eq!(session.find(Family::Link, &[2, 1, 0, 0]), Some(1));
        assert_eq!(session.key(Family::Link, 0), Some(vec![7, 0, 0, 0]));
        assert_eq!(session.key(Family::Link, 2), None);
        assert!(session.table(Family::Route).unwrap().is_empty());
    }
}

#[test]
fn a_stream_hands_out_each_datagram() {
    for order in ORDERS {
        let mut stream = Stream::new(&Options::new().order(order)).unwrap();
        stream.begin(Family::Link, AF_UNSPEC, 1, PORT).unwrap();
        let seven = link(order, 7, "seven");
        let items = stream.feed(&seven).unwrap();
        let found: Vec<_> = items.messages().filter_map(Message::link).collect();
        assert_eq!((found.len(), found[0].index(), found[0].mtu()), (1, 7, Some(1_500)));
        assert!(!items.has_ended());
        assert!(stream.feed(&done(order, 0)).unwrap().has_ended());
        assert_eq!(stream.status().outcome(), Ok(()));
        assert_eq!(stream.feed(&seven).unwrap_err(), Error::NotWaiting);
    }
}

#[test]
fn each_end_has_its_outcome() {
    let order = Order::Little;
    let (one, other, end) = (link(order, 1, "one"), link(order, 2, "two"), done(order, 0));
    let error = |code: i32| {
        let body = Bytes(Vec::new(), order).u32(code as u32).bytes(&[0; 16]);
        message(order, NLMSG_ERROR, 0, 1, &body.0)
    };
    let mut interrupted = end.clone();
    interrupted[6] |= NLM_F_DUMP_INTR as u8;
    assert_eq!(outcome(&[one.clone(), end.clone()]), Ok(()));
    assert_eq!(outcome(&[]), Err(Incomplete::Waiting));
    assert_eq!(outcome(std::slice::from_ref(&one)), Err(Incomplete::Waiting));
    assert_eq!(outcome(&[error(-1)]), Err(Incomplete::Refused(1)));
    assert_eq!(outcome(&[done(order, -95)]), Err(Incomplete::Refused(95)));
    assert_eq!(outcome(&[error(0), end.clone()]), Ok(()));
    let overrun = message(order, NLMSG_OVERRUN, 0, 1, &[]);
    assert_eq!(outcome(&[overrun]), Err(Incomplete::Overrun));
    assert_eq!(outcome(&[one[..20].to_vec(), end.clone()]), Err(Incomplete::Damaged));
    assert_eq!(outcome(&[interrupted]), Err(Incomplete::Interrupted));
    assert_eq!(outcome(&[one, other, end]), Err(Incomplete::Missed));
    let refused = Incomplete::Refused(1).to_string();
    assert!(refused.starts_with("Operation not permitted"), "{refused}");
}

#[test]
fn a_wrong_use_gets_an_error() {
    let options = Options::new().order(Order::Little);
    let mut session = session(options.total(100));
    let again = session.begin(Family::Link, AF_UNSPEC, 2, PORT);
    assert_eq!(again, Err(Error::Busy));
    assert_eq!(session.feed(&[0; 104]), Err(Error::Total));
    assert_eq!(session.feed(&[0; 65_540]), Err(Error::Total));
    let fault = Fault { kind: FaultKind::Cut, place: 0 };
    assert_eq!(session.feed(&[0; 8]), Err(Error::Broken(fault)));
    assert_eq!(session.abandon(), Ok(()));
    assert_eq!(session.status().outcome(), Err(Incomplete::Abandoned));
    assert_eq!(session.abandon(), Err(Error::NotWaiting));
    assert_eq!(session.feed(&[]), Err(Error::NotWaiting));
    assert_eq!(session.begin(Family::Rule, AF_INET, 1, PORT), Err(Error::SameSequence));
    assert!(session.begin(Family::Rule, AF_INET, 2, PORT).is_ok());
    for wrong in [options.depth(33), options.datagram(15), options.entries(65_537)] {
        assert_eq!(Session::new(&wrong).err(), Some(Error::BadLimit));
        assert_eq!(Stream::new(&wrong).err(), Some(Error::BadLimit));
        assert_eq!(Tape::with_options(wrong).read(&[]).err(), Some(Error::BadLimit));
        assert_eq!(show(1, &[], &wrong).err(), Some(Error::BadLimit));
    }
    let large = vec![0; 65_540];
    assert_eq!(Tape::with_options(options).read(&large).err(), Some(Error::TooLarge));
    assert_eq!(Error::TooLarge.to_string(), "too large");
}

#[test]
fn no_seed_is_an_error_of_its_own() {
    assert_eq!((Error::NoSeed.code(), Error::NoSeed.to_string()), (Some(24), "no seed".into()));
}

#[test]
fn values_of_another_size_are_none() {
    let order = Order::Little;
    let head = Bytes(Vec::new(), order).bytes(&[AF_INET, 24, 0, 0, 254, 3, 0, 1]).u32(0);
    let body = head
        .attribute(RTA_DST, &[192, 0, 2])
        .attribute(RTA_GATEWAY, &[192, 0, 2, 1, 0])
        .attribute(RTA_OIF, &[1, 0])
        .attribute(RTA_TABLE, &[1, 0, 0, 0, 0])
        .attribute(RTA_PRIORITY | NLA_F_NET_BYTEORDER, &[0, 0, 1, 2])
        .attribute(RTA_PREFSRC | NLA_F_NESTED, &[]);
    let bytes = message(order, RTM_NEWROUTE, 0, 0, &body.0);
    let mut tape = Tape::with_options(Options::new().order(order));
    let datagram = tape.read(&bytes).unwrap();
    let route = datagram.messages().next().unwrap().route().unwrap();
    assert_eq!((route.destination(), route.gateway(), route.out_interface()), (None, None, None));
    // RTA_TABLE has five bytes: the head's counts. RTA_PRIORITY is in network order.
    assert_eq!((route.table(), route.priority()), (254, Some(258)));
    assert_eq!((route.preferred_source(), route.is_default()), (None, false));
    assert_eq!(route.next_hops().count(), 0);
    let first = route.attributes().iter().next().unwrap();
    assert_eq!((first.payload(), first.name().unwrap().as_str()), (&[192, 0, 2][..], "RTA_DST"));
}

#[test]
fn a_gateway_of_another_family_is_found() {
    let order = Order::Big;
    let via = [&[0, AF_INET6, 0xfe, 0x80][..], &[0; 13], &[1]].concat();
    let head = Bytes(Vec::new(), order).bytes(&[AF_INET, 0, 0, 0, 254, 3, 0, 1]).u32(0);
    let bytes = message(order, RTM_NEWROUTE, 0, 0, &head.attribute(RTA_VIA, &via).0);
    let mut tape = Tape::with_options(Options::new().order(order));
    let datagram = tape.read(&bytes).unwrap();
    let route = datagram.messages().next().unwrap().route().unwrap();
    assert_eq!(route.gateway(), Some("fe80::1".parse::<IpAddr>().unwrap()));
    assert!(route.is_default());
}

#[test]
fn sessions_go_from_thread_to_thread() {
    let order = Order::Little;
    let mut session = session(Options::new().order(order));
    let mut session = thread::spawn(move || {
        session.feed(&link(order, 1, "one")).unwrap();
        session
    })
    .join()
    .unwrap();
    assert!(session.feed(&done(order, 0)).unwrap().has_ended);
    let table = session.table(Family::Link).unwrap();
    // A table is a copy, which threads share.
    thread::scope(|scope| {
        for _ in 0..4 {
            scope.spawn(|| assert_eq!(table.iter().len(), 1));
        }
    });
}
