//! Puts requests: each with every field, with numbers that are 0 and with none, in each room, what
//! is too long, and several in one datagram. `as_ip` compares them with what ip(8) sends.

use checks::hex;
use rtnl::constants::*;
use rtnl::{check, AddressRequest, BuildError, Error, Form, HardwareAddress, Lifetimes};
use rtnl::{LinkRequest, Metric, NeighbourRequest, NextHopHead, NextHopRequest, Operation};
use rtnl::{Options, Order, Prefix, RouteRequest, RuleRequest, Tape};
use std::ffi::OsStr;
use std::net::IpAddr;

/// What all five have.
trait Puts {
    /// The bytes of the head that its message has.
    const HEAD: usize;

    fn put_to<'b>(
        &self,
        operation: Operation,
        sequence: u32,
        order: Order,
        buffer: &'b mut [u8],
    ) -> Result<&'b [u8], Error>;
}

macro_rules! puts {
    ($($name:ident $head:literal)*) => {$(
        impl Puts for $name<'_> {
            const HEAD: usize = $head;

            fn put_to<'b>(
                &self,
                operation: Operation,
                sequence: u32,
                order: Order,
                buffer: &'b mut [u8],
            ) -> Result<&'b [u8], Error> {
                self.put(operation, sequence, order, buffer)
            }
        }
    )*};
}

puts! { LinkRequest 16  AddressRequest 8  RouteRequest 12  NeighbourRequest 12  RuleRequest 12 }

/// What is put with a sequence number whose bytes differ, and the highest byte first.
fn big<P: Puts>(operation: Operation, request: &P) -> String {
    hex(request.put_to(operation, 0x1020304, Order::Big, &mut [0xaa; 512]).unwrap())
}

/// The attributes that are put behind the head, with the lowest byte first.
fn attributes<P: Puts>(request: &P) -> String {
    let mut buffer = [0xaa; 512];
    let bytes = request.put_to(Operation::Add, 0, Order::Little, &mut buffer).unwrap();
    assert_eq!(bytes[..4], (bytes.len() as u32).to_le_bytes());
    hex(&bytes[16 + P::HEAD..])
}

fn text(name: &str) -> Option<&OsStr> {
    Some(name.as_ref())
}

fn ip(address: &str) -> IpAddr {
    address.parse().unwrap()
}

fn prefix(address: &str, len: u8) -> Prefix {
    Prefix { address: ip(address), len }
}

// ---- With every field ----

fn whole_link() -> LinkRequest<'static> {
    LinkRequest {
        index: 0x8000_0005,
        name: text("a"),
        up: Some(true),
        mtu: Some(1_400),
        master: Some(6),
        link: Some(7),
        hardware_address: HardwareAddress::new(&[2, 0, 0, 0, 0, 1]),
        kind: text("vlan"),
        data: &[0, 6, 0, 1, 0, 5, 0, 0],
    }
}

fn whole_address() -> AddressRequest<'static> {
    AddressRequest {
        peer: Some(prefix("192.0.2.2", 24)),
        broadcast: Some(ip("192.0.2.255")),
        label: text("a:1"),
        flags: 0x204,
        scope: RT_SCOPE_LINK,
        lifetimes: Some(Lifetimes { preferred: 30, valid: 60 }),
        ..AddressRequest::of(prefix("192.0.2.1", 32), 0xa0b_0c0d)
    }
}

/// With one metric, and with one next hop to a gateway of the other family.
fn with_whole_route<T>(run: impl FnOnce(&RouteRequest<'_>) -> T) -> T {
    let head = NextHopHead { flags: 4, weight: 10, index: 0x8000_0002 };
    run(&RouteRequest {
        source: Some(prefix("10.2.0.0", 15)),
        type_of_service: 0x10,
        table: 0x1000,
        protocol: RTPROT_STATIC,
        scope: RT_SCOPE_SITE,
        route_type: RTN_UNICAST,
        flags: RTNH_F_ONLINK.into(),
        gateway: Some(ip("192.0.2.254")),
        preferred_source: Some(ip("192.0.2.1")),
        priority: Some(100),
        out_interface: Some(0x8000_0001),
        metrics: &[Metric { number: RTAX_MTU, value: 1_400 }],
        next_hops: &[NextHopRequest::new(head, Some(ip("2001:db8::1"))).unwrap()],
        ..RouteRequest::to(prefix("10.1.0.0", 16))
    })
}

fn whole_neighbour() -> NeighbourRequest<'static> {
    NeighbourRequest {
        address_family: AF_BRIDGE,
        index: 0xa0b_0c0d,
        state: 0x102,
        flags: NTF_SELF,
        address: Some(ip("2001:db8::20")),
        link_layer_address: HardwareAddress::new(&[2, 0, 0, 0, 0, 0x20]),
        vlan: Some(0x123),
    }
}

fn whole_rule() -> RuleRequest<'static> {
    RuleRequest {
        address_family: AF_INET,
        from: Some(prefix("10.1.0.0", 16)),
        to: Some(prefix("10.2.0.0", 15)),
        type_of_service: 0x10,
        table: 0x1000,
        action: FR_ACT_TO_TBL,
        is_inverted: true,
        mark: Some(0x10),
        mark_mask: Some(0xff),
        in_interface: text("one"),
        out_interface: text("a"),
        target: Some(200),
        suppress_prefix_len: Some(24),
        priority: Some(100),
    }
}

#[test]
fn every_field_has_its_place_and_its_order() {
    let expected = "0000006400100005010203040000000000000000800000050000000100000001\
                    000a000102000000000100000008000400000578\
                    0008000a00000006\
                    0008000500000007000600036100000000180012\
                    00080001766c616e000c00020006000100050000";
    assert_eq!(big(Operation::Set, &whole_link()), expected);
    let expected = "00000054001405050102030400000000021800fd0a0b0c0d\
                    00080002c000020100080001c000020200080004c00002ff00080003613a3100\
                    0008000800000204001400060000001e0000003c0000000000000000";
    assert_eq!(big(Operation::Replace, &whole_address()), expected);
    let expected = "0000008000180c05010203040000000002100f100004c80100000004\
                    000800010a010000000800020a02000000080005c00002fe00080007c0000201\
                    00080006000000640008000f000010000008000480000001\
                    000c00080008000200000578\
                    00200009001c0409800000020014000520010db8000000000000000000000001";
    assert_eq!(with_whole_route(|it| big(Operation::Append, it)), expected);
    let expected = "00000044001c01050102030400000000070000000a0b0c0d01020200\
                    0014000120010db8000000000000000000000020\
                    000a000202000000002000000006000501230000";
    assert_eq!(big(Operation::Change, &whole_neighbour()), expected);
    let expected = "0000006c002006050102030400000000020f10100000000100000002\
                    000800020a010000000800010a0200000008000a0000001000080010000000ff\
                    000800036f6e650000060011610000000008000f00001000\
                    00080004000000c80008000e000000180008000600000064";
    assert_eq!(big(Operation::Add, &whole_rule()), expected);
}

#[test]
fn next_hops_are_what_they_were_made_of() {
    let head = NextHopHead { flags: 1, weight: 3, index: u32::MAX };
    for gateway in [None, Some(ip("192.0.2.254")), Some(ip("2001:db8::fe"))] {
        let hop = NextHopRequest::new(head, gateway).unwrap();
        assert_eq!((hop.head(), hop.gateway()), (head, gateway));
        assert!(format!("{hop:?}").contains("index: 4294967295"));
    }
    assert_eq!(NextHopRequest::new(NextHopHead::default(), None), Ok(NextHopRequest::default()));
}

#[test]
fn weights_are_from_1_to_256() {
    let of = |weight| NextHopRequest::new(NextHopHead { weight, ..NextHopHead::default() }, None);
    // The fourth byte of struct rtnexthop is rtnh_hops: `weight` of ip(8) less one.
    for (weight, hops) in [(1, "00"), (2, "01"), (10, "09"), (255, "fe"), (256, "ff")] {
        let hop = of(weight).unwrap();
        assert_eq!(hop.head().weight, weight);
        let route = RouteRequest { next_hops: &[hop], ..RouteRequest::default() };
        assert_eq!(attributes(&route), format!("0c000900080000{hops}00000000"));
    }
    assert_eq!(NextHopHead::default().weight, 1);
    for weight in [0, 257, 512, u16::MAX] {
        assert_eq!(of(weight), Err(BuildError::Mismatch));
    }
}

// ---- With 0, and with nothing ----

#[test]
fn nothing_is_put_of_what_is_not_there() {
    assert_eq!(attributes(&LinkRequest::default()), "");
    assert_eq!(attributes(&RouteRequest::default()), "");
    assert_eq!(attributes(&NeighbourRequest::default()), "");
    assert_eq!(attributes(&RuleRequest::default()), "");
    let own = AddressRequest::of(prefix("192.0.2.1", 24), 1);
    assert_eq!(attributes(&own), "08000200c000020108000100c0000201");
    // Texts of no byte; and without a kind, what is said of it.
    let (name, kind) = (text(""), text(""));
    assert_eq!(attributes(&LinkRequest { name, kind, data: &[1], ..LinkRequest::default() }), "");
    let labelled = AddressRequest { label: text(""), ..own };
    assert_eq!(attributes(&labelled), attributes(&own));
    let (in_interface, out_interface) = (text(""), text(""));
    let rule = RuleRequest { in_interface, out_interface, ..RuleRequest::default() };
    assert_eq!(attributes(&rule), "");
}

#[test]
fn a_number_that_is_0_is_put() {
    let zero = Some(0);
    let link = LinkRequest { mtu: zero, master: zero, link: zero, ..LinkRequest::default() };
    assert_eq!(attributes(&link), "080004000000000008000a00000000000800050000000000");
    let route = RouteRequest { priority: zero, out_interface: zero, ..RouteRequest::default() };
    assert_eq!(attributes(&route), "08000600000000000800040000000000");
    let neighbour = NeighbourRequest { vlan: Some(0), ..NeighbourRequest::default() };
    assert_eq!(attributes(&neighbour), "0600050000000000");
    let rule = RuleRequest {
        mark: zero,
        mark_mask: zero,
        target: zero,
        suppress_prefix_len: zero,
        priority: zero,
        ..RuleRequest::default()
    };
    let expected = "08000a000000000008001000000000000800040000000000\
                    08000e00000000000800060000000000";
    assert_eq!(attributes(&rule), expected);
    let lifetimes = Some(Lifetimes { preferred: 0, valid: 0 });
    let own = AddressRequest { lifetimes, ..AddressRequest::of(prefix("192.0.2.1", 24), 1) };
    let expected = format!("08000200c000020108000100c000020114000600{:032}", 0);
    assert_eq!(attributes(&own), expected);
    // And one alone says nothing of the others.
    let rule = RuleRequest { mark_mask: zero, ..RuleRequest::default() };
    assert_eq!(attributes(&rule), "0800100000000000");
}

#[test]
fn up_and_down_are_told_apart_from_neither() {
    let head = |up| {
        let mut buffer = [0xaa; 64];
        let link = LinkRequest { up, ..LinkRequest::default() };
        hex(&link.put(Operation::Set, 0, Order::Little, &mut buffer).unwrap()[24..])
    };
    assert_eq!(head(None), "0000000000000000");
    assert_eq!(head(Some(false)), "0000000001000000");
    assert_eq!(head(Some(true)), "0100000001000000");
}

#[test]
fn prefixes_of_no_bit_are_put() {
    let default = RouteRequest::to(prefix("0.0.0.0", 0));
    assert_eq!(
        (default.address_family, attributes(&default)),
        (AF_INET, "0800010000000000".into())
    );
    let default = RouteRequest::to(prefix("::", 0));
    let expected = format!("14000100{:032}", 0);
    assert_eq!((default.address_family, attributes(&default)), (AF_INET6, expected));
}

// ---- Address families ----

/// The family in the head of what is put.
fn family<P: Puts>(request: &P) -> u8 {
    request.put_to(Operation::Add, 0, Order::Little, &mut [0xaa; 256]).unwrap()[16]
}

#[test]
fn a_family_that_is_not_said_is_that_of_the_first_address() {
    let (v4, v6) = (Some(ip("192.0.2.1")), Some(ip("2001:db8::1")));
    let (net4, net6) = (Some(prefix("10.0.0.0", 8)), Some(prefix("2001:db8::", 32)));
    let of_v6 = NextHopRequest::new(NextHopHead::default(), v6).unwrap();
    let hops = [NextHopRequest::default(), of_v6];
    // In each of these an address more stands before those of the one above.
    let none = RouteRequest::default();
    let of_hop = RouteRequest { next_hops: &hops, ..none };
    let of_preferred = RouteRequest { preferred_source: v4, ..of_hop };
    let of_gateway = RouteRequest { gateway: v6, ..of_preferred };
    let of_source = RouteRequest { source: net4, ..of_gateway };
    let of_destination = RouteRequest { destination: net6, ..of_source };
    let said = RouteRequest { address_family: 99, ..of_destination };
    let routes = [none, of_hop, of_preferred, of_gateway, of_source, of_destination, said];
    let wanted = [AF_INET, AF_INET6, AF_INET, AF_INET6, AF_INET, AF_INET6, 99];
    assert_eq!(routes.map(|it| family(&it)), wanted);

    let none = RuleRequest::default();
    let of_to = RuleRequest { to: net4, ..none };
    let of_from = RuleRequest { from: net6, ..of_to };
    let said = RuleRequest { address_family: AF_INET, ..of_from };
    let wanted = [AF_INET, AF_INET, AF_INET6, AF_INET];
    assert_eq!([none, of_to, of_from, said].map(|it| family(&it)), wanted);

    let none = NeighbourRequest::default();
    let of_address = NeighbourRequest { address: v6, ..none };
    let said = NeighbourRequest { address_family: AF_BRIDGE, ..of_address };
    assert_eq!([none, of_address, said].map(|it| family(&it)), [AF_BRIDGE, AF_INET6, AF_BRIDGE]);
}

#[test]
fn an_entry_without_an_address_is_a_bridges() {
    // bridge fdb add 02:00:00:00:00:30 dev one master static vlan 5
    let entry = NeighbourRequest {
        index: 10,
        state: NUD_NOARP | NUD_REACHABLE,
        flags: NTF_MASTER,
        link_layer_address: HardwareAddress::new(&[2, 0, 0, 0, 0, 0x30]),
        vlan: Some(5),
        ..NeighbourRequest::default()
    };
    let expected = "300000001c0005060000000000000000070000000a00000042000400\
                    0a00020002000000003000000600050005000000";
    let put = hex(entry.put(Operation::Add, 0, Order::Little, &mut [0xaa; 64]).unwrap());
    assert_eq!(put, expected);
}

// ---- What is refused ----

fn assert_rooms<P: Puts>(request: &P, whole: usize) {
    for room in 0..=whole + 4 {
        let mut buffer = [0xaa; 256];
        let put = request.put_to(Operation::Add, 1, Order::Little, &mut buffer[..room]);
        let wanted = if room < whole { Err(BuildError::NoRoom.into()) } else { Ok(whole) };
        assert_eq!(put.map(<[u8]>::len), wanted, "{room}");
        let own = room.min(whole);
        assert!(buffer[own..].iter().all(|it| *it == 0xaa), "{room}");
    }
}

#[test]
fn each_room_is_enough_or_nothing_behind_it_changes() {
    assert_rooms(&whole_link(), 100);
    assert_rooms(&whole_address(), 84);
    with_whole_route(|it| assert_rooms(it, 128));
    assert_rooms(&whole_neighbour(), 68);
    assert_rooms(&whole_rule(), 108);
}

#[test]
fn what_is_too_long_or_has_no_number_is_refused() {
    let mut buffer = vec![0xaa; 200_000];
    let mut refused = |request: &LinkRequest<'_>| {
        request.put(Operation::Add, 1, Order::Little, &mut buffer).unwrap_err()
    };
    let (long, name) = (vec![0; 65_532], "n".repeat(65_531));
    let hardware_address = |len: usize| HardwareAddress::new(&long[..len]);
    let link = |len| LinkRequest { hardware_address: hardware_address(len), ..whole_link() };
    assert_eq!(refused(&link(65_532)), Error::Build(BuildError::TooLong));
    assert_eq!(refused(&link(65_531)), Error::Build(BuildError::TooLarge));
    let named = |len: usize| LinkRequest { name: text(&name[..len]), ..LinkRequest::default() };
    assert_eq!(refused(&named(65_531)), Error::Build(BuildError::TooLong));
    assert_eq!(refused(&named(65_530)), Error::Build(BuildError::TooLarge));
    let of_data = LinkRequest { data: &long, ..whole_link() };
    assert_eq!(refused(&of_data), Error::Build(BuildError::TooLong));

    let metrics = |number| [Metric { number, value: 1 }];
    let mut put = |metrics: &[Metric]| {
        let route = RouteRequest { metrics, ..RouteRequest::default() };
        route.put(Operation::Add, 1, Order::Little, &mut buffer).map(hex)
    };
    assert_eq!(put(&metrics(16_384)), Err(Error::Build(BuildError::Mismatch)));
    assert!(put(&metrics(16_383)).unwrap().ends_with("0c0008000800ff3f01000000"));
    assert_eq!(put(&[Metric::default(); 8_192]), Err(Error::Build(BuildError::TooLarge)));
}

#[test]
fn refusals_say_what_the_builder_says() {
    let words = [
        (BuildError::Mismatch, 11, "mismatch"),
        (BuildError::TooLong, 4, "too long"),
        (BuildError::TooLarge, 6, "too large"),
        (BuildError::NoRoom, 17, "no room"),
    ];
    for (error, code, text) in words {
        let error = Error::from(error);
        assert_eq!((error.code(), error.to_string()), (Some(code), text.into()));
        assert_eq!(error.fault(), None);
    }
}

// ---- Several in one datagram ----

#[test]
fn requests_stand_one_behind_another() {
    let mut buffer = [0xaa; 512];
    let (set, add, order) = (Operation::Set, Operation::Add, Order::Little);
    let mut len = whole_link().put(set, 7, order, &mut buffer).unwrap().len();
    with_whole_route(|it| len += it.put(add, 8, order, &mut buffer[len..]).unwrap().len());
    len += whole_rule().put(add, 9, order, &mut buffer[len..]).unwrap().len();
    assert_eq!(len, 100 + 128 + 108);

    let options = Options::new().order(order);
    assert_eq!(check(&buffer[..len], &options), Ok(Form::Canonical));
    let mut tape = Tape::with_options(options);
    let messages: Vec<_> = tape.read(&buffer[..len]).unwrap().messages().collect();
    let heads: Vec<_> = messages.iter().map(|it| (it.kind(), it.sequence())).collect();
    assert_eq!(heads, [(RTM_NEWLINK, 7), (RTM_NEWROUTE, 8), (RTM_NEWRULE, 9)]);
    let link = messages[0].link().unwrap();
    assert_eq!((link.index(), link.name(), link.kind()), (0x8000_0005, text("a"), text("vlan")));
    let route = messages[1].route().unwrap();
    assert_eq!((route.table(), route.out_interface()), (0x1000, Some(0x8000_0001)));
    let hops: Vec<_> = route.next_hops().map(|it| (it.gateway(), it.weight())).collect();
    assert_eq!(hops, [(Some(ip("2001:db8::1")), 10)]);
    let rule = messages[2].rule().unwrap();
    assert_eq!((rule.from(), rule.to()), (whole_rule().from, whole_rule().to));
}
