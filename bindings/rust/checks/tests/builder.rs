//! Builds what ip(8) sends, byte by byte, and what no room, limit or order of calls allows.

use checks::{hex, Random};
use rtnl::constants::*;
use rtnl::{check, AddressHead, Attribute, Attributes, BuildError, Builder, Error, Form, Head};
use rtnl::{
    Header, LinkHead, NeighbourHead, NextHopHead, Options, Order, Prefix, RouteHead, RuleHead,
    Tape,
};
use std::net::{Ipv4Addr, Ipv6Addr};

type Built = Result<(), BuildError>;

const GATEWAY: Ipv4Addr = Ipv4Addr::new(192, 0, 2, 254);
/// What ip(8) asks for beside the request itself, where it adds something.
const ADDS: u16 = NLM_F_REQUEST | NLM_F_ACK | NLM_F_CREATE | NLM_F_EXCL;
const LITTLE: Options = Options::new().order(Order::Little);

fn header(message_type: u16, flags: u16) -> Header {
    Header { message_type, flags, sequence: 0, port: 0 }
}

fn prefix(address: &str, len: u8) -> Prefix {
    Prefix { address: address.parse().unwrap(), len }
}

/// A route as ip(8) adds it.
fn route_to(prefix: Prefix) -> RouteHead {
    let (table, protocol) = (RT_TABLE_MAIN as u8, RTPROT_BOOT);
    RouteHead { table, protocol, route_type: RTN_UNICAST, ..RouteHead::to(prefix) }
}

/// A datagram of one message, with the lowest byte first.
fn built(
    header: &Header,
    head: &impl Head,
    put: impl FnOnce(&mut Builder<'_>) -> Built,
) -> Result<String, BuildError> {
    let mut buffer = [0xaa; 512];
    let mut builder = Builder::new(&LITTLE, &mut buffer).unwrap();
    builder.message(header, head, put)?;
    builder.finish().map(hex)
}

/// That this is built, and that it is read as it was put.
fn assert_built(
    header: &Header,
    head: &impl Head,
    put: impl FnOnce(&mut Builder<'_>) -> Built,
    expected: &str,
) {
    assert_eq!(built(header, head, put).unwrap(), expected);
}

#[test]
fn links_are_as_ip_sends_them() {
    // link set dev one up
    let up = LinkHead { index: 10, flags: IFF_UP, change: IFF_UP, ..LinkHead::default() };
    let expected = "20000000100005000000000000000000000000000a0000000100000001000000";
    assert_built(&header(RTM_NEWLINK, NLM_F_REQUEST | NLM_F_ACK), &up, |_| Ok(()), expected);
    // link add link one name one.5 type vlan id 5
    let put = |link: &mut Builder<'_>| {
        link.put_u32(IFLA_LINK, 10)?;
        link.put_text(IFLA_IFNAME, "one.5")?;
        link.list(IFLA_LINKINFO, |info| {
            // No zero byte stands behind this text.
            info.put(IFLA_INFO_KIND, b"vlan")?;
            // It has no flag that says that it is a list: IFLA_VLAN_ID, 5.
            info.put(IFLA_INFO_DATA, &[6, 0, 1, 0, 5, 0, 0, 0])
        })
    };
    let expected =
        "4c00000010000506000000000000000000000000000000000000000000000000080005000a000000\
                    0a0003006f6e652e350000001800120008000100766c616e0c0002000600010005000000";
    assert_built(&header(RTM_NEWLINK, ADDS), &LinkHead::default(), put, expected);
}

#[test]
fn addresses_are_as_ip_sends_them() {
    // address add 192.0.2.11/24 broadcast 192.0.2.255 dev one
    let own = prefix("192.0.2.11", 24);
    let put = |it: &mut Builder<'_>| {
        it.put_address(IFA_LOCAL, own.address)?;
        it.put_address(IFA_BROADCAST, Ipv4Addr::new(192, 0, 2, 255))?;
        it.put_address(IFA_ADDRESS, own.address)
    };
    let expected = "30000000140005060000000000000000021800000a00000008000200c000020b\
                    08000400c00002ff08000100c000020b";
    assert_built(&header(RTM_NEWADDR, ADDS), &AddressHead::of(own, 10), put, expected);
    // address add 2001:db8::11/64 dev one nodad
    let own = prefix("2001:db8::11", 64);
    let put = |it: &mut Builder<'_>| {
        it.put_address(IFA_LOCAL, own.address)?;
        it.put_address(IFA_ADDRESS, own.address)
    };
    let head = AddressHead { flags: IFA_F_NODAD as u8, ..AddressHead::of(own, 10) };
    let expected = "400000001400050600000000000000000a4002000a000000\
                    1400020020010db8000000000000000000000011\
                    1400010020010db8000000000000000000000011";
    assert_built(&header(RTM_NEWADDR, ADDS), &head, put, expected);
}

#[test]
fn routes_are_as_ip_sends_them() {
    // route add 10.7.0.0/16 via 192.0.2.254 mtu 1400 advmss 1360
    let to = prefix("10.7.0.0", 16);
    let put = |it: &mut Builder<'_>| {
        it.put_address(RTA_DST, to.address)?;
        it.put_address(RTA_GATEWAY, GATEWAY)?;
        it.list(RTA_METRICS, |metrics| {
            metrics.put_u32(RTAX_MTU, 1_400)?;
            metrics.put_u32(RTAX_ADVMSS, 1_360)
        })
    };
    let expected = "4000000018000506000000000000000002100000fe03000100000000080001000a070000\
                    08000500c00002fe1400080008000200780500000800080050050000";
    assert_built(&header(RTM_NEWROUTE, ADDS), &route_to(to), put, expected);
    // route add 10.15.0.0/16 via inet6 2001:db8::fe dev one
    let to = prefix("10.15.0.0", 16);
    let put = |it: &mut Builder<'_>| {
        it.put_address(RTA_DST, to.address)?;
        it.put_via(RTA_VIA, "2001:db8::fe".parse::<Ipv6Addr>().unwrap())?;
        it.put_u32(RTA_OIF, 10)
    };
    let expected = "4400000018000506000000000000000002100000fe03000100000000080001000a0f0000\
                    160012000a0020010db80000000000000000000000fe0000080004000a000000";
    assert_built(&header(RTM_NEWROUTE, ADDS), &route_to(to), put, expected);
}

/// route add 10.10.0.0/16 nexthop via 192.0.2.254 dev one weight 2 nexthop dev other weight 256
fn put_two_ways(it: &mut Builder<'_>) -> Built {
    it.put_address(RTA_DST, Ipv4Addr::new(10, 10, 0, 0))?;
    it.list(RTA_MULTIPATH, |hops| {
        hops.next_hop(&NextHopHead { flags: 0, weight: 2, index: 10 }, |hop| {
            hop.put_address(RTA_GATEWAY, GATEWAY)
        })?;
        hops.next_hop(&NextHopHead { flags: 0, weight: 256, index: 11 }, |_| Ok(()))
    })
}

const TWO_WAYS: &str = "4000000018000506000000000000000002100000fe03000100000000080001000a0a0000\
                        1c000900100000010a00000008000500c00002fe080000ff0b000000";

#[test]
fn next_hops_are_as_ip_sends_them() {
    let head = route_to(prefix("10.10.0.0", 16));
    assert_built(&header(RTM_NEWROUTE, ADDS), &head, put_two_ways, TWO_WAYS);
}

#[test]
fn neighbours_and_rules_are_as_ip_sends_them() {
    // neighbour add 2001:db8::20 lladdr 02:00:00:00:00:20 dev one router
    let head = NeighbourHead {
        address_family: AF_INET6,
        index: 10,
        state: NUD_PERMANENT,
        flags: NTF_ROUTER,
        route_type: 0,
    };
    let put = |it: &mut Builder<'_>| {
        it.put_address(NDA_DST, "2001:db8::20".parse::<Ipv6Addr>().unwrap())?;
        it.put(NDA_LLADDR, &[2, 0, 0, 0, 0, 0x20])
    };
    let expected = "3c0000001c00050600000000000000000a0000000a00000080008000\
                    1400010020010db80000000000000000000000200a0002000200000000200000";
    assert_built(&header(RTM_NEWNEIGH, ADDS), &head, put, expected);
    // rule add from 192.0.2.0/24 to 198.51.100.0/24 table 1000 priority 100
    let head = RuleHead {
        address_family: AF_INET,
        destination_len: 24,
        source_len: 24,
        action: FR_ACT_TO_TBL,
        ..RuleHead::default()
    };
    let put = |it: &mut Builder<'_>| {
        it.put_address(FRA_SRC, Ipv4Addr::new(192, 0, 2, 0))?;
        it.put_address(FRA_DST, Ipv4Addr::new(198, 51, 100, 0))?;
        it.put_u32(FRA_TABLE, 1_000)?;
        it.put_u32(FRA_PRIORITY, 100)
    };
    let expected = "3c00000020000506000000000000000002181800000000010000000008000200c0000200\
                    08000100c633640008000f00e80300000800060064000000";
    assert_built(&header(RTM_NEWRULE, ADDS), &head, put, expected);
}

/// That a message of this type begins with these bytes behind its header.
fn assert_head(message_type: u16, head: &impl Head, expected: &str) {
    let found = built(&header(message_type, 0), head, |_| Ok(())).unwrap();
    assert_eq!(found[32..], *expected);
}

#[test]
fn every_field_of_what_is_on_an_interface_has_its_place() {
    let link = LinkHead {
        address_family: 1,
        hardware_type: 0x302,
        index: 0x7060504,
        flags: 0xb0a0908,
        change: 0xf0e0d0c,
    };
    assert_head(RTM_SETLINK, &link, "010002030405060708090a0b0c0d0e0f");
    let address =
        AddressHead { address_family: 1, prefix_len: 2, flags: 3, scope: 4, index: 0x8070605 };
    assert_head(RTM_DELADDR, &address, "0102030405060708");
    let neighbour = NeighbourHead {
        address_family: 1,
        index: 0x5040302,
        state: 0x706,
        flags: 8,
        route_type: 9,
    };
    assert_head(RTM_DELNEIGH, &neighbour, "010000000203040506070809");
}

#[test]
fn every_field_of_routes_and_rules_has_its_place() {
    let route = RouteHead {
        address_family: 1,
        destination_len: 2,
        source_len: 3,
        type_of_service: 4,
        table: 5,
        protocol: 6,
        scope: 7,
        route_type: 8,
        flags: 0xc0b0a09,
    };
    assert_head(RTM_DELROUTE, &route, "0102030405060708090a0b0c");
    let rule = RuleHead {
        address_family: 1,
        destination_len: 2,
        source_len: 3,
        type_of_service: 4,
        table: 5,
        action: 6,
        flags: 0xa090807,
    };
    assert_head(RTM_DELRULE, &rule, "01020304050000060708090a");
}

/// A link with a number of each size, whose attributes have no meaning.
fn put_numbers(it: &mut Builder<'_>) -> Built {
    it.put_u8(200, 0x12)?;
    it.put_u16(201, 0x1234)?;
    it.put_u32(202, 0x1234_5678)?;
    it.put_u64(203, 0x1234_5678_9abc_def0)?;
    it.put_be16(204 | NLA_F_NET_BYTEORDER, 0x1234)?;
    it.put_be32(205 | NLA_F_NET_BYTEORDER, 0x1234_5678)?;
    it.put_be64(206 | NLA_F_NET_BYTEORDER, 0x1234_5678_9abc_def0)?;
    it.list(207 | NLA_F_NESTED, |list| list.put_text(1, ""))
}

#[test]
fn numbers_have_their_size_and_their_order() {
    let little = "0500c800120000000600c900341200000800ca00785634120c00cb00f0debc9a78563412\
                  0600cc40123400000800cd40123456780c00ce40123456789abcdef0\
                  0c00cf800500010000000000";
    let found = built(&header(RTM_NEWLINK, 0), &LinkHead::default(), put_numbers).unwrap();
    assert_eq!(found.strip_prefix(&format!("6c00000010{:022}{:032}", 0, 0)), Some(little));

    let big = "000500c812000000000600c912340000000800ca12345678000c00cb123456789abcdef0\
               000640cc12340000000840cd12345678000c40ce123456789abcdef0000c80cf0005000100000000";
    let (options, mut buffer) = (Options::new().order(Order::Big), [0; 256]);
    let mut builder = Builder::new(&options, &mut buffer).unwrap();
    let header =
        Header { message_type: RTM_NEWLINK, flags: 5, sequence: 0x1020304, port: 0x5060708 };
    let head = LinkHead { hardware_type: 0x102, index: 3, ..LinkHead::default() };
    builder.message(&header, &head, put_numbers).unwrap();
    let front = "0000006c00100005010203040506070800000102000000030000000000000000";
    assert_eq!(hex(builder.finish().unwrap()), format!("{front}{big}"));
}

#[test]
fn messages_are_read_as_they_were_put() {
    let mut buffer = [0; 512];
    let mut builder = Builder::new(&LITTLE, &mut buffer).unwrap();
    assert_eq!(builder.finish(), Ok(&[][..]));
    let head = route_to(prefix("10.10.0.0", 16));
    builder.message(&header(RTM_NEWROUTE, ADDS), &head, put_two_ways).unwrap();
    assert_eq!(builder.finish().unwrap().len(), 64);
    let head = LinkHead { index: 7, ..LinkHead::default() };
    let named = |it: &mut Builder<'_>| it.put_text(IFLA_IFNAME, "eth0");
    builder.message(&header(RTM_NEWLINK, 0), &head, named).unwrap();
    let datagram = builder.finish().unwrap();
    assert_eq!(check(datagram, &LITTLE), Ok(Form::Canonical));
    let mut tape = Tape::with_options(LITTLE);
    let messages: Vec<_> = tape.read(datagram).unwrap().messages().collect();
    let route = messages[0].route().unwrap();
    let hops: Vec<_> = route.next_hops().map(|it| (it.gateway(), it.weight())).collect();
    assert_eq!(hops, [(Some(GATEWAY.into()), 2), (None, 256)]);
    assert_eq!(route.destination(), Some(prefix("10.10.0.0", 16)));
    let link = messages[1].link().unwrap();
    assert_eq!((link.index(), link.name().unwrap().to_str()), (7, Some("eth0")));
}

/// An attribute that is put: bytes, or a list of others.
enum Tree {
    Bytes(u16, Vec<u8>),
    List(u16, Vec<Tree>),
}

fn tree(random: &mut Random, depth: usize) -> Tree {
    // Numbers that have no meaning.
    let number = 200 + random.below(1_000) as u16;
    if depth > 0 && random.below(3) == 0 {
        let count = random.below(4);
        return Tree::List(number, (0..count).map(|_| tree(random, depth - 1)).collect());
    }
    let len = random.below(40);
    Tree::Bytes(number, (0..len).map(|_| random.next() as u8).collect())
}

fn put_tree(it: &mut Builder<'_>, tree: &Tree) -> Built {
    match tree {
        Tree::Bytes(number, bytes) => it.put(*number, bytes),
        Tree::List(number, trees) => it.list(*number | NLA_F_NESTED, |list| {
            trees.iter().try_for_each(|tree| put_tree(list, tree))
        }),
    }
}

fn is_read(found: Attributes<'_>, trees: &[Tree]) -> bool {
    let is_one = |(it, tree): (Attribute<'_>, &Tree)| match tree {
        Tree::Bytes(number, bytes) => {
            (it.number(), it.is_nested(), it.payload()) == (*number, false, &bytes[..])
        }
        Tree::List(number, trees) => {
            (it.number(), it.is_nested()) == (*number, true) && is_read(it.attributes(), trees)
        }
    };
    found.iter().count() == trees.len() && found.iter().zip(trees).all(is_one)
}

#[test]
fn trees_are_read_as_they_were_put() {
    let (mut random, mut buffer) = (Random::new(1), vec![0xaa; 65_536]);
    let mut tape = Tape::with_options(LITTLE);
    for turn in 0..2_000 {
        let trees: Vec<Tree> = (0..random.below(6)).map(|_| tree(&mut random, 7)).collect();
        let mut builder = Builder::new(&LITTLE, &mut buffer).unwrap();
        let put = |it: &mut Builder<'_>| trees.iter().try_for_each(|tree| put_tree(it, tree));
        builder.message(&header(RTM_NEWLINK, 0), &LinkHead::default(), put).unwrap();
        let datagram = builder.finish().unwrap();
        assert_eq!(check(datagram, &LITTLE), Ok(Form::Canonical), "{turn}");
        let messages: Vec<_> = tape.read(datagram).unwrap().messages().collect();
        assert!(messages.len() == 1 && is_read(messages[0].attributes(), &trees), "{turn}");
    }
}

#[test]
fn each_room_is_enough_or_changes_nothing_behind_it() {
    let whole = TWO_WAYS.len() / 2;
    let head = route_to(prefix("10.10.0.0", 16));
    for room in 0..=whole + 4 {
        let mut buffer = [0xaa; 128];
        let mut builder = Builder::new(&LITTLE, &mut buffer[..room]).unwrap();
        let put = builder.message(&header(RTM_NEWROUTE, ADDS), &head, put_two_ways);
        let wanted = if room < whole { Err(BuildError::NoRoom) } else { Ok(whole) };
        assert_eq!(put.and_then(|()| builder.finish()).map(<[u8]>::len), wanted, "{room}");
        assert_eq!(builder.finish().map(<[u8]>::len), wanted, "{room}");
        assert!(buffer[room..].iter().all(|it| *it == 0xaa), "{room}");
    }
}

/// That what is put behind the head of a route, in a builder of these options, is refused so, and
/// that the refusal sticks until it is cleared.
fn assert_refused(
    options: &Options,
    error: BuildError,
    put: impl FnOnce(&mut Builder<'_>) -> Built,
) {
    let mut buffer = vec![0; 200_000];
    let mut builder = Builder::new(options, &mut buffer).unwrap();
    let head = route_to(prefix("10.0.0.0", 8));
    builder.begin(&header(RTM_NEWROUTE, 0), &head).unwrap();
    assert_eq!(put(&mut builder), Err(error));
    assert_eq!(builder.put_u32(RTA_OIF, 1), Err(error));
    assert_eq!(builder.close(), Err(error));
    assert_eq!(builder.end(), Err(error));
    assert_eq!(builder.finish(), Err(error));
    assert!(format!("{builder:?}").contains(&format!("refusal: Some({error:?})")));
    builder.clear();
    builder.message(&header(RTM_NEWROUTE, 0), &head, |_| Ok(())).unwrap();
    assert_eq!(builder.finish().unwrap().len(), 28);
}

#[test]
fn refusals_have_names_and_stick() {
    let hop = NextHopHead::default();
    assert_refused(&LITTLE, BuildError::Mismatch, |it| it.put(RTA_METRICS, &[0; 4]));
    assert_refused(&LITTLE, BuildError::Mismatch, |it| it.put_u8(99 | NLA_F_NESTED, 1));
    assert_refused(&LITTLE, BuildError::Mismatch, |it| it.open(RTA_DST));
    assert_refused(&LITTLE, BuildError::Mismatch, |it| it.open_next_hop(&hop));
    for weight in [0, 257, u16::MAX] {
        assert_refused(&LITTLE, BuildError::Mismatch, |it| {
            it.open(RTA_MULTIPATH)?;
            let refused = it.open_next_hop(&NextHopHead { weight, ..hop });
            assert_eq!(refused, Err(BuildError::Mismatch));
            it.open_next_hop(&hop) // Which alone would be taken.
        });
    }
    // The refusal before it sticks.
    assert_refused(&LITTLE, BuildError::StillOpen, |it| {
        assert_eq!(it.begin(&header(RTM_NEWROUTE, 0), &RouteHead::default()).ok(), None);
        it.open_next_hop(&NextHopHead { weight: 0, ..hop })
    });
    assert_refused(&LITTLE, BuildError::Mismatch, |it| {
        it.list(RTA_MULTIPATH, |hops| hops.put_u32(RTA_OIF, 1))
    });
    assert_refused(&LITTLE, BuildError::StillOpen, |it| {
        it.open(RTA_METRICS)?;
        it.end()
    });
    assert_refused(&LITTLE, BuildError::StillOpen, |it| {
        it.begin(&header(RTM_NEWROUTE, 0), &RouteHead::default())
    });
    assert_refused(&LITTLE, BuildError::NothingOpen, |it| it.close());
    assert_refused(&LITTLE, BuildError::NothingOpen, |it| {
        it.end()?;
        it.put_u32(RTA_OIF, 1)
    });
    assert_refused(&LITTLE.datagram(1_048_576), BuildError::TooLong, |it| {
        it.put(RTA_DST, &[0; 65_532])
    });
    assert_refused(&LITTLE, BuildError::TooLarge, |it| it.put(RTA_DST, &[0; 65_531]));
    assert_refused(&LITTLE.datagram(32), BuildError::TooLarge, |it| it.put_u64(RTA_DST, 1));
    assert_refused(&LITTLE.depth(1), BuildError::TooDeep, |it| {
        it.list(99 | NLA_F_NESTED, |list| list.open(1 | NLA_F_NESTED))
    });
}

#[test]
fn heads_are_those_of_their_types() {
    let error = Err(BuildError::Mismatch);
    let nothing = |_: &mut Builder<'_>| Ok(());
    assert_eq!(built(&header(RTM_NEWLINK, 0), &RouteHead::default(), nothing), error);
    assert_eq!(built(&header(RTM_GETLINK, 0), &LinkHead::default(), nothing), error);
    assert_eq!(built(&header(NLMSG_DONE, 0), &LinkHead::default(), nothing), error);
}

#[test]
fn whole_messages_are_of_no_family() {
    let mut buffer = [0xaa; 64];
    let mut builder = Builder::new(&LITTLE, &mut buffer).unwrap();
    let done = Header { message_type: NLMSG_DONE, flags: 2, sequence: 7, port: 9 };
    builder.put_message(&done, &[1, 2, 3, 4, 5]).unwrap();
    builder.put_message(&header(RTM_GETLINK, NLM_F_REQUEST), &[AF_INET]).unwrap();
    let expected = "150000000300020007000000090000000102030405000000\
                    1100000012000100000000000000000002000000";
    assert_eq!(builder.finish().map(hex), Ok(expected.into()));
    let short = header(NLMSG_ERROR, 0);
    for (header, body) in [(header(RTM_NEWLINK, 0), &[0; 20]), (short, &[0; 20])] {
        builder.clear();
        let len = if header == short { 19 } else { 16 };
        assert_eq!(builder.put_message(&header, &body[..len]), Err(BuildError::Mismatch));
    }
    builder.clear();
    builder.begin(&header(RTM_NEWLINK, 0), &LinkHead::default()).unwrap();
    assert_eq!(builder.put_message(&done, &[]), Err(BuildError::StillOpen));
}

#[test]
fn what_a_function_refuses_stays_open() {
    let (mut buffer, head) = ([0; 256], RouteHead::default());
    let mut builder = Builder::new(&LITTLE, &mut buffer).unwrap();
    let put = |it: &mut Builder<'_>| it.list(RTA_METRICS, |_| Err(BuildError::Other(99)));
    let error = Err(BuildError::Other(99));
    assert_eq!(builder.message(&header(RTM_NEWROUTE, 0), &head, put), error);
    assert_eq!(builder.finish(), Err(BuildError::StillOpen));
    builder.close().unwrap();
    builder.end().unwrap();
    assert_eq!(builder.finish().unwrap().len(), 32);
}

#[test]
fn limits_are_in_their_range() {
    let refused = |options: Options| Builder::new(&options, &mut [0; 64]).err();
    assert_eq!(refused(LITTLE.depth(33)), Some(Error::BadLimit));
    assert_eq!(refused(LITTLE.datagram(17)), Some(Error::BadLimit));
    assert!(Builder::new(&LITTLE, &mut []).unwrap().finish().unwrap().is_empty());
}

#[test]
fn errors_say_what_the_library_says() {
    let words = [
        (BuildError::Mismatch, 11, "mismatch"),
        (BuildError::TooLong, 4, "too long"),
        (BuildError::TooDeep, 5, "too deep"),
        (BuildError::TooLarge, 6, "too large"),
        (BuildError::NoRoom, 17, "no room"),
        (BuildError::NothingOpen, 21, "nothing open"),
        (BuildError::StillOpen, 22, "still open"),
    ];
    for (error, code, text) in words {
        assert_eq!((error.code(), error.to_string()), (code, text.into()));
    }
}
