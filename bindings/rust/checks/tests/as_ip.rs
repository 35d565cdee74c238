//! Reads commands of ip(8) into requests, and compares what these put with what ip sends.

use checks::{hex, ip_sends};
use rtnl::constants::*;
use rtnl::{AddressRequest, HardwareAddress, Lifetimes, LinkRequest, Metric, NeighbourRequest};
use rtnl::{NextHopHead, NextHopRequest, Operation, Order, Prefix, RouteRequest, RuleRequest};
use std::net::{IpAddr, Ipv4Addr};
use std::str::{FromStr, Split};

/// The words of a command behind its verb.
type Words<'a> = Split<'a, char>;

fn read<T: FromStr>(word: Option<&str>) -> Option<T> {
    word?.parse().ok()
}

/// A number, of which those in hexadecimal begin with 0x.
fn number(word: Option<&str>) -> Option<u32> {
    match word?.strip_prefix("0x") {
        Some(digits) => u32::from_str_radix(digits, 16).ok(),
        None => read(word),
    }
}

fn index(name: Option<&str>) -> Option<u32> {
    ["lo", "one", "other"].iter().position(|it| Some(*it) == name).map(|at| [1, 10, 11][at])
}

fn table(word: Option<&str>) -> Option<u32> {
    if word == Some("main") {
        return Some(RT_TABLE_MAIN);
    }
    number(word)
}

/// An address, with the length behind it or else all of its bits; of `default` none.
fn prefix(word: Option<&str>) -> Option<Prefix> {
    let (address, len) = word?.split_once('/').unwrap_or((word?, ""));
    let address: IpAddr = read(Some(address))?;
    let most = if address.is_ipv4() { 32 } else { 128 };
    Some(Prefix { address, len: if len.is_empty() { most } else { read(Some(len))? } })
}

fn bytes(hardware_address: Option<&str>) -> Option<Vec<u8>> {
    hardware_address?.split(':').map(|it| u8::from_str_radix(it, 16).ok()).collect()
}

/// `VETH_INFO_PEER` with a whole `struct ifinfomsg`, and in it `IFLA_IFNAME` of seven bytes.
fn peer(name: &str) -> Vec<u8> {
    [&[0x20, 0, 1, 0], &[0; 16][..], &[12, 0, 3, 0], name.as_bytes(), &[0]].concat()
}

fn link(operation: Operation, mut words: Words<'_>) -> Option<Vec<u8>> {
    let (mut it, mut address, mut data) = (LinkRequest::default(), vec![], vec![]);
    while let Some(word) = words.next() {
        match word {
            "dev" => it.index = index(words.next())?,
            "up" | "down" => it.up = Some(word == "up"),
            "mtu" => it.mtu = Some(number(words.next())?),
            "name" => it.name = words.next().map(str::as_ref),
            "address" => address = bytes(words.next())?,
            "master" => it.master = Some(index(words.next())?),
            "nomaster" => it.master = Some(0),
            "link" => it.link = Some(index(words.next())?),
            "type" => it.kind = words.next().map(str::as_ref),
            // IFLA_VLAN_ID, IFLA_VRF_TABLE.
            "id" => data = vec![6, 0, 1, 0, read(words.next())?, 0, 0, 0],
            "table" => data = [[8, 0, 1, 0], number(words.next())?.to_le_bytes()].concat(),
            "peer" => data = peer(words.nth(1)?),
            "txqueuelen" | "alias" => return None,
            name if operation == Operation::Add => it.name = Some(name.as_ref()),
            name => it.index = index(Some(name))?,
        }
    }
    let it = LinkRequest { hardware_address: HardwareAddress::new(&address), data: &data, ..it };
    Some(it.put(operation, 0, Order::Little, &mut [0xaa; 256]).unwrap().to_vec())
}

fn address(operation: Operation, mut words: Words<'_>) -> Option<Vec<u8>> {
    let mut it = AddressRequest::of(prefix(words.next())?, 0);
    let (mut valid, mut preferred) = (None, None);
    if it.local.address == IpAddr::from([127, 0, 0, 2]) {
        it.scope = RT_SCOPE_HOST;
    }
    while let Some(word) = words.next() {
        match word {
            "dev" => it.index = index(words.next())?,
            "peer" => it.peer = Some(prefix(words.next())?),
            // One that ip computes, of `+`, stands in another place.
            "broadcast" => it.broadcast = Some(read(words.next())?),
            "label" => it.label = words.next().map(str::as_ref),
            "scope" => it.scope = words.next().map(|_| RT_SCOPE_LINK)?,
            "valid_lft" => valid = number(words.next()),
            "preferred_lft" => preferred = number(words.next()),
            "noprefixroute" => it.flags |= IFA_F_NOPREFIXROUTE,
            "nodad" => it.flags |= IFA_F_NODAD,
            _ => return None,
        }
    }
    it.lifetimes = valid.zip(preferred).map(|(valid, preferred)| Lifetimes { preferred, valid });
    Some(it.put(operation, 0, Order::Little, &mut [0xaa; 256]).unwrap().to_vec())
}

fn is_ipv6(route: &RouteRequest<'_>) -> bool {
    route.destination.map_or(false, |it| it.address.is_ipv6())
}

/// The front of a route: its type and its destination. No family is said.
fn route_to(operation: Operation, words: &mut Words<'_>) -> RouteRequest<'static> {
    let mut it = RouteRequest { table: RT_TABLE_MAIN, ..RouteRequest::default() };
    let mut word = words.next();
    let types = ["unicast", "local", "blackhole", "unreachable", "prohibit"];
    let numbers = [RTN_UNICAST, RTN_LOCAL, RTN_BLACKHOLE, RTN_UNREACHABLE, RTN_PROHIBIT];
    let named = types.iter().position(|it| Some(*it) == word);
    if named.is_some() {
        word = words.next();
    }
    it.destination = prefix(word);
    if operation == Operation::Delete {
        it.scope = if is_ipv6(&it) { RT_SCOPE_UNIVERSE } else { RT_SCOPE_NOWHERE };
        return it;
    }
    (it.protocol, it.route_type) = (RTPROT_BOOT, numbers[named.unwrap_or(0)]);
    if it.route_type == RTN_LOCAL {
        (it.table, it.scope) = (RT_TABLE_LOCAL, RT_SCOPE_HOST);
    }
    it
}

/// A next hop: its words up to the next one.
fn hop(words: &str) -> Option<NextHopRequest> {
    let (mut head, mut gateway) = (NextHopHead::default(), None);
    let mut words = words.trim().split(' ');
    while let Some(word) = words.next() {
        match word {
            "via" => gateway = Some(read(words.next())?),
            "dev" => head.index = index(words.next())?,
            "weight" => head.weight = read(words.next())?,
            _ => return None,
        }
    }
    NextHopRequest::new(head, gateway).ok()
}

/// A metric; with `lock` in front of it also the bit of its number.
fn metrics(number: u16, mut words: Words<'_>) -> Option<(Vec<Metric>, Words<'_>)> {
    let mut behind = words.clone();
    let is_locked = behind.next() == Some("lock");
    if is_locked {
        words = behind;
    }
    let mut found = vec![Metric { number, value: read(words.next())? }];
    if is_locked {
        found.push(Metric { number: RTAX_LOCK, value: 1 << number });
    }
    Some((found, words))
}

fn route(operation: Operation, command: &str) -> Option<Vec<u8>> {
    let (command, hops) = command.split_once(" nexthop ").unwrap_or((command, ""));
    let hops = hops.split("nexthop").filter(|it| !it.is_empty()).map(hop);
    let (hops, mut found) = (hops.collect::<Option<Vec<_>>>()?, vec![]);
    let mut words = command.split(' ');
    let mut it = route_to(operation, &mut words);
    while let Some(word) = words.next() {
        match word {
            "via" => it.gateway = Some(read(words.next())?),
            "dev" => it.out_interface = Some(index(words.next())?),
            "metric" => it.priority = Some(number(words.next())?),
            "src" => it.preferred_source = Some(read(words.next())?),
            "from" => it.source = Some(prefix(words.next())?),
            "table" => it.table = table(words.next())?,
            "tos" => it.type_of_service = number(words.next())? as u8,
            "proto" => it.protocol = words.next().map(|_| RTPROT_STATIC)?,
            "scope" => it.scope = words.next().map(|_| RT_SCOPE_LINK)?,
            "onlink" => it.flags |= u32::from(RTNH_F_ONLINK),
            "mtu" | "advmss" | "hoplimit" => {
                let number = [("mtu", RTAX_MTU), ("advmss", RTAX_ADVMSS)];
                let number =
                    number.iter().find(|it| it.0 == word).map_or(RTAX_HOPLIMIT, |it| it.1);
                let (more, behind) = metrics(number, words)?;
                found.extend(more);
                words = behind;
            }
            _ => return None,
        }
    }
    let is_near = !is_ipv6(&it) && it.route_type == RTN_UNICAST;
    if is_near && it.gateway.is_none() && hops.is_empty() {
        it.scope = RT_SCOPE_LINK;
    }
    let it = RouteRequest { metrics: &found, next_hops: &hops, ..it };
    Some(it.put(operation, 0, Order::Little, &mut [0xaa; 256]).unwrap().to_vec())
}

fn neighbour(operation: Operation, mut words: Words<'_>) -> Option<Vec<u8>> {
    let (mut it, mut address) = (NeighbourRequest::of(Ipv4Addr::UNSPECIFIED, 0), vec![]);
    it.state = NUD_PERMANENT;
    while let Some(word) = words.next() {
        match word {
            "proxy" => it.flags |= NTF_PROXY,
            "router" => it.flags |= NTF_ROUTER,
            "lladdr" => address = bytes(words.next())?,
            "dev" => it.index = index(words.next())?,
            "nud" => {
                let states = [("reachable", NUD_REACHABLE), ("stale", NUD_STALE)];
                let word = words.next()?;
                let state = states.iter().find(|it| it.0 == word);
                it.state = state.map_or(NUD_PERMANENT, |it| it.1);
            }
            own => {
                let (state, flags) = (it.state, it.flags);
                it = NeighbourRequest {
                    state,
                    flags,
                    ..NeighbourRequest::of(read::<IpAddr>(Some(own))?, 0)
                };
            }
        }
    }
    let it = NeighbourRequest { link_layer_address: HardwareAddress::new(&address), ..it };
    Some(it.put(operation, 0, Order::Little, &mut [0xaa; 256]).unwrap().to_vec())
}

fn rule(operation: Operation, address_family: u8, mut words: Words<'_>) -> Option<Vec<u8>> {
    let action = if operation == Operation::Add { FR_ACT_TO_TBL } else { 0 };
    let mut it = RuleRequest { address_family, action, ..RuleRequest::default() };
    while let Some(word) = words.next() {
        match word {
            // For `all` ip sends an attribute of no byte.
            "from" => it.from = Some(prefix(words.next())?),
            "to" => it.to = Some(prefix(words.next())?),
            "not" => it.is_inverted = true,
            "table" => it.table = table(words.next())?,
            "priority" => it.priority = Some(number(words.next())?),
            "fwmark" => {
                let mut parts = words.next()?.split('/');
                (it.mark, it.mark_mask) = (number(parts.next()), number(parts.next()));
            }
            "iif" => it.in_interface = words.next().map(str::as_ref),
            "oif" => it.out_interface = words.next().map(str::as_ref),
            "tos" => it.type_of_service = number(words.next())? as u8,
            "blackhole" => it.action = FR_ACT_BLACKHOLE,
            "unreachable" => it.action = FR_ACT_UNREACHABLE,
            "goto" => (it.action, it.target) = (FR_ACT_GOTO, Some(number(words.next())?)),
            "suppress_prefixlength" => it.suppress_prefix_len = Some(number(words.next())?),
            _ => return None,
        }
    }
    Some(it.put(operation, 0, Order::Little, &mut [0xaa; 256]).unwrap().to_vec())
}

/// The request for a command; none where it has a word that the requests have no field for.
fn request(command: &str) -> Option<Vec<u8>> {
    let (family, command) =
        command.strip_prefix("-6 ").map_or((AF_UNSPEC, command), |it| (AF_INET6, it));
    let mut parts = command.splitn(3, ' ');
    let (object, verb, rest) = (parts.next()?, parts.next()?, parts.next()?);
    let operation = match verb {
        "add" => Operation::Add,
        "replace" => Operation::Replace,
        "change" => Operation::Change,
        "append" => Operation::Append,
        "prepend" => Operation::Prepend,
        "set" => Operation::Set,
        "delete" => Operation::Delete,
        _ => return None,
    };
    match object {
        "link" => link(operation, rest.split(' ')),
        "address" => address(operation, rest.split(' ')),
        "route" => route(operation, rest),
        "neighbour" => neighbour(operation, rest.split(' ')),
        "rule" => rule(operation, family, rest.split(' ')),
        _ => None,
    }
}

/// Words of the commands for which ip sends something else, or the requests have no field.
const OTHERS: [&str; 10] = [
    " txqueuelen ",
    " alias ",
    " via inet6 ",
    " pref ",
    " expires ",
    " uidrange ",
    " ipproto ",
    " l3mdev ",
    " from all ",
    " broadcast + ",
];

#[test]
fn requests_are_as_ip_sends_them() {
    let rows = ip_sends();
    let (mut same, mut without) = (0, 0);
    for (command, sent) in &rows {
        let found = request(command).map(|it| hex(&it));
        if OTHERS.iter().any(|it| command.contains(it)) {
            assert_eq!(found, None, "{command}");
            without += 1;
        } else {
            assert_eq!(found.as_ref(), Some(sent), "{command}");
            same += 1;
        }
    }
    assert_eq!((same, without), (95, 10));
}
