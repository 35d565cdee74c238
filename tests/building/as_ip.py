#!/usr/bin/env python3
"""Builds by the builder for C what ip(8) sends for each command of ip_sends.txt, and compares
every byte of it.

  tests/building/as_ip.py PUT

PUT is put.c, compiled. The last line is 'N passed, M failed'; the status is 1 where a case failed.
"""
import os
import socket
import struct
import sys
from typing import Dict, Iterator, List, Tuple

sys.dont_write_bytecode = True
HERE = os.path.dirname(os.path.realpath(__file__))
sys.path[:0] = [HERE, f"{HERE}/../helpers"]
from calls import *
from counting import counted

ONE, OTHER, LO = 10, 11, 1
CHANGE = SET | REPLACE
UP = {"state": 1, "change": 1}


def kind_of(name: str, *data: Calls) -> Calls:
    """IFLA_LINKINFO; iproute2 sets no flag on it, nor on IFLA_INFO_DATA, which then is bytes."""
    return nested(IFLA_LINKINFO, raw(IFLA_INFO_KIND, name.encode()), *data)


def attr(number: int, payload: bytes) -> bytes:
    """An attribute by hand, inside of one that is bytes to the builder."""
    return struct.pack("<HH", 4 + len(payload), number) + payload + bytes(-len(payload) % 4)


def info_data(*attrs: bytes) -> Calls:
    return raw(IFLA_INFO_DATA, b"".join(attrs))


PEER = attr(VETH_INFO_PEER, bytes(16) + attr(IFLA_IFNAME, b"other11\0"))


def to(prefix: str) -> Calls:
    return address(RTA_DST, prefix)


def via(gateway: str) -> Calls:
    return address(RTA_GATEWAY, gateway)


def at(local: str, other: str = "") -> List[Calls]:
    """An address in both attributes, IFA_LOCAL first."""
    return [address(IFA_LOCAL, local), address(IFA_ADDRESS, other or local)]


def lifetimes(preferred: int, valid: int) -> Calls:
    return raw(IFA_CACHEINFO, struct.pack("<IIII", preferred, valid, 0, 0))


def on(local: str, kind: int = NEWADDR, flags: int = ADD) -> Calls:
    return addr(kind, flags, *at(local), length=24, index=ONE)


def on6(local: str, kind: int = NEWADDR, state: int = 0) -> Calls:
    flags = ADD if kind == NEWADDR else SET
    return addr(kind, flags, *at(local), length=64, index=ONE, family=INET6, state=state)


LINKS = {
    "link set dev one up": link(NEWLINK, SET, index=ONE, **UP),
    "link set dev one down": link(NEWLINK, SET, index=ONE, change=1),
    "link set dev one mtu 1400": link(NEWLINK, SET, u32(IFLA_MTU, 1400), index=ONE),
    "link set dev one up mtu 1400": link(NEWLINK, SET, u32(IFLA_MTU, 1400), index=ONE, **UP),
    "link set dev one down name three":
        link(NEWLINK, SET, text(IFLA_IFNAME, "three"), index=ONE, change=1),
    "link set dev one address 02:00:00:00:00:01":
        link(NEWLINK, SET, address(IFLA_ADDRESS, "02:00:00:00:00:01"), index=ONE),
    "link set dev one txqueuelen 500": link(NEWLINK, SET, u32(IFLA_TXQLEN, 500), index=ONE),
    "link set dev one master other": link(NEWLINK, SET, u32(IFLA_MASTER, OTHER), index=ONE),
    "link set dev one nomaster": link(NEWLINK, SET, u32(IFLA_MASTER, 0), index=ONE),
    "link set dev one alias uplink":
        link(NEWLINK, SET, raw(IFLA_IFALIAS, b"uplink"), index=ONE),
    "link add dummy0 type dummy":
        link(NEWLINK, ADD, text(IFLA_IFNAME, "dummy0"), kind_of("dummy")),
    "link add name dummy1 mtu 1400 type dummy":
        link(NEWLINK, ADD, u32(IFLA_MTU, 1400), text(IFLA_IFNAME, "dummy1"), kind_of("dummy")),
    "link add name dummy2 up type dummy":
        link(NEWLINK, ADD, text(IFLA_IFNAME, "dummy2"), kind_of("dummy"), **UP),
    "link add name bridge0 type bridge":
        link(NEWLINK, ADD, text(IFLA_IFNAME, "bridge0"), kind_of("bridge")),
    "link add link one name one.5 type vlan id 5":
        link(NEWLINK, ADD, u32(IFLA_LINK, ONE), text(IFLA_IFNAME, "one.5"),
             kind_of("vlan", info_data(attr(IFLA_VLAN_ID, b"\5\0")))),
    "link add name one10 type veth peer name other11":
        link(NEWLINK, ADD, text(IFLA_IFNAME, "one10"), kind_of("veth", info_data(PEER))),
    "link add name vrf0 type vrf table 1000":
        link(NEWLINK, ADD, text(IFLA_IFNAME, "vrf0"),
             kind_of("vrf", info_data(attr(IFLA_VRF_TABLE, struct.pack("<I", 1000))))),
    "link delete dev one": link(DELLINK, SET, index=ONE),
    "link delete one type veth": link(DELLINK, SET, kind_of("veth"), index=ONE),
}

ADDRESSES = {
    "address add 192.0.2.10/24 dev one": on("192.0.2.10"),
    "address add 192.0.2.11/24 broadcast 192.0.2.255 dev one":
        addr(NEWADDR, ADD, address(IFA_LOCAL, "192.0.2.11"),
             address(IFA_BROADCAST, "192.0.2.255"), address(IFA_ADDRESS, "192.0.2.11"),
             length=24, index=ONE),
    "address add 192.0.2.12/24 broadcast + dev one":
        addr(NEWADDR, ADD, *at("192.0.2.12"), address(IFA_BROADCAST, "192.0.2.255"),
             length=24, index=ONE),
    "address add 192.0.2.13 peer 203.0.113.1/32 dev one":
        addr(NEWADDR, ADD, *at("192.0.2.13", "203.0.113.1"), length=32, index=ONE),
    "address add 192.0.2.14/24 dev one label one:14":
        addr(NEWADDR, ADD, address(IFA_LOCAL, "192.0.2.14"), text(IFA_LABEL, "one:14"),
             address(IFA_ADDRESS, "192.0.2.14"), length=24, index=ONE),
    "address add 192.0.2.15/24 dev one scope link":
        addr(NEWADDR, ADD, *at("192.0.2.15"), length=24, index=ONE, scope=253),
    "address add 192.0.2.16/24 dev one valid_lft 3600 preferred_lft 1800":
        addr(NEWADDR, ADD, *at("192.0.2.16"), lifetimes(1800, 3600), length=24, index=ONE),
    "address add 192.0.2.17/24 dev one noprefixroute":
        addr(NEWADDR, ADD, address(IFA_LOCAL, "192.0.2.17"), u32(IFA_FLAGS, 0x200),
             address(IFA_ADDRESS, "192.0.2.17"), length=24, index=ONE),
    "address add 127.0.0.2/8 dev lo":
        addr(NEWADDR, ADD, *at("127.0.0.2"), length=8, index=LO, scope=254),
    "address add 2001:db8::10/64 dev one": on6("2001:db8::10"),
    "address add 2001:db8::11/64 dev one nodad": on6("2001:db8::11", state=2),
    "address add 2001:db8::12 peer 2001:db8:2::1/128 dev one":
        addr(NEWADDR, ADD, *at("2001:db8::12", "2001:db8:2::1"), length=128, index=ONE,
             family=INET6),
    "address replace 192.0.2.10/24 dev one": on("192.0.2.10", flags=CHANGE | CREATE),
    "address change 192.0.2.10/24 dev one valid_lft 60 preferred_lft 30":
        addr(NEWADDR, CHANGE, *at("192.0.2.10"), lifetimes(30, 60), length=24, index=ONE),
    "address delete 192.0.2.10/24 dev one": on("192.0.2.10", DELADDR, SET),
    "address delete 2001:db8::10/64 dev one": on6("2001:db8::10", DELADDR),
}

GATEWAY, GATEWAY6 = via("192.0.2.254"), via("2001:db8::fe")


def route4(second: int, *parts: Calls, **head: int) -> Calls:
    """A route to 10.SECOND.0.0/16 that is added."""
    return route(NEWROUTE, ADD, to(f"10.{second}.0.0"), *parts, length=16, **head)


def route6(word: int, *parts: Calls, **head: int) -> Calls:
    return route(NEWROUTE, ADD, to(f"2001:db8:{word}::"), *parts, length=48, family=INET6, **head)


def first(flags: int, gateway: str) -> Calls:
    return route(NEWROUTE, flags, to("10.1.0.0"), via(gateway), length=16)


def gone(prefix: str, *parts: Calls, **head: int) -> Calls:
    """A route that is deleted, of any protocol and scope."""
    return route(DELROUTE, SET, to(prefix), *parts, length=16, protocol=0, scope=255, sort=0,
                 **head)


ROUTES = {
    "route add 10.1.0.0/16 via 192.0.2.254": route4(1, GATEWAY),
    "route add 10.2.0.0/16 via 192.0.2.254 dev one": route4(2, GATEWAY, u32(RTA_OIF, ONE)),
    "route add 10.3.0.0/16 dev one": route4(3, u32(RTA_OIF, ONE), scope=253),
    "route add default via 192.0.2.254": route(NEWROUTE, ADD, GATEWAY),
    "route add default dev one metric 50":
        route(NEWROUTE, ADD, u32(RTA_PRIORITY, 50), u32(RTA_OIF, ONE), scope=253),
    "route add 10.4.0.0/16 via 192.0.2.254 src 192.0.2.1 metric 100":
        route4(4, GATEWAY, address(RTA_PREFSRC, "192.0.2.1"), u32(RTA_PRIORITY, 100)),
    "route add 10.5.0.0/16 via 192.0.2.254 table 100": route4(5, GATEWAY, table=100),
    "route add 10.6.0.0/16 via 192.0.2.254 table 1000":
        route4(6, GATEWAY, u32(RTA_TABLE, 1000), table=0),
    "route add 10.7.0.0/16 via 192.0.2.254 mtu 1400 advmss 1360":
        route4(7, GATEWAY, nested(RTA_METRICS, u32(RTAX_MTU, 1400), u32(RTAX_ADVMSS, 1360))),
    "route add 10.8.0.0/16 via 192.0.2.254 mtu lock 1400":
        route4(8, GATEWAY, nested(RTA_METRICS, u32(RTAX_MTU, 1400), u32(RTAX_LOCK, 4))),
    "route add 10.9.0.0/16 nexthop via 192.0.2.254 weight 1 nexthop via 198.51.100.254 weight 10":
        route4(9, nested(RTA_MULTIPATH, hop(0, 1, GATEWAY), hop(0, 10, via("198.51.100.254")))),
    "route add 10.10.0.0/16 nexthop via 192.0.2.254 dev one weight 2 nexthop dev other weight 256":
        route4(10, nested(RTA_MULTIPATH, hop(ONE, 2, GATEWAY), hop(OTHER, 256))),
    "route add 10.11.0.0/16 via 192.0.2.254 dev one onlink":
        route4(11, GATEWAY, u32(RTA_OIF, ONE), state=4),
    "route add 10.12.0.0/16 via 192.0.2.254 proto static": route4(12, GATEWAY, protocol=4),
    "route add 10.13.0.0/16 dev one scope link": route4(13, u32(RTA_OIF, ONE), scope=253),
    "route add 10.14.0.0/16 tos 0x10 via 192.0.2.254": route4(14, GATEWAY, tos=16),
    "route add 10.15.0.0/16 via inet6 2001:db8::fe dev one":
        route4(15, raw(RTA_VIA, b"\12\0" + socket.inet_pton(INET6, "2001:db8::fe")),
               u32(RTA_OIF, ONE)),
    "route add blackhole 10.16.0.0/16": route4(16, sort=6),
    "route add unreachable 10.17.0.0/16 metric 200": route4(17, u32(RTA_PRIORITY, 200), sort=7),
    "route add prohibit 10.18.0.0/16 table 4294967294":
        route4(18, u32(RTA_TABLE, 4294967294), sort=8, table=0),
    "route add local 10.19.0.0/16 dev lo":
        route4(19, u32(RTA_OIF, LO), sort=2, table=255, scope=254),
    "route add 10.20.0.1 via 192.0.2.254":
        route(NEWROUTE, ADD, to("10.20.0.1"), GATEWAY, length=32),
    "route replace 10.1.0.0/16 via 192.0.2.253": first(CHANGE | CREATE, "192.0.2.253"),
    "route append 10.1.0.0/16 via 192.0.2.252": first(SET | CREATE | APPEND, "192.0.2.252"),
    "route change 10.1.0.0/16 via 192.0.2.251": first(CHANGE, "192.0.2.251"),
    "route prepend 10.1.0.0/16 via 192.0.2.250": first(SET | CREATE, "192.0.2.250"),
    "route delete 10.1.0.0/16": gone("10.1.0.0"),
    "route delete 10.6.0.0/16 table 1000": gone("10.6.0.0", u32(RTA_TABLE, 1000), table=0),
    "route delete 10.4.0.0/16 via 192.0.2.254 metric 100":
        gone("10.4.0.0", GATEWAY, u32(RTA_PRIORITY, 100)),
    "route add 2001:db8:10::/48 via 2001:db8::fe": route6(10, GATEWAY6),
    "route add 2001:db8:11::/48 via 2001:db8::fe dev one metric 100 table 1000":
        route6(11, GATEWAY6, u32(RTA_PRIORITY, 100), u32(RTA_TABLE, 1000), u32(RTA_OIF, ONE),
               table=0),
    "route add 2001:db8:12::/48 nexthop via 2001:db8::fe weight 1 nexthop via 2001:db8:1::fe "
    "weight 5":
        route6(12, nested(RTA_MULTIPATH, hop(0, 1, GATEWAY6), hop(0, 5, via("2001:db8:1::fe")))),
    "route add 2001:db8:13::/48 dev one mtu 1400 hoplimit 20":
        route6(13, u32(RTA_OIF, ONE),
               nested(RTA_METRICS, u32(RTAX_MTU, 1400), u32(RTAX_HOPLIMIT, 20))),
    "route add 2001:db8:14::/48 from 2001:db8:15::/48 via 2001:db8::fe":
        route6(14, address(RTA_SRC, "2001:db8:15::"), GATEWAY6, source=48),
    "route add unreachable 2001:db8:16::/48": route6(16, sort=7),
    "route add 2001:db8:17::/48 via 2001:db8::fe pref high": route6(17, GATEWAY6, u8(RTA_PREF, 1)),
    "route add 2001:db8:18::/48 dev one expires 600":
        route6(18, u32(RTA_EXPIRES, 600), u32(RTA_OIF, ONE)),
    "route delete 2001:db8:10::/48":
        route(DELROUTE, SET, to("2001:db8:10::"), length=48, family=INET6, protocol=0, sort=0),
}


def near(last: int, *parts: Calls, flags: int = ADD, kind: int = NEWNEIGH, **head: int) -> Calls:
    """A neighbour 192.0.2.LAST of the first link."""
    return neigh(kind, flags, address(NDA_DST, f"192.0.2.{last}"), *parts, index=ONE, **head)


def mac(last: int) -> Calls:
    return address(NDA_LLADDR, f"02:00:00:00:00:{last}")


NEIGHBOURS = {
    "neighbour add 192.0.2.20 lladdr 02:00:00:00:00:20 dev one": near(20, mac(20)),
    "neighbour add 192.0.2.21 lladdr 02:00:00:00:00:21 dev one nud permanent": near(21, mac(21)),
    "neighbour add 192.0.2.22 lladdr 02:00:00:00:00:22 dev one nud reachable":
        near(22, mac(22), state=2),
    "neighbour add proxy 192.0.2.23 dev one": near(23, marks=8),
    "neighbour add 2001:db8::20 lladdr 02:00:00:00:00:20 dev one router":
        neigh(NEWNEIGH, ADD, address(NDA_DST, "2001:db8::20"), mac(20), index=ONE, family=INET6,
              marks=0x80),
    "neighbour replace 192.0.2.20 lladdr 02:00:00:00:00:24 dev one nud stale":
        near(20, mac(24), state=4, flags=CHANGE | CREATE),
    "neighbour change 192.0.2.20 lladdr 02:00:00:00:00:25 dev one":
        near(20, mac(25), flags=CHANGE),
    "neighbour delete 192.0.2.20 dev one": near(20, kind=DELNEIGH, flags=SET),
    "neighbour delete 192.0.2.20 lladdr 02:00:00:00:00:25 dev one":
        near(20, mac(25), kind=DELNEIGH, flags=SET),
    "neighbour delete proxy 192.0.2.23 dev one": near(23, kind=DELNEIGH, flags=SET, marks=8),
}

SOURCE = address(FRA_SRC, "192.0.2.0")
DENIED = address(FRA_SRC, "203.0.113.0")
SOURCE6 = address(FRA_SRC, "2001:db8::")
MARKED = u32(FRA_FWMARK, 16) + u32(FRA_FWMASK, 255) + u32(FRA_TABLE, 1000)


def told(*parts: Calls, **head: int) -> Calls:
    return rule(NEWRULE, ADD, *parts, **head)


def priority(number: int) -> Calls:
    return u32(FRA_PRIORITY, number)


RULES = {
    "rule add from 192.0.2.0/24 table 100": told(SOURCE, source=24, table=100),
    "rule add from 192.0.2.0/24 to 198.51.100.0/24 table 1000 priority 100":
        told(SOURCE, address(FRA_DST, "198.51.100.0"), u32(FRA_TABLE, 1000), priority(100),
             source=24, to=24),
    "rule add to 198.51.100.0/24 table 100 priority 101":
        told(address(FRA_DST, "198.51.100.0"), priority(101), to=24, table=100),
    "rule add fwmark 0x10 table 100 priority 102":
        told(u32(FRA_FWMARK, 16), priority(102), table=100),
    "rule add fwmark 0x10/0xff table 1000 priority 103": told(MARKED, priority(103)),
    "rule add iif one table 100 priority 104":
        told(text(FRA_IIFNAME, "one"), priority(104), table=100),
    "rule add oif other table main priority 105":
        told(text(FRA_OIFNAME, "other"), priority(105), table=254),
    "rule add not from 192.0.2.0/24 table 100 priority 106":
        told(SOURCE, priority(106), source=24, table=100, state=2),
    "rule add from 203.0.113.0/24 blackhole priority 107":
        told(DENIED, priority(107), source=24, action=6),
    "rule add from 203.0.113.0/24 unreachable priority 108":
        told(DENIED, priority(108), source=24, action=7),
    "rule add tos 0x10 table 100 priority 109": told(priority(109), tos=16, table=100),
    "rule add from 203.0.113.0/24 goto 200 priority 110":
        told(DENIED, u32(FRA_GOTO, 200), priority(110), source=24, action=2),
    "-6 rule add from all table main suppress_prefixlength 0 priority 111":
        told(raw(FRA_SRC, b""), u32(FRA_SUPPRESS_PREFIXLEN, 0), priority(111), family=INET6,
             table=254),
    "rule add uidrange 1000-2000 table 100 priority 112":
        told(raw(FRA_UID_RANGE, struct.pack("<II", 1000, 2000)), priority(112), table=100),
    "rule add ipproto tcp dport 80-90 table 100 priority 113":
        told(u8(FRA_IP_PROTO, 6), raw(FRA_DPORT_RANGE, struct.pack("<HH", 80, 90)), priority(113),
             table=100),
    "rule add l3mdev priority 114": told(u8(FRA_L3MDEV, 1), priority(114)),
    "-6 rule add from 2001:db8::/32 table 100 priority 100":
        told(SOURCE6, priority(100), family=INET6, source=32, table=100),
    "-6 rule add from 2001:db8::/32 fwmark 0x10/0xff table 1000 priority 101":
        told(SOURCE6, MARKED, priority(101), family=INET6, source=32),
    "rule delete priority 100": rule(DELRULE, SET, priority(100), action=0),
    "rule delete from 192.0.2.0/24 table 100":
        rule(DELRULE, SET, SOURCE, source=24, table=100, action=0),
    "rule delete fwmark 0x10/0xff table 1000 priority 103":
        rule(DELRULE, SET, MARKED, priority(103), action=0),
    "-6 rule delete from 2001:db8::/32 table 100 priority 100":
        rule(DELRULE, SET, SOURCE6, priority(100), family=INET6, source=32, table=100, action=0),
}

REQUESTS: Dict[str, Calls] = {**LINKS, **ADDRESSES, **ROUTES, **NEIGHBOURS, **RULES}


def cases(program: str) -> Iterator[Tuple[str, List[str]]]:
    with open(f"{HERE}/ip_sends.txt", encoding="utf-8") as file:
        rows = dict(line.split("\t") for line in file.read().splitlines()[1:])
    yield "the commands", sorted(set(rows) ^ set(REQUESTS))
    for (command, _), found in zip(REQUESTS.items(), built(program, list(REQUESTS.values()))):
        wanted = rows.get(command, "")
        yield command, [] if found == wanted else [f"ip sends {wanted}, built is {found}"]


def main(words: List[str]) -> int:
    if len(words) != 1:
        print("usage: tests/building/as_ip.py PUT", file=sys.stderr)
        return 2
    return counted(cases(words[0]))


if __name__ == "__main__":
    sys.exit(main(sys.argv[1:]))
