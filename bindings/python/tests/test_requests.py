"""Requests are what ip(8) sends, byte by byte, or were worked by hand; what is there and is 0 is
told apart from what is not there; and what can't be said is refused."""
import ctypes
import gc
import os
import struct
import unittest
from dataclasses import fields, replace
from ipaddress import IPv4Address, IPv6Address, ip_address, ip_interface, ip_network
from typing import Any, Dict, List, Tuple

import rtnl
import shared
from rtnl import (
    AddressRequest,
    Code,
    Datagram,
    Error,
    HardwareAddress,
    Lifetimes,
    Limits,
    LinkRequest,
    NeighbourRequest,
    NextHopRequest,
    Operation,
    Prefix,
    Request,
    RouteRequest,
    RuleRequest,
)
from rtnl._library import LIBRARY
from rtnl.constants import *
from shared import attr, message

LITTLE, BIG = Limits(big=False), Limits(big=True)
UNSPEC, INET, BRIDGE, INET6 = 0, 2, 7, 10
ADD, REPLACE, CHANGE = Operation.ADD, Operation.REPLACE, Operation.CHANGE
APPEND, PREPEND = Operation.APPEND, Operation.PREPEND
SET, DELETE = Operation.SET, Operation.DELETE
Rows = Dict[str, Tuple[Request, Operation]]
# The indexes of the interfaces that ip(8) was told of.
LO, ONE, OTHER = 1, 10, 11
VIA, VIA6 = IPv4Address("192.0.2.254"), IPv6Address("2001:db8::fe")


def mac(last: int) -> HardwareAddress:
    return HardwareAddress([2, 0, 0, 0, 0, last])


PEER = bytes(16) + attr(IFLA_IFNAME, b"other11\0")
VLAN = attr(1, struct.pack("<H", 5))
LINKS: Rows = {
    "link set dev one up": (LinkRequest(index=ONE, up=True), SET),
    "link set dev one down": (LinkRequest(index=ONE, up=False), SET),
    "link set dev one mtu 1400": (LinkRequest(index=ONE, mtu=1400), SET),
    "link set dev one up mtu 1400": (LinkRequest(index=ONE, up=True, mtu=1400), SET),
    "link set dev one down name three": (LinkRequest("three", ONE, up=False), SET),
    "link set dev one address 02:00:00:00:00:01": (
        LinkRequest(index=ONE, hardware_address=mac(1)),
        SET,
    ),
    "link set dev one master other": (LinkRequest(index=ONE, master=OTHER), SET),
    "link set dev one nomaster": (LinkRequest(index=ONE, master=0), SET),
    "link add dummy0 type dummy": (LinkRequest("dummy0", kind="dummy"), ADD),
    "link add name dummy1 mtu 1400 type dummy": (
        LinkRequest("dummy1", mtu=1400, kind="dummy"),
        ADD,
    ),
    "link add name dummy2 up type dummy": (LinkRequest("dummy2", up=True, kind="dummy"), ADD),
    "link add name bridge0 type bridge": (LinkRequest("bridge0", kind="bridge"), ADD),
    "link add link one name one.5 type vlan id 5": (
        LinkRequest("one.5", link=ONE, kind="vlan", data=VLAN),
        ADD,
    ),
    "link add name one10 type veth peer name other11": (
        LinkRequest("one10", kind="veth", data=bytearray(attr(1, PEER))),
        ADD,
    ),
    "link add name vrf0 type vrf table 1000": (
        LinkRequest("vrf0", kind="vrf", data=attr(1, struct.pack("<I", 1000))),
        ADD,
    ),
    "link delete dev one": (LinkRequest(index=ONE), DELETE),
    "link delete one type veth": (LinkRequest(index=ONE, kind="veth"), DELETE),
}


def at(text: str, **more: Any) -> AddressRequest:
    """An address of the first interface."""
    return AddressRequest(ip_interface(text), ONE, **more)


ADDRESSES: Rows = {
    "address add 192.0.2.10/24 dev one": (at("192.0.2.10/24"), ADD),
    "address add 192.0.2.11/24 broadcast 192.0.2.255 dev one": (
        at("192.0.2.11/24", broadcast=ip_address("192.0.2.255")),
        ADD,
    ),
    "address add 192.0.2.13 peer 203.0.113.1/32 dev one": (
        at("192.0.2.13/24", peer=ip_interface("203.0.113.1/32")),
        ADD,
    ),
    "address add 192.0.2.14/24 dev one label one:14": (at("192.0.2.14/24", label="one:14"), ADD),
    "address add 192.0.2.15/24 dev one scope link": (
        at("192.0.2.15/24", scope=RT_SCOPE_LINK),
        ADD,
    ),
    "address add 192.0.2.16/24 dev one valid_lft 3600 preferred_lft 1800": (
        at("192.0.2.16/24", lifetimes=Lifetimes(preferred=1800, valid=3600)),
        ADD,
    ),
    "address add 192.0.2.17/24 dev one noprefixroute": (at("192.0.2.17/24", flags=0x200), ADD),
    "address add 127.0.0.2/8 dev lo": (
        AddressRequest(Prefix(ip_address("127.0.0.2"), 8), LO, scope=RT_SCOPE_HOST),
        ADD,
    ),
    "address add 2001:db8::10/64 dev one": (at("2001:db8::10/64"), ADD),
    "address add 2001:db8::11/64 dev one nodad": (at("2001:db8::11/64", flags=2), ADD),
    "address add 2001:db8::12 peer 2001:db8:2::1/128 dev one": (
        at("2001:db8::12/64", peer=Prefix(ip_address("2001:db8:2::1"), 128)),
        ADD,
    ),
    "address replace 192.0.2.10/24 dev one": (at("192.0.2.10/24"), REPLACE),
    "address change 192.0.2.10/24 dev one valid_lft 60 preferred_lft 30": (
        at("192.0.2.10/24", lifetimes=Lifetimes(30, 60)),
        CHANGE,
    ),
    "address delete 192.0.2.10/24 dev one": (at("192.0.2.10/24"), DELETE),
    "address delete 2001:db8::10/64 dev one": (at("2001:db8::10/64"), DELETE),
}
MADE: Dict[str, Any] = {"table": RT_TABLE_MAIN, "protocol": RTPROT_BOOT, "type": RTN_UNICAST}


def to(second: int, gateway: Any = None, index: Any = None, **more: Any) -> RouteRequest:
    """A route to 10.SECOND.0.0/16, as ip(8) makes one."""
    own: Dict[str, Any] = {**MADE, "destination": ip_network(f"10.{second}.0.0/16"), **more}
    return RouteRequest(gateway=gateway, index=index, **own)


def to6(word: int, gateway: Any = None, index: Any = None, **more: Any) -> RouteRequest:
    """The same of 2001:db8:WORD::/48."""
    return to(0, gateway, index, destination=ip_network(f"2001:db8:{word}::/48"), **more)


def gone(second: int, gateway: Any = None, **more: Any) -> RouteRequest:
    """The same as ip(8) deletes it."""
    return to(second, gateway, **{"protocol": 0, "type": 0, "scope": RT_SCOPE_NOWHERE, **more})


ROUTES: Rows = {
    "route add 10.2.0.0/16 via 192.0.2.254 dev one": (to(2, VIA, ONE), ADD),
    "route add 10.3.0.0/16 dev one": (to(3, index=ONE, scope=RT_SCOPE_LINK), ADD),
    "route add default via 192.0.2.254": (RouteRequest(gateway=VIA, **MADE), ADD),
    "route add default dev one metric 50": (
        RouteRequest(index=ONE, priority=50, scope=RT_SCOPE_LINK, **MADE),
        ADD,
    ),
    "route add 10.4.0.0/16 via 192.0.2.254 src 192.0.2.1 metric 100": (
        to(4, VIA, preferred_source=ip_address("192.0.2.1"), priority=100),
        ADD,
    ),
    "route add 10.5.0.0/16 via 192.0.2.254 table 100": (to(5, VIA, table=100), ADD),
    "route add 10.6.0.0/16 via 192.0.2.254 table 1000": (to(6, VIA, table=1000), ADD),
    "route add 10.7.0.0/16 via 192.0.2.254 mtu 1400 advmss 1360": (
        to(7, VIA, metrics={RTAX_MTU: 1400, RTAX_ADVMSS: 1360}),
        ADD,
    ),
    "route add 10.8.0.0/16 via 192.0.2.254 mtu lock 1400": (
        to(8, VIA, metrics={RTAX_MTU: 1400, RTAX_LOCK: 1 << RTAX_MTU}),
        ADD,
    ),
    "route add 10.9.0.0/16 nexthop via 192.0.2.254 weight 1"
    " nexthop via 198.51.100.254 weight 10": (
        to(9, hops=[NextHopRequest(VIA), NextHopRequest(ip_address("198.51.100.254"), weight=10)]),
        ADD,
    ),
    "route add 10.10.0.0/16 nexthop via 192.0.2.254 dev one weight 2"
    " nexthop dev other weight 256": (
        to(10, hops=(NextHopRequest(VIA, ONE, 2), NextHopRequest(index=OTHER, weight=256))),
        ADD,
    ),
    "route add 10.11.0.0/16 via 192.0.2.254 dev one onlink": (
        to(11, VIA, ONE, flags=RTNH_F_ONLINK),
        ADD,
    ),
    "route add 10.12.0.0/16 via 192.0.2.254 proto static": (
        to(12, VIA, protocol=RTPROT_STATIC),
        ADD,
    ),
    "route add 10.14.0.0/16 tos 0x10 via 192.0.2.254": (to(14, VIA, tos=0x10), ADD),
    "route add blackhole 10.16.0.0/16": (to(16, type=RTN_BLACKHOLE), ADD),
    "route add prohibit 10.18.0.0/16 table 4294967294": (
        to(18, type=RTN_PROHIBIT, table=4294967294),
        ADD,
    ),
    "route add local 10.19.0.0/16 dev lo": (
        to(19, index=LO, type=RTN_LOCAL, table=RT_TABLE_LOCAL, scope=RT_SCOPE_HOST),
        ADD,
    ),
    "route add 10.20.0.1 via 192.0.2.254": (
        to(0, VIA, destination=Prefix(ip_address("10.20.0.1"), 32)),
        ADD,
    ),
    "route replace 10.1.0.0/16 via 192.0.2.253": (to(1, VIA - 1), REPLACE),
    "route append 10.1.0.0/16 via 192.0.2.252": (to(1, VIA - 2), APPEND),
    "route change 10.1.0.0/16 via 192.0.2.251": (to(1, VIA - 3), CHANGE),
    "route prepend 10.1.0.0/16 via 192.0.2.250": (to(1, VIA - 4), PREPEND),
    "route delete 10.1.0.0/16": (gone(1), DELETE),
    "route delete 10.6.0.0/16 table 1000": (gone(6, table=1000), DELETE),
    "route delete 10.4.0.0/16 via 192.0.2.254 metric 100": (gone(4, VIA, priority=100), DELETE),
    "route add 2001:db8:11::/48 via 2001:db8::fe dev one metric 100 table 1000": (
        to6(11, VIA6, ONE, priority=100, table=1000),
        ADD,
    ),
    "route add 2001:db8:12::/48 nexthop via 2001:db8::fe weight 1"
    " nexthop via 2001:db8:1::fe weight 5": (
        to6(12, hops=[NextHopRequest(VIA6), NextHopRequest(VIA6 + (1 << 80), weight=5)]),
        ADD,
    ),
    "route add 2001:db8:13::/48 dev one mtu 1400 hoplimit 20": (
        to6(13, index=ONE, metrics={RTAX_MTU: 1400, RTAX_HOPLIMIT: 20}),
        ADD,
    ),
    "route add 2001:db8:14::/48 from 2001:db8:15::/48 via 2001:db8::fe": (
        to6(14, VIA6, source=ip_network("2001:db8:15::/48")),
        ADD,
    ),
    "route delete 2001:db8:10::/48": (to6(10, protocol=0, type=0), DELETE),
}


def near(last: int, *more: Any, **named: Any) -> NeighbourRequest:
    """A neighbour 192.0.2.LAST of the first interface."""
    own: Dict[str, Any] = {"state": NUD_PERMANENT, **named}
    return NeighbourRequest(ip_address(f"192.0.2.{last}"), ONE, *more, **own)


NEIGHBOURS: Rows = {
    "neighbour add 192.0.2.20 lladdr 02:00:00:00:00:20 dev one": (near(20, mac(0x20)), ADD),
    "neighbour add 192.0.2.22 lladdr 02:00:00:00:00:22 dev one nud reachable": (
        near(22, mac(0x22), state=NUD_REACHABLE),
        ADD,
    ),
    "neighbour add proxy 192.0.2.23 dev one": (near(23, flags=NTF_PROXY), ADD),
    "neighbour add 2001:db8::20 lladdr 02:00:00:00:00:20 dev one router": (
        replace(near(20, mac(0x20), flags=NTF_ROUTER), address=ip_address("2001:db8::20")),
        ADD,
    ),
    "neighbour replace 192.0.2.20 lladdr 02:00:00:00:00:24 dev one nud stale": (
        near(20, memoryview(mac(0x24)), state=NUD_STALE),
        REPLACE,
    ),
    "neighbour change 192.0.2.20 lladdr 02:00:00:00:00:25 dev one": (near(20, mac(0x25)), CHANGE),
    "neighbour delete 192.0.2.20 dev one": (near(20), DELETE),
}
SOURCE, DENIED = ip_network("192.0.2.0/24"), ip_network("203.0.113.0/24")
SOURCE6, TARGET = ip_network("2001:db8::/32"), ip_network("198.51.100.0/24")


def looks(table: int, priority: Any = None, **more: Any) -> RuleRequest:
    """A rule that leads to a table."""
    own: Dict[str, Any] = {"action": FR_ACT_TO_TBL, **more}
    return RuleRequest(table=table, priority=priority, **own)


RULES: Rows = {
    "rule add from 192.0.2.0/24 table 100": (looks(100, source=SOURCE), ADD),
    "rule add from 192.0.2.0/24 to 198.51.100.0/24 table 1000 priority 100": (
        looks(1000, 100, source=SOURCE, destination=TARGET),
        ADD,
    ),
    "rule add to 198.51.100.0/24 table 100 priority 101": (
        looks(100, 101, destination=TARGET),
        ADD,
    ),
    "rule add fwmark 0x10 table 100 priority 102": (looks(100, 102, mark=0x10), ADD),
    "rule add fwmark 0x10/0xff table 1000 priority 103": (
        looks(1000, 103, mark=0x10, mask=0xFF),
        ADD,
    ),
    "rule add iif one table 100 priority 104": (looks(100, 104, input_name="one"), ADD),
    "rule add oif other table main priority 105": (
        looks(RT_TABLE_MAIN, 105, output_name="other"),
        ADD,
    ),
    "rule add not from 192.0.2.0/24 table 100 priority 106": (
        looks(100, 106, source=SOURCE, invert=True),
        ADD,
    ),
    "rule add from 203.0.113.0/24 blackhole priority 107": (
        looks(0, 107, source=DENIED, action=FR_ACT_BLACKHOLE),
        ADD,
    ),
    "rule add tos 0x10 table 100 priority 109": (looks(100, 109, tos=0x10), ADD),
    "rule add from 203.0.113.0/24 goto 200 priority 110": (
        looks(0, 110, source=DENIED, action=FR_ACT_GOTO, target=200),
        ADD,
    ),
    "-6 rule add from 2001:db8::/32 fwmark 0x10/0xff table 1000 priority 101": (
        looks(1000, 101, source=SOURCE6, mark=0x10, mask=0xFF),
        ADD,
    ),
    "rule delete priority 100": (RuleRequest(priority=100), DELETE),
    "rule delete from 192.0.2.0/24 table 100": (looks(100, source=SOURCE, action=0), DELETE),
    "-6 rule delete from 2001:db8::/32 table 100 priority 100": (
        looks(100, 100, source=SOURCE6, action=0),
        DELETE,
    ),
}
FAMILIES = [LINKS, ADDRESSES, ROUTES, NEIGHBOURS, RULES]


def sent_by_ip() -> Dict[str, str]:
    """What ip(8) sends, by its words. Where it is not here the test is skipped."""
    path = f"{shared.ROOT}/tests/building/ip_sends.txt"
    if not os.path.exists(path):
        raise unittest.SkipTest("what ip sends is not here")
    with open(path, encoding="utf-8") as file:
        return dict(line.split("\t") for line in file.read().splitlines()[1:])


class Built(unittest.TestCase):
    def test_what_ip_sends(self) -> None:
        sent = sent_by_ip()
        for rows in FAMILIES:
            for words, (request, operation) in rows.items():
                self.assertEqual(request.packed(operation, 0, LITTLE).hex(), sent[words], words)

    def test_what_bridge_sends(self) -> None:
        """bridge fdb add 02:00:00:00:00:30 dev one master static vlan 5"""
        state = NUD_NOARP | NUD_REACHABLE
        entry = NeighbourRequest(None, ONE, mac(0x30), state, NTF_MASTER, vlan=5)
        wanted = (
            "300000001c0005060000000000000000 070000000a00000042000400"
            "0a0002000200000000300000 0600050005000000"
        )
        self.assertEqual(entry.packed(ADD, 0, LITTLE), bytes.fromhex(wanted))

    def test_each_field_is_in_a_row(self) -> None:
        """Each field is another than it is by default in a row of ip(8), but for those below."""
        rest = {
            (RouteRequest, "family"),
            (NeighbourRequest, "vlan"),
            (NeighbourRequest, "family"),
            (RuleRequest, "suppress_prefix_length"),
            (RuleRequest, "family"),
        }
        found = set()
        for request in (it for rows in FAMILIES for it, _ in rows.values()):
            kind = type(request)
            plain = PLAIN[kind]
            names = [it.name for it in fields(request)]
            found |= {(kind, it) for it in names if getattr(request, it) != getattr(plain, it)}
        every = {(kind, it.name) for kind, plain in PLAIN.items() for it in fields(plain)}
        self.assertEqual(every - found, rest)

    def test_operations(self) -> None:
        ack = NLM_F_REQUEST | NLM_F_ACK
        flags = {
            ADD: NLM_F_CREATE | NLM_F_EXCL,
            REPLACE: NLM_F_CREATE | NLM_F_REPLACE,
            CHANGE: NLM_F_REPLACE,
            APPEND: NLM_F_CREATE | NLM_F_APPEND,
            PREPEND: NLM_F_CREATE,
            SET: 0,
            DELETE: 0,
        }
        self.assertEqual(len(flags), 7)
        kinds = RTM_NEWLINK, RTM_NEWADDR, RTM_NEWROUTE, RTM_NEWNEIGH, RTM_NEWRULE
        for request, kind in zip(PLAIN.values(), kinds):
            for operation, own in flags.items():
                (found,) = Datagram(request.packed(operation, 0xFEDCBA98))
                wanted = kind + (operation == DELETE), ack | own, 0xFEDCBA98, 0
                self.assertEqual((found.kind, found.flags, found.seq, found.port), wanted)

    def test_several_in_one_datagram(self) -> None:
        rows = [LINKS["link add dummy0 type dummy"], RULES["rule delete priority 100"]]
        rows += [ROUTES["route add 10.3.0.0/16 dev one"], LINKS["link delete dev one"]]
        datagram = b"".join(it.packed(own, seq) for seq, (it, own) in enumerate(rows, 7))
        self.assertEqual(rtnl.check(datagram), (Code.OK, None, True))
        found = [(it.kind, it.seq) for it in Datagram(datagram)]
        wanted = [(RTM_NEWLINK, 7), (RTM_DELRULE, 8), (RTM_NEWROUTE, 9), (RTM_DELLINK, 10)]
        self.assertEqual(found, wanted)

    def test_the_other_order(self) -> None:
        request = to(1, VIA, 0x01020304, table=0x05060708, metrics={RTAX_MTU: 1})
        # The attributes stand in the order that they have in rows of ip(8).
        wanted = (
            "00000048 0018 0605 0a0b0c0d 00000000 02 10 00 00 00 03 00 01 00000000"
            "0008 0001 0a010000 0008 0005 c00002fe 0008 000f 05060708 0008 0004 01020304"
            "000c 0008 0008 0002 00000001"
        )
        self.assertEqual(request.packed(ADD, 0x0A0B0C0D, BIG), bytes.fromhex(wanted))
        hops = RouteRequest(hops=[NextHopRequest(index=0x01020304)])
        self.assertEqual(hops.packed(ADD, 0, BIG)[28:].hex(), "000c0009" "00080000" "01020304")


PLAIN: Dict[type, Any] = {
    LinkRequest: LinkRequest(),
    AddressRequest: AddressRequest(ip_interface("0.0.0.0/0"), 0),
    RouteRequest: RouteRequest(),
    NeighbourRequest: NeighbourRequest(),
    RuleRequest: RuleRequest(),
}


def number(kind: int, value: int = 0) -> bytes:
    return attr(kind, struct.pack("<I", value))


def route(family: int, *attrs: bytes, **head: int) -> bytes:
    lengths = head.get("destination", 0), head.get("source", 0)
    front = struct.pack("<BBBBBBBBI", family, *lengths, 0, 0, 0, 0, 0, 0)
    return asked(RTM_NEWROUTE, front, *attrs)


def rule(family: int, *attrs: bytes) -> bytes:
    return asked(RTM_NEWRULE, struct.pack("<B11x", family), *attrs)


def neighbour(family: int, *attrs: bytes) -> bytes:
    return asked(RTM_NEWNEIGH, struct.pack("<B11x", family), *attrs)


def asked(kind: int, *parts: bytes) -> bytes:
    """A request by SET, as worked by hand."""
    return message(kind, b"".join(parts), NLM_F_REQUEST | NLM_F_ACK, seq=0, port=0)


NO_LINK = bytes(16)
NO_HOP = struct.pack("<HBBi", 8, 0, 0, 0)
# What is there and is 0, or is of no length, beside what is not there.
BY_HAND: List[Tuple[Request, bytes]] = [
    (LinkRequest(), asked(RTM_NEWLINK, NO_LINK)),
    (LinkRequest("", hardware_address=b"", kind="", data=VLAN), asked(RTM_NEWLINK, NO_LINK)),
    (LinkRequest(up=False), asked(RTM_NEWLINK, struct.pack("<12xI", 1))),
    (LinkRequest(mtu=0), asked(RTM_NEWLINK, NO_LINK, number(IFLA_MTU))),
    (LinkRequest(master=0), asked(RTM_NEWLINK, NO_LINK, number(IFLA_MASTER))),
    (LinkRequest(link=0), asked(RTM_NEWLINK, NO_LINK, number(IFLA_LINK))),
    (LinkRequest("h\udcffé"), asked(RTM_NEWLINK, NO_LINK, attr(3, b"h\xff\xc3\xa9\0"))),
    (
        at("192.0.2.1/24", lifetimes=Lifetimes(0, 0), flags=255),
        asked(
            RTM_NEWADDR,
            struct.pack("<BBBBI", INET, 24, 255, 0, ONE),
            attr(IFA_LOCAL, bytes([192, 0, 2, 1])),
            attr(IFA_ADDRESS, bytes([192, 0, 2, 1])),
            attr(IFA_CACHEINFO, bytes(16)),
        ),
    ),
    (RouteRequest(), route(INET)),
    (RouteRequest(priority=0), route(INET, number(RTA_PRIORITY))),
    (RouteRequest(index=0), route(INET, number(RTA_OIF))),
    (RouteRequest(family=UNSPEC), route(INET)),
    (RouteRequest(family=INET6), route(INET6)),
    (RouteRequest(ip_network("::/0")), route(INET6, attr(RTA_DST, bytes(16)))),
    (
        RouteRequest(source=ip_network("::/1"), gateway=IPv4Address(0)),
        route(INET6, attr(RTA_SRC, bytes(16)), attr(RTA_GATEWAY, bytes(4)), source=1),
    ),
    (
        RouteRequest(preferred_source=IPv6Address(0)),
        route(INET6, attr(RTA_PREFSRC, bytes(16))),
    ),
    (
        RouteRequest(hops=[NextHopRequest(), NextHopRequest(flags=RTNH_F_ONLINK)]),
        route(INET, attr(RTA_MULTIPATH, NO_HOP + struct.pack("<HBBi", 8, 4, 0, 0))),
    ),
    (
        RouteRequest(hops=[NextHopRequest(IPv6Address(1))]),
        route(
            INET6,
            attr(
                RTA_MULTIPATH,
                struct.pack("<HBBi", 28, 0, 0, 0) + attr(RTA_GATEWAY, bytes(15) + b"\1"),
            ),
        ),
    ),
    (RouteRequest(metrics={RTAX_MTU: 0}), route(INET, attr(RTA_METRICS, number(RTAX_MTU)))),
    (NeighbourRequest(), neighbour(BRIDGE)),
    (NeighbourRequest(family=UNSPEC), neighbour(BRIDGE)),
    (
        NeighbourRequest(IPv6Address(0), family=UNSPEC),
        neighbour(INET6, attr(NDA_DST, bytes(16))),
    ),
    (NeighbourRequest(vlan=0), neighbour(BRIDGE, attr(NDA_VLAN, bytes(2)))),
    (NeighbourRequest(vlan=0x123), neighbour(BRIDGE, attr(NDA_VLAN, b"\x23\1"))),
    (
        NeighbourRequest(IPv4Address(0), family=BRIDGE),
        neighbour(BRIDGE, attr(NDA_DST, bytes(4))),
    ),
    (RuleRequest(), rule(INET)),
    (RuleRequest(family=UNSPEC), rule(INET)),
    (RuleRequest(family=INET6), rule(INET6)),
    (RuleRequest(mark=0), rule(INET, number(FRA_FWMARK))),
    (RuleRequest(mask=0), rule(INET, number(FRA_FWMASK))),
    (RuleRequest(target=0), rule(INET, number(FRA_GOTO))),
    (RuleRequest(suppress_prefix_length=0), rule(INET, number(FRA_SUPPRESS_PREFIXLEN))),
    (RuleRequest(suppress_prefix_length=9), rule(INET, number(FRA_SUPPRESS_PREFIXLEN, 9))),
    (RuleRequest(priority=0), rule(INET, number(FRA_PRIORITY))),
]


class ByHand(unittest.TestCase):
    def test_all(self) -> None:
        for request, wanted in BY_HAND:
            found = request.packed(SET, limits=LITTLE)
            self.assertEqual(found.hex(), wanted.hex())

    def test_views_say_what_was_asked(self) -> None:
        hops = [NextHopRequest(VIA, ONE, 3), NextHopRequest(VIA + 1, OTHER, 256)]
        (route,) = Datagram(to(1, hops=hops, table=1000).packed(ADD)).views(rtnl.Route)
        self.assertEqual((str(route.destination), route.table), ("10.1.0.0/16", 1000))
        found = [NextHopRequest(it.gateway, it.index, it.weight) for it in route.hops or ()]
        self.assertEqual(found, hops)

    def test_long_messages(self) -> None:
        """A message of the longest length, and one that is longer by a next hop."""
        for count in (1, 123, 124, 125, 8188):
            wanted = route(INET, attr(RTA_MULTIPATH, NO_HOP * count))
            request = RouteRequest(hops=[NextHopRequest()] * count)
            self.assertEqual(request.packed(SET, limits=LITTLE), wanted)
        self.assertEqual(len(wanted), 65536)

    def test_what_a_struct_points_to_is_kept(self) -> None:
        request = to(1, hops=[NextHopRequest(VIA)], metrics={RTAX_MTU: 1400})
        made = [it._made() for it in (LinkRequest("n" * 3000, kind="k" * 3000), request)]
        gc.collect()
        out = (ctypes.c_uint8 * 8192)()
        for call, it in zip((LIBRARY.rtnlc_request_link, LIBRARY.rtnlc_request_route), made):
            self.assertEqual(call(it, 0, 0, False, out, len(out)).code, Code.OK)
        self.assertEqual(bytes(out)[: len(request.packed(ADD))], request.packed(ADD, 0, LITTLE))


class Refused(unittest.TestCase):
    def refuses(self, code: Code, request: Request) -> None:
        with self.assertRaises(Error) as caught:
            request.packed(ADD)
        found = caught.exception
        self.assertEqual((found.code, found.place), (code, None))

    def test_what_is_too_long(self) -> None:
        long, longest = bytes(65532), bytes(65531)
        self.refuses(Code.TOO_LONG, LinkRequest(hardware_address=long))
        self.refuses(Code.TOO_LARGE, LinkRequest(hardware_address=longest))
        self.refuses(Code.TOO_LONG, LinkRequest("n" * 65531))
        self.refuses(Code.TOO_LARGE, LinkRequest("n" * 65530))
        self.refuses(Code.TOO_LONG, NeighbourRequest(hardware_address=long))
        self.refuses(Code.TOO_LONG, RuleRequest(output_name="n" * 65531))
        self.refuses(Code.TOO_LONG, at("192.0.2.1/24", label="n" * 65531))
        self.refuses(Code.TOO_LARGE, RouteRequest(hops=[NextHopRequest()] * 8189))
        self.refuses(Code.TOO_LARGE, RouteRequest(hops=[NextHopRequest(VIA6)] * 20000))

    def test_metrics(self) -> None:
        self.refuses(Code.MISMATCH, RouteRequest(metrics={16384: 1}))
        self.assertEqual(len(RouteRequest(metrics={16383: 1}).packed(ADD)), 40)

    def test_each_room(self) -> None:
        """The call has no room that is too small, but the library would say so."""
        request = ROUTES["route add 10.2.0.0/16 via 192.0.2.254 dev one"][0]
        wanted = request.packed(ADD, 0, LITTLE)
        for room in range(len(wanted) + 5):
            out = (ctypes.c_uint8 * 64)(*[0xAA] * 64)
            put = LIBRARY.rtnlc_request_route(request._made(), 0, 0, False, out, room)
            is_refused = room < len(wanted)
            self.assertEqual(put.code, Code.NO_ROOM if is_refused else Code.OK)
            self.assertEqual(put.len, 0 if is_refused else len(wanted))
            self.assertEqual(bytes(out)[room:], b"\xaa" * (64 - room))

    def test_what_is_no_operation(self) -> None:
        for found in (7, -1, 255, "ADD"):
            with self.assertRaisesRegex(ValueError, "is not a valid Operation"):
                LinkRequest().packed(found)  # type: ignore[arg-type]
        put = LIBRARY.rtnlc_request_link(LinkRequest()._made(), 7, 0, False, None, 0)
        self.assertEqual(put.code, Code.MISMATCH)

    def test_what_is_no_address(self) -> None:
        long: Any = bytes(17)
        requests: List[Tuple[str, Request]] = [
            ("gateway", RouteRequest(gateway=long)),
            ("gateway", RouteRequest(hops=[NextHopRequest(long)])),
            ("preferred_source", RouteRequest(preferred_source=long)),
            ("destination", RouteRequest(Prefix(long, 8))),
            ("peer", at("192.0.2.1/24", peer=Prefix(long, 8))),
            ("broadcast", at("192.0.2.1/24", broadcast=long)),
            ("address", NeighbourRequest(long)),
            ("source", RuleRequest(Prefix(long, 8))),
        ]
        for name, request in requests:
            with self.assertRaisesRegex(TypeError, f"^{name} must be an IPv4Address or an IPv6"):
                request.packed(ADD)
        plain: Any = VIA
        whole = [RouteRequest(plain), RuleRequest(plain), AddressRequest(plain, ONE)]
        for request in (*whole, at("192.0.2.1/24", peer=plain)):
            with self.assertRaisesRegex(TypeError, "no address with a length"):
                request.packed(ADD)

    def test_what_is_no_number(self) -> None:
        word: Any = "eth0"
        requests: List[Tuple[str, Request]] = [
            ("index", AddressRequest(ip_interface("::1"), word)),
            ("index", RouteRequest(index=word)),
            ("index", RouteRequest(hops=[NextHopRequest(VIA, index=word)])),
            ("master", LinkRequest(master=word)),
        ]
        for name, request in requests:
            with self.assertRaisesRegex(TypeError, f"^{name} must be a whole number, not 'eth0'$"):
                request.packed(ADD)

    def test_numbers_that_do_not_fit(self) -> None:
        requests: List[Tuple[str, Request]] = [
            ("index", LinkRequest(index=1 << 31)),
            ("index", LinkRequest(index=-1)),
            ("mtu", LinkRequest(mtu=1 << 32)),
            ("master", LinkRequest(master=-1)),
            ("link", LinkRequest(link=1 << 32)),
            ("index", AddressRequest(ip_interface("::1"), 1 << 32)),
            ("prefix_length", AddressRequest(Prefix(VIA, 256), 1)),
            ("prefix_length", at("192.0.2.1/24", peer=Prefix(VIA, 256))),
            ("scope", at("::1", scope=256)),
            ("flags", at("::1", flags=1 << 32)),
            ("valid", at("::1", lifetimes=Lifetimes(valid=1 << 32))),
            ("table", RouteRequest(table=1 << 32)),
            ("protocol", RouteRequest(protocol=256)),
            ("type", RouteRequest(type=256)),
            ("scope", RouteRequest(scope=-1)),
            ("tos", RouteRequest(tos=256)),
            ("flags", RouteRequest(flags=-1)),
            ("index", RouteRequest(index=1 << 32)),
            ("priority", RouteRequest(priority=1 << 32)),
            ("family", RouteRequest(family=256)),
            ("source_length", RouteRequest(source=Prefix(VIA, 256))),
            ("metric", RouteRequest(metrics={65536: 1})),
            ("value", RouteRequest(metrics={1: 1 << 32})),
            ("index", RouteRequest(hops=[NextHopRequest(index=1 << 31)])),
            ("flags", RouteRequest(hops=[NextHopRequest(flags=256)])),
            ("weight", RouteRequest(hops=[NextHopRequest(weight=0)])),
            ("weight", RouteRequest(hops=[NextHopRequest(weight=257)])),
            ("index", NeighbourRequest(index=1 << 31)),
            ("state", NeighbourRequest(state=65536)),
            ("flags", NeighbourRequest(flags=256)),
            ("vlan", NeighbourRequest(vlan=65536)),
            ("mask", RuleRequest(mask=1 << 32)),
            ("action", RuleRequest(action=256)),
            ("suppress_prefix_length", RuleRequest(suppress_prefix_length=-1)),
        ]
        for name, request in requests:
            with self.assertRaisesRegex(ValueError, f"^{name} must be from "):
                request.packed(ADD)
        self.assertRaises(ValueError, RuleRequest().packed, ADD, 1 << 32)


if __name__ == "__main__":
    unittest.main()
