"""What is built is what ip(8) sends, byte by byte, or was worked by hand; and what no room, limit
or order of calls allows is refused, and stays so."""
import ctypes
import unittest
from ipaddress import IPv4Address, IPv6Address, ip_address, ip_interface, ip_network
from typing import Callable, List, Tuple

import rtnl
from rtnl import (
    AddressHead,
    Builder,
    Code,
    Datagram,
    Error,
    Head,
    Limits,
    LinkHead,
    NeighbourHead,
    Prefix,
    RouteHead,
    RuleHead,
)
from rtnl.constants import *
from shared import error, message

Put = Callable[[Builder], None]

LITTLE = Limits(big=False)
INET, INET6 = 2, 10
ACK = NLM_F_REQUEST | NLM_F_ACK
# The flags by which ip(8) adds something.
ADDS = ACK | NLM_F_CREATE | NLM_F_EXCL
GATEWAY = IPv4Address("192.0.2.254")


def route_to(prefix: str) -> RouteHead:
    """The head of a route as ip(8) adds it."""
    return RouteHead.to(
        ip_network(prefix), table=RT_TABLE_MAIN, protocol=RTPROT_BOOT, type=RTN_UNICAST
    )


def built(kind: int, head: Head, flags: int = 0, put: Put = lambda it: None) -> str:
    """A datagram of one message, in hexadecimal."""
    builder = Builder(LITTLE)
    with builder.message(kind, head, flags):
        put(builder)
    return builder.finish().hex()


def put_vlan(it: Builder) -> None:
    it.put_u32(IFLA_LINK, 10)
    it.put_text(IFLA_IFNAME, "one.5")
    with it.list(IFLA_LINKINFO):
        # No zero byte stands behind this text.
        it.put(IFLA_INFO_KIND, b"vlan")
        # It has no flag that says that it is a list: IFLA_VLAN_ID, 5.
        it.put(IFLA_INFO_DATA, bytes([6, 0, 1, 0, 5, 0, 0, 0]))


def put_broadcast(it: Builder) -> None:
    it.put_address(IFA_LOCAL, ip_interface("192.0.2.11/24"))
    it.put_address(IFA_BROADCAST, IPv4Address("192.0.2.255"))
    it.put_address(IFA_ADDRESS, IPv4Address("192.0.2.11"))


def put_metrics(it: Builder) -> None:
    it.put_address(RTA_DST, IPv4Address("10.7.0.0"))
    it.put_address(RTA_GATEWAY, GATEWAY)
    with it.list(RTA_METRICS):
        it.put_u32(RTAX_MTU, 1400)
        it.put_u32(RTAX_ADVMSS, 1360)


def put_via(it: Builder) -> None:
    it.put_address(RTA_DST, IPv4Address("10.15.0.0"))
    it.put_via(RTA_VIA, IPv6Address("2001:db8::fe"))
    it.put_u32(RTA_OIF, 10)


def put_two_ways(it: Builder) -> None:
    it.put_address(RTA_DST, IPv4Address("10.10.0.0"))
    with it.list(RTA_MULTIPATH):
        with it.hop(10, weight=2):
            it.put_address(RTA_GATEWAY, GATEWAY)
        with it.hop(11, weight=256):
            pass


def put_neighbour(it: Builder) -> None:
    it.put_address(NDA_DST, ip_address("2001:db8::20"))
    it.put(NDA_LLADDR, bytearray([2, 0, 0, 0, 0, 0x20]))


def put_rule(it: Builder) -> None:
    it.put_address(FRA_SRC, IPv4Address("192.0.2.0"))
    it.put_address(FRA_DST, IPv4Address("198.51.100.0"))
    it.put_u32(FRA_TABLE, 1000)
    it.put_u32(FRA_PRIORITY, 100)


TWO_WAYS = (
    "4000000018000506000000000000000002100000fe03000100000000080001000a0a0000"
    "1c000900100000010a00000008000500c00002fe080000ff0b000000"
)
# What ip(8) of iproute2-6.1.0 sends, where the interface `one` is 10.
SENDS: List[Tuple[str, int, Head, int, Put, str]] = [
    (
        "link set dev one up",
        RTM_NEWLINK,
        LinkHead(index=10, flags=IFF_UP, change=IFF_UP),
        ACK,
        lambda it: None,
        "20000000100005000000000000000000000000000a0000000100000001000000",
    ),
    (
        "link add link one name one.5 type vlan id 5",
        RTM_NEWLINK,
        LinkHead(),
        ADDS,
        put_vlan,
        "4c00000010000506000000000000000000000000000000000000000000000000080005000a000000"
        "0a0003006f6e652e350000001800120008000100766c616e0c0002000600010005000000",
    ),
    (
        "address add 192.0.2.11/24 broadcast 192.0.2.255 dev one",
        RTM_NEWADDR,
        AddressHead.on(ip_interface("192.0.2.11/24"), 10),
        ADDS,
        put_broadcast,
        "30000000140005060000000000000000021800000a00000008000200c000020b"
        "08000400c00002ff08000100c000020b",
    ),
    (
        "route add 10.7.0.0/16 via 192.0.2.254 mtu 1400 advmss 1360",
        RTM_NEWROUTE,
        route_to("10.7.0.0/16"),
        ADDS,
        put_metrics,
        "4000000018000506000000000000000002100000fe03000100000000080001000a070000"
        "08000500c00002fe1400080008000200780500000800080050050000",
    ),
    (
        "route add 10.15.0.0/16 via inet6 2001:db8::fe dev one",
        RTM_NEWROUTE,
        route_to("10.15.0.0/16"),
        ADDS,
        put_via,
        "4400000018000506000000000000000002100000fe03000100000000080001000a0f0000"
        "160012000a0020010db80000000000000000000000fe0000080004000a000000",
    ),
    (
        "route add 10.10.0.0/16 nexthop via 192.0.2.254 dev one weight 2"
        " nexthop dev other weight 256",
        RTM_NEWROUTE,
        route_to("10.10.0.0/16"),
        ADDS,
        put_two_ways,
        TWO_WAYS,
    ),
    (
        "neighbour add 2001:db8::20 lladdr 02:00:00:00:00:20 dev one router",
        RTM_NEWNEIGH,
        NeighbourHead(family=INET6, index=10, state=NUD_PERMANENT, flags=NTF_ROUTER),
        ADDS,
        put_neighbour,
        "3c0000001c00050600000000000000000a0000000a00000080008000"
        "1400010020010db80000000000000000000000200a0002000200000000200000",
    ),
    (
        "rule add from 192.0.2.0/24 to 198.51.100.0/24 table 1000 priority 100",
        RTM_NEWRULE,
        RuleHead(INET, destination_length=24, source_length=24, action=FR_ACT_TO_TBL),
        ADDS,
        put_rule,
        "3c00000020000506000000000000000002181800000000010000000008000200c0000200"
        "08000100c633640008000f00e80300000800060064000000",
    ),
]
# Each field of a head with numbers of its own.
HEADS: List[Tuple[int, Head, str]] = [
    (
        RTM_SETLINK,
        LinkHead(1, 0x302, 0x7060504, 0xB0A0908, 0xF0E0D0C),
        "010002030405060708090a0b0c0d0e0f",
    ),
    (RTM_DELADDR, AddressHead(1, 2, 3, 4, 0x8070605), "0102030405060708"),
    (RTM_DELROUTE, RouteHead(1, 2, 3, 4, 5, 6, 7, 8, 0xC0B0A09), "0102030405060708090a0b0c"),
    (RTM_DELNEIGH, NeighbourHead(1, 0x5040302, 0x706, 8, 9), "010000000203040506070809"),
    (RTM_DELRULE, RuleHead(1, 2, 3, 4, 5, 6, 0xA090807), "01020304050000060708090a"),
]


def put_numbers(it: Builder) -> None:
    """A number of each size, in attributes that have no meaning."""
    it.put_u8(200, 0x12)
    it.put_u16(201, 0x1234)
    it.put_u32(202, 0x12345678)
    it.put_u64(203, 0x123456789ABCDEF0)
    it.put_be16(204 | NLA_F_NET_BYTEORDER, 0x1234)
    it.put_be32(205 | NLA_F_NET_BYTEORDER, 0x12345678)
    it.put_be64(206 | NLA_F_NET_BYTEORDER, 0x123456789ABCDEF0)
    with it.list(207 | NLA_F_NESTED):
        it.put_text(1, "")


class Built(unittest.TestCase):
    def test_what_ip_sends(self) -> None:
        for words, kind, head, flags, put, expected in SENDS:
            self.assertEqual(built(kind, head, flags, put), expected, words)

    def test_heads(self) -> None:
        for kind, head, expected in HEADS:
            self.assertEqual(built(kind, head)[32:], expected)
        interface = ip_interface("192.0.2.1/24")
        for prefix in (Prefix(GATEWAY, 24), interface.network, interface):
            self.assertEqual(RouteHead.to(prefix), RouteHead(INET, 24))
            self.assertEqual(AddressHead.on(prefix, 7), AddressHead(INET, 24, index=7))
        self.assertEqual(RouteHead.to(ip_network("::/0")), RouteHead(INET6))

    def test_numbers(self) -> None:
        found = built(RTM_NEWLINK, LinkHead(), 0, put_numbers)
        expected = (
            "0500c80012000000 0600c90034120000 0800ca0078563412 0c00cb00f0debc9a78563412"
            "0600cc4012340000 0800cd4012345678 0c00ce40123456789abcdef0 0c00cf80 0500010000000000"
        )
        self.assertEqual(found[64:], expected.replace(" ", ""))
        builder = Builder(Limits(big=True))
        head = LinkHead(type=0x102, index=3)
        with builder.message(RTM_NEWLINK, head, 5, seq=0x1020304, port=0x5060708):
            put_numbers(builder)
        expected = (
            "0000006c 0010 0005 01020304 05060708 00000102 00000003 00000000 00000000"
            "000500c812000000 000600c912340000 000800ca12345678 000c00cb123456789abcdef0"
            "000640cc12340000 000840cd12345678 000c40ce123456789abcdef0 000c80cf 0005000100000000"
        )
        self.assertEqual(builder.finish(), bytes.fromhex(expected))

    def test_messages(self) -> None:
        builder = Builder(LITTLE)
        self.assertEqual(builder.finish(), b"")
        with builder.message(RTM_NEWROUTE, route_to("10.10.0.0/16")):
            put_two_ways(builder)
        self.assertEqual(len(builder.finish()), 64)
        with builder.message(RTM_NEWLINK, LinkHead(index=7)):
            builder.put_text(IFLA_IFNAME, "h\udcffé")
        datagram = builder.finish()
        self.assertEqual(rtnl.check(datagram, LITTLE), (Code.OK, None, True))
        (route,) = Datagram(datagram, LITTLE).views(rtnl.Route)
        hops = [(it.gateway, it.weight, it.index) for it in route.hops or ()]
        self.assertEqual(hops, [(GATEWAY, 2, 10), (None, 256, 11)])
        (link,) = Datagram(datagram, LITTLE).views(rtnl.Link)
        self.assertEqual((link.index, link.name), (7, "h\udcffé"))

    def test_each_room(self) -> None:
        whole = len(TWO_WAYS) // 2
        for room in range(whole + 5):
            builder = Builder(LITTLE, room)
            try:
                with builder.message(RTM_NEWROUTE, route_to("10.10.0.0/16")):
                    put_two_ways(builder)
            except Error as found:
                self.assertEqual((found.code, room < whole), (Code.NO_ROOM, True))
                self.assertRaises(Error, builder.finish)
            else:
                self.assertEqual((len(builder.finish()), room >= whole), (whole, True))

    def test_a_room_of_no_bytes_is_kept(self) -> None:
        """What lies behind the room of a part of a buffer is not written to."""
        builder = Builder(LITTLE, 64)
        ctypes.memset(builder._buffer, 0xAA, 64)
        builder._made.room = 32
        with self.assertRaises(Error), builder.message(RTM_NEWLINK, LinkHead()):
            builder.put_u8(IFLA_CARRIER, 1)
        self.assertEqual(bytes(builder._buffer)[32:], b"\xaa" * 32)


class Refused(unittest.TestCase):
    def refuses(self, code: Code, put: Put, limits: Limits = LITTLE) -> None:
        """What is put behind the head of a route is refused so, and that sticks until it is
        cleared."""
        builder = Builder(limits, 200_000)
        builder.begin(RTM_NEWROUTE, route_to("10.0.0.0/8"))
        calls: List[Callable[[], object]] = [lambda: put(builder), builder.close, builder.end]
        calls += [builder.finish, lambda: builder.put_u32(RTA_OIF, 1)]
        for call in calls:
            with self.assertRaises(Error) as caught:
                call()
            found = caught.exception
            self.assertEqual((found.code, found.place, str(found)), (code, None, str(code)))
        builder.clear()
        with builder.message(RTM_NEWROUTE, route_to("10.0.0.0/8")):
            pass
        self.assertEqual(len(builder.finish()), 28)

    def test_mismatches(self) -> None:
        self.refuses(Code.MISMATCH, lambda it: it.put(RTA_METRICS, bytes(4)))
        self.refuses(Code.MISMATCH, lambda it: it.put_u8(99 | NLA_F_NESTED, 1))
        self.refuses(Code.MISMATCH, lambda it: it.open(RTA_DST))
        self.refuses(Code.MISMATCH, lambda it: it.open_hop())

        def put_beside_hops(it: Builder) -> None:
            with it.list(RTA_MULTIPATH):
                it.put_u32(RTA_OIF, 1)

        self.refuses(Code.MISMATCH, put_beside_hops)
        for kind, head in ((RTM_NEWLINK, RouteHead()), (RTM_GETLINK, LinkHead()), (3, LinkHead())):
            with self.assertRaises(Error) as caught:
                built(kind, head)
            self.assertEqual(caught.exception.code, Code.MISMATCH)

    def test_whole_messages(self) -> None:
        builder = Builder(LITTLE)
        builder.put_message(NLMSG_DONE, bytes([1, 2, 3, 4, 5]), 2, seq=7, port=9)
        builder.put_message(RTM_GETLINK, bytearray([INET]), NLM_F_REQUEST)
        expected = (
            "15000000 0300 0200 07000000 09000000 0102030405000000"
            "11000000 1200 0100 00000000 00000000 02000000"
        )
        self.assertEqual(builder.finish(), bytes.fromhex(expected))
        for kind, size in ((RTM_NEWLINK, 16), (NLMSG_ERROR, 19)):
            builder.clear()
            with self.assertRaises(Error) as caught:
                builder.put_message(kind, bytes(size))
            self.assertEqual(caught.exception.code, Code.MISMATCH)
        self.refuses(Code.STILL_OPEN, lambda it: it.put_message(NLMSG_DONE, b""))
        self.assertRaises(ValueError, builder.put_message, 65536, b"")

    def test_what_is_open(self) -> None:
        def end_in_list(it: Builder) -> None:
            it.open(RTA_METRICS)
            it.end()

        def put_behind(it: Builder) -> None:
            it.end()
            it.put_u32(RTA_OIF, 1)

        self.refuses(Code.STILL_OPEN, end_in_list)
        self.refuses(Code.STILL_OPEN, lambda it: it.begin(RTM_NEWROUTE, RouteHead()))
        self.refuses(Code.NOTHING_OPEN, lambda it: it.close())
        self.refuses(Code.NOTHING_OPEN, put_behind)

    def test_limits(self) -> None:
        def open_two(it: Builder) -> None:
            with it.list(99 | NLA_F_NESTED):
                it.open(1 | NLA_F_NESTED)

        large = Limits(big=False, datagram=1 << 20)
        self.refuses(Code.TOO_LONG, lambda it: it.put(RTA_DST, bytes(65532)), large)
        self.refuses(Code.TOO_LARGE, lambda it: it.put(RTA_DST, bytes(65531)))
        small = Limits(big=False, datagram=32)
        self.refuses(Code.TOO_LARGE, lambda it: it.put_u64(RTA_DST, 1), small)
        self.refuses(Code.TOO_DEEP, open_two, Limits(big=False, depth=1))

    def test_a_block_that_raises_stays_open(self) -> None:
        builder = Builder(LITTLE)
        with self.assertRaises(KeyError):
            with builder.message(RTM_NEWROUTE, RouteHead()), builder.list(RTA_METRICS):
                raise KeyError
        with self.assertRaises(Error) as caught:
            builder.finish()
        self.assertEqual(caught.exception.code, Code.STILL_OPEN)
        builder.close()
        builder.end()
        self.assertEqual(len(builder.finish()), 32)

    def test_numbers_that_do_not_fit(self) -> None:
        builder = Builder(LITTLE)
        builder.begin(RTM_NEWROUTE, RouteHead())
        calls: List[Callable[[], None]] = [
            lambda: builder.put_u8(RTA_PREF, 256),
            lambda: builder.put_u16(RTA_DPORT, -1),
            lambda: builder.put_u32(RTA_OIF, 1 << 32),
            lambda: builder.put_be64(RTA_OIF, 1 << 64),
            lambda: builder.put(65536, b""),
            lambda: builder.put_text(-1, ""),
            lambda: builder.open(65536),
            lambda: builder.open_hop(1 << 31),
            lambda: builder.open_hop(1, weight=0),
            lambda: builder.open_hop(1, weight=257),
            lambda: builder.open_hop(1, flags=256),
            lambda: builder.begin(65536, RouteHead()),
            lambda: builder.begin(RTM_NEWROUTE, RouteHead(table=256)),
            lambda: builder.begin(RTM_NEWROUTE, RouteHead(), seq=1 << 32),
        ]
        for call in calls:
            self.assertRaises(ValueError, call)
        builder.end()
        self.assertEqual(len(builder.finish()), 28)


class Answers(unittest.TestCase):
    def test_errors(self) -> None:
        for code, wanted in ((0, 0), (-1, 1), (-19, 19), (19, 19)):
            self.assertEqual(Datagram(error(code), LITTLE)[0].error, wanted)
        for other in (message(3, bytes(4)), message(16, bytes(16))):
            self.assertIsNone(Datagram(other, LITTLE)[0].error)
        big = bytes.fromhex("00000024 0002 0000 00000001 00000000 ffffffed" + "00" * 16)
        self.assertEqual(Datagram(big, Limits(big=True))[0].error, 19)


if __name__ == "__main__":
    unittest.main()
