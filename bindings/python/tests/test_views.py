"""What views say of attributes that are missing, twice there, of another size, or containers."""
import pickle
import random
import struct
import unittest
from ipaddress import IPv4Address, IPv6Address, ip_address, ip_network
from typing import List, Optional, Tuple

import rtnl
from rtnl import Attributes, Datagram, HardwareAddress, Prefix
from rtnl.constants import IFLA_IFNAME, IFLA_MTU, RTM_DELLINK, RTM_NEWLINK
from shared import attr, link, message, route

NESTED, NET = 0x8000, 0x4000
SIX = IPv6Address("2001:db8::1")


def of(number: int, payload: bytes) -> Attributes:
    """The attributes of a link that has one."""
    return Datagram(message(RTM_NEWLINK, link(7, attr(number, payload))))[0].attributes


def of_route(*attrs: bytes, length: int = 8) -> rtnl.Route:
    found = next(Datagram(message(24, route(2, length, *attrs))).views(rtnl.Route))
    return found


class Values(unittest.TestCase):
    def test_sizes(self) -> None:
        """Each value of payloads of 0 to 20 bytes: there is one for its own size alone."""
        for size in range(21):
            payload = bytes(range(1, size + 1))
            found = of(50, payload)
            numbers = [found.u8(50), found.u16(50), found.u32(50), found.u64(50)]
            wanted: List[Optional[int]] = [None] * 4
            if size in (1, 2, 4, 8):
                wanted[size.bit_length() - 1] = sum(it << 8 * at for at, it in enumerate(payload))
            self.assertEqual(numbers, wanted)
            first = found.find(50)
            assert first is not None
            self.assertEqual([first.u8(), first.u16(), first.u32(), first.u64()], wanted)
            address = found.address(50)
            self.assertEqual(address is None, size not in (4, 16))
            self.assertEqual(
                b"" if address is None else address.packed, payload if address else b""
            )
            self.assertEqual(found.as_bytes(50), payload)
            self.assertEqual(found.hardware_address(50), payload)
            self.assertEqual(bytes(first.payload), payload)

    def test_missing(self) -> None:
        found = of(1, b"")
        calls = found.find, found.u8, found.u16, found.u32, found.u64, found.text, found.address
        more = found.hardware_address, found.as_bytes, found.attributes, found.hops
        self.assertEqual([call(2) for call in (*calls, *more)], [None] * 11)
        self.assertEqual((1 in found, 2 in found, len(found)), (True, False, 1))

    def test_text(self) -> None:
        for payload, wanted in (
            (b"lo\0", "lo"),
            (b"lo", "lo"),
            (b"", ""),
            (b"\0", ""),
            (b"a\0b\0", "a"),
            ("\u00e4\0".encode(), "\u00e4"),
            (b"\xff\0", "\udcff"),
        ):
            self.assertEqual(of(IFLA_IFNAME, payload).text(IFLA_IFNAME), wanted)

    def test_the_first_counts(self) -> None:
        attrs = attr(4, b"\1\0\0\0"), attr(3, b"a"), attr(4, b"\2\0\0\0"), attr(3, b"b")
        found = Datagram(message(RTM_NEWLINK, link(7, *attrs)))[0].attributes
        self.assertEqual((found.u32(4), found.text(3)), (1, "a"))
        self.assertEqual([it.number for it in found], [4, 3, 4, 3])
        self.assertEqual([it.place for it in found], [32, 40, 48, 56])

    def test_containers_hold_no_bytes(self) -> None:
        inner = attr(1, b"x") + attr(NESTED | 2, attr(5, b"\7\0\0\0"))
        found = of(NESTED | IFLA_MTU, inner)
        calls = found.u8, found.u32, found.text, found.address, found.hardware_address
        self.assertEqual([call(IFLA_MTU) for call in (*calls, found.as_bytes)], [None] * 6)
        first = found.find(IFLA_MTU)
        assert first is not None and first.attributes is not None
        self.assertEqual((first.nested, first.net, bytes(first.payload)), (True, False, inner))
        self.assertEqual((first.attributes.text(1), first.hops), ("x", None))
        inside = first.attributes.attributes(2)
        assert inside is not None
        self.assertEqual((inside.u32(5), [it.number for it in first.attributes]), (7, [1, 2]))

    def test_empty_containers_and_their_neighbours(self) -> None:
        attrs = attr(NESTED | 40), attr(NESTED | 41, attr(1, b"y")), attr(42, b"z")
        found = Datagram(message(RTM_NEWLINK, link(7, *attrs)))[0].attributes
        empty, one = found.attributes(40), found.attributes(41)
        assert empty is not None and one is not None
        self.assertEqual((list(empty), [it.number for it in one]), ([], [1]))
        self.assertEqual((found.text(42), one.text(1), one.text(42)), ("z", "y", None))

    def test_flags(self) -> None:
        first = of(NET | IFLA_MTU, b"\1\0\0\0").find(IFLA_MTU)
        assert first is not None
        self.assertEqual((first.number, first.net, first.nested, first.u32()), (4, True, False, 1))

    def test_hardware_addresses(self) -> None:
        found = HardwareAddress(bytes.fromhex("0200000004ff"))
        self.assertEqual(
            (str(found), repr(found)),
            ("02:00:00:00:04:ff", "HardwareAddress('02:00:00:00:04:ff')"),
        )
        self.assertEqual(
            (found, hash(found), str(HardwareAddress())),
            (b"\2\0\0\0\4\xff", hash(b"\2\0\0\0\4\xff"), ""),
        )

    def test_texts_of_addresses(self) -> None:
        """They are those of ipaddress, of which addresses are."""
        source = random.Random(1)
        packed = [source.randbytes(4) for _ in range(50)]
        for _ in range(5000):
            words = source.choices([0, 0, 1, 0xFFFF, source.getrandbits(16)], k=8)
            packed.append(struct.pack(">8H", *words))
        packed += [bytes(16 - at) + b"\xff" * at for at in range(17)]
        odd = "::ffff:1.2.3.4", "::1.2.3.4", "::1:2", "::1"
        packed += [IPv6Address(it).packed for it in odd]
        for payload in packed:
            found, wanted = of(50, payload).address(50), ip_address(payload)
            self.assertEqual((str(found), f"{found}"), (str(wanted), str(wanted)))
            self.assertEqual((found, repr(found)), (wanted, repr(wanted)))
            self.assertEqual(hash(found), hash(wanted))
            self.assertIsInstance(found, type(wanted))
        self.assertEqual(pickle.loads(pickle.dumps(found)), wanted)

    def test_prefixes(self) -> None:
        one = Prefix(IPv4Address("10.1.2.3"), 8)
        self.assertEqual((str(one), one.network), ("10.1.2.3/8", ip_network("10.0.0.0/8")))
        self.assertEqual(
            (str(Prefix(SIX, 129)), Prefix(SIX, 129).network), ("2001:db8::1/129", None)
        )
        self.assertEqual(Prefix(SIX, 128).network, ip_network("2001:db8::1/128"))


class Views(unittest.TestCase):
    def test_a_link_without_attributes(self) -> None:
        found = next(Datagram(message(RTM_DELLINK, link(-1))).views(rtnl.Link))
        self.assertEqual((found.index, found.type, found.flags), (-1, 1, 0x1003))
        names = "name mtu hardware_address broadcast operstate state kind master link alias qdisc"
        self.assertEqual([getattr(found, it) for it in names.split()], [None] * 11)
        self.assertEqual(
            repr(found), ("<Link index=-1 name=None state=None mtu=None hardware_address=None>")
        )

    def test_a_class_made_of_one(self) -> None:
        class Named(rtnl.Link):
            def title(self) -> str:
                return f"{self.name}!"

        datagram = Datagram(message(RTM_NEWLINK, link(7, attr(IFLA_IFNAME, b"lo"))))
        self.assertEqual([it.title() for it in datagram.views(Named)], ["lo!"])
        self.assertIs(type(datagram[0].view), rtnl.Link)

    def test_states(self) -> None:
        words = "UNKNOWN NOTPRESENT DOWN LOWERLAYERDOWN TESTING DORMANT UP".split()
        for number, word in [*enumerate(words), (7, None), (255, None)]:
            body = link(7, attr(16, bytes([number])))
            found = next(Datagram(message(RTM_NEWLINK, body)).views(rtnl.Link))
            self.assertEqual((found.operstate, found.state), (number, word))

    def test_a_kind(self) -> None:
        """IFLA_LINKINFO holds attributes with and without NLA_F_NESTED."""
        for flag in (0, NESTED):
            body = link(7, attr(flag | 18, attr(1, b"bridge\0") + attr(2, b"\1\2\3\4")))
            found = next(Datagram(message(RTM_NEWLINK, body)).views(rtnl.Link))
            self.assertEqual(found.kind, "bridge")

    def test_tables(self) -> None:
        self.assertEqual((of_route().table, of_route(attr(15, b"\0\1\0\0")).table), (254, 256))
        self.assertEqual(of_route(attr(15, b"\0\1")).table, 254)

    def test_gateways(self) -> None:
        four, six = attr(5, b"\x0a\0\0\1"), b"\x0a\0" + SIX.packed
        for attrs, wanted in (
            ((four,), "10.0.0.1"),
            ((attr(18, six),), "2001:db8::1"),
            ((attr(18, six), four), "10.0.0.1"),
            ((attr(18, b"\2\0\x0a\0\0\2"),), "10.0.0.2"),
            ((attr(18, b"\2\0" + SIX.packed),), None),
            ((attr(18, b"\x11\0\x0a\0\0\2"),), None),
            ((attr(18, b"\2"),), None),
            ((attr(18, b""),), None),
            ((attr(5, b"\1\2\3"),), None),
            ((), None),
        ):
            found = of_route(*attrs).gateway
            self.assertEqual(found if found is None else str(found), wanted)

    def test_next_hops(self) -> None:
        one = struct.pack("<HBBi", 16, 4, 2, 5) + attr(5, b"\x0a\0\0\1")
        two = struct.pack("<HBBi", 8, 0, 0, -2)
        hops = of_route(attr(9, one + two), attr(4, b"\3\0\0\0")).hops
        assert hops is not None
        found: List[Tuple[object, ...]] = [(it.flags, it.weight, it.index) for it in hops]
        self.assertEqual(found, [(4, 3, 5), (0, 1, -2)])
        self.assertEqual([it.gateway for it in hops], [IPv4Address("10.0.0.1"), None])
        self.assertEqual((len(hops), hops[-1].index, hops[0].index), (2, -2, 5))
        self.assertEqual([it.index for it in hops[::-1]], [-2, 5])
        self.assertEqual([len(it.attributes) for it in hops], [1, 0])
        self.assertRaises(IndexError, hops.__getitem__, 2)
        none = of_route(attr(9))
        self.assertEqual((of_route().hops, len(none.hops or "x")), (None, 1))
        self.assertEqual(list(none.hops if none.hops is not None else "x"), [])

    def test_an_address_whose_length_is_above_its_bits(self) -> None:
        found = of_route(attr(1, b"\x0a\0\0\0"), length=200).destination
        assert found is not None
        self.assertEqual((str(found), found.network), ("10.0.0.0/200", None))

    def test_flags_of_addresses(self) -> None:
        for attrs, wanted in (
            ((), 0x80),
            ((attr(8, b"\0\3\0\0"),), 0x300),
            ((attr(8, b"\1"),), 0x80),
        ):
            body = struct.pack("<BBBBI", 2, 24, 0x80, 0, 7) + b"".join(attrs)
            found = next(Datagram(message(20, body)).views(rtnl.Address))
            self.assertEqual((found.flags, found.prefix, found.index), (wanted, None, 7))

    def test_messages_of_no_family(self) -> None:
        body = b"\0" * 20
        for kind in (1, 3, 4, 18, 22, 36, 65535):
            found = Datagram(message(kind, body))[0]
            self.assertEqual((found.view, list(found.attributes)), (None, []))
            self.assertEqual((bytes(found.body), found.size, found.place), (body, 20, 0))

    def test_messages(self) -> None:
        whole = message(RTM_NEWLINK, link(7), seq=8, port=9, flags=0x12) + message(3, b"\0" * 4)
        found = Datagram(whole)
        self.assertEqual((len(found), found[-1].kind, [it.place for it in found]), (2, 3, [0, 32]))
        self.assertEqual((found[0].seq, found[0].port, found[0].flags), (8, 9, 0x12))
        self.assertEqual([it.kind for it in found[::-1]], [3, RTM_NEWLINK])
        self.assertRaises(IndexError, lambda: found[2])
        self.assertEqual(repr(found), "<Datagram of 2 messages>")
        self.assertEqual(repr(found[0]), "<Message RTM_NEWLINK seq=8 port=9>")


if __name__ == "__main__":
    unittest.main()
