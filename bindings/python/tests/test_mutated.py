"""Mutated datagrams: the verdict on each is that of `rtnlc_scan`, with code and place; all that is
said of the whole ones can be asked for; and nothing but the package's own exception is raised.

MUTATIONS is how many there are.
"""
import os
import random
import unittest
from collections import Counter
from typing import Iterator, List, Optional

import rtnl
import shared
from rtnl import Attribute, Attributes, Code, Datagram, Dump, Error, Items, Limits
from rtnl import Session, Stream
from rtnl._view import View
from rtnl.message import VIEWS
from shared import attr, message, route

COUNT = int(os.environ.get("MUTATIONS", 100_000))
GETTERS = "u8 u16 u32 u64 text address hardware_address as_bytes".split()
PROPERTIES = {
    kind: [it for it, found in vars(kind).items() if isinstance(found, property)]
    for kind in VIEWS.values()
}
DEEP = attr(0x8001, attr(0x8002, attr(0x8003, attr(0x8004, attr(0x8005, attr(0x8006, b""))))))


def seeds() -> List[bytes]:
    """The messages of the recordings, each alone, and some that hold more in one another."""
    found = {message(24, route(2, 8, attr(9, b"\x10\0\0\1\7\0\0\0" + attr(5, b"\1\2\3\4"))))}
    found.add(message(16, b"\0" * 16 + DEEP))
    found.add(message(16, b"\0" * 16 + attr(18, attr(1, b"veth\0") + attr(2, DEEP)) + DEEP))
    for name in [*shared.DUMPS, "examples/changes"]:
        for line in shared.recording(name):
            for event in rtnl.tape(line).events:
                if event.sort == 0 and event.size < 600:
                    found.add(line[event.place : event.place + 16 + event.size])
    return sorted(found)


class Generator:
    """The same mutations of these seeds in each run."""

    def __init__(self, own: List[bytes]) -> None:
        self.seeds, self.choose = own, random.Random(20)

    def byte(self, data: bytearray) -> None:
        data[self.choose.randrange(len(data))] = self.choose.choice((0, 1, 4, 8, 18, 128, 255))

    def length(self, data: bytearray) -> None:
        """A number of two bytes where one may stand, made another near it, or what is left."""
        at = self.choose.randrange(0, len(data) - 1, 2)
        near = (
            data[at] + self.choose.choice((-4, -1, 1, 4)),
            len(data) - at,
            self.choose.randrange(64),
        )
        data[at : at + 2] = (self.choose.choice(near) & 0xFFFF).to_bytes(2, "little")

    def flag(self, data: bytearray) -> None:
        """The flag NESTED of what may be an attribute."""
        at = self.choose.randrange(3, len(data), 4)
        data[at] ^= 0x80

    def cut(self, data: bytearray) -> None:
        del data[self.choose.randrange(1, len(data)) :]

    def put(self, data: bytearray) -> None:
        """Words of another one, with the length of the message mended."""
        other = self.choose.choice(self.seeds)
        begin, at = self.choose.randrange(0, len(other), 4), self.choose.randrange(
            16, len(data) + 16, 4
        )
        data[at:at] = other[begin : begin + self.choose.randrange(4, 40, 4)]
        data[:4] = len(data).to_bytes(4, "little")

    def more(self, data: bytearray) -> None:
        """A message behind it."""
        data += bytes(-len(data) % 4) + self.choose.choice(self.seeds)

    def datagrams(self, count: int) -> Iterator[bytes]:
        ways = self.byte, self.length, self.flag, self.cut, self.put, self.more
        for number in range(count):
            data = bytearray(self.choose.choice(self.seeds))
            ways[self.choose.randrange(len(ways))](data)
            if number % 3 == 0 and len(data) >= 8:
                ways[self.choose.randrange(len(ways))](data)
            yield bytes(data)


def ask_attribute(found: Attribute) -> None:
    for getter in GETTERS:
        getattr(found, getter)()
    assert found.payload.nbytes >= 0 and 0 <= found.number < 1 << 14
    ask_attributes(found.attributes)
    for hop in found.hops or ():
        assert repr(hop) and hop.weight and hop.flags >= 0
        ask_attributes(hop.attributes)


def ask_attributes(found: Optional[Attributes]) -> None:
    for it in found or ():
        ask_attribute(it)


def ask_view(view: View) -> None:
    for name in PROPERTIES[type(view)]:
        found = getattr(view, name)
        if isinstance(found, (rtnl.Prefix, rtnl.HardwareAddress)):
            assert isinstance(str(found), str)
    assert repr(view)


def ask(datagram: Datagram) -> None:
    """Asks for all that is said of a datagram."""
    for it in datagram:
        assert it.seq >= 0 and it.port >= 0 and it.flags >= 0 and it.body.nbytes == it.size
        view = it.view
        if view is not None:
            ask_view(view)
        ask_attributes(it.attributes)


class Mutated(unittest.TestCase):
    def test_all(self) -> None:
        limits, codes = Limits(depth=4), Counter[Code]()
        for data in Generator(seeds()).datagrams(COUNT):
            scanned = rtnl.scan(data, limits)
            codes[scanned.code] += 1
            try:
                datagram = Datagram(data, limits)
            except Error as error:
                self.assertEqual((error.code, error.place), scanned[:2], data.hex())
            else:
                self.assertEqual((scanned.code, datagram.visits), (0, scanned.visits), data.hex())
                ask(datagram)
        # Each verdict came up often enough to say something.
        for code in Code.OK, Code.CUT, Code.BAD_LENGTH, Code.SHORT_BODY, Code.TOO_DEEP:
            self.assertGreater(codes[code], COUNT // 1000, codes)

    def test_sessions_and_streams(self) -> None:
        """The same, of dumps: they refuse what a scan refuses, and what they keep can be read."""
        session, stream, count = Session(), Stream(), 0
        for number, data in enumerate(Generator(seeds()).datagrams(COUNT // 20)):
            wanted = rtnl.scan(data)[:2]
            for dump in (session, stream):
                begin(dump, number, data)
                try:
                    fed = dump.feed(data)
                except Error as error:
                    self.assertEqual((error.code, error.place), wanted, data.hex())
                else:
                    self.assertEqual(wanted, (Code.OK, None), data.hex())
                    views = [it.view for it in fed] if isinstance(fed, Items) else entries(session)
                    for view in views:
                        assert view is not None
                        ask_view(view)
                        count += 1
        self.assertGreater(count, COUNT // 50)


def begin(dump: Dump, number: int, data: bytes) -> None:
    """Begins a dump of which a datagram looks like an answer."""
    if dump.waiting:
        dump.abandon()
    kind = data[4] & 0xFC if len(data) > 4 and 16 <= data[4] < 36 else 16
    seq, port = (int.from_bytes(data[at : at + 4], "little") for at in (8, 12))
    try:
        dump.begin(kind, seq=seq, port=port)
    except Error as error:
        assert error.code == Code.SAME_SEQ
        dump.begin(kind, seq=1 << 31 | number, port=port)


def entries(session: Session) -> Iterator[View]:
    """All entries of all tables."""
    yield from session.links
    yield from session.addresses
    yield from session.routes
    yield from session.neighbours
    yield from session.rules


if __name__ == "__main__":
    unittest.main()
