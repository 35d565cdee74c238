"""A list keeps messages when their datagrams are gone, and a table is gone over in blocks."""
import unittest
from typing import Iterator, List

import rtnl
from rtnl import Code, Datagram, Error, Limits, MessageList, Session, Stream
from shared import attr, done, link, message

NAMES = ["lo", "eth0", "eth1", "wlan0", "br0"]
LINKS = [message(16, link(at, attr(3, name.encode()))) for at, name in enumerate(NAMES)]
PADDED = [it + bytes(-len(it) % 4) for it in LINKS]


def received(stream: Stream) -> Iterator[rtnl.Items]:
    """The items of a dump of three datagrams, which are received in the same room."""
    stream.begin(16, seq=1, port=12345)
    room = bytearray(256)
    for data in (PADDED[0] + PADDED[1], b"".join(PADDED[2:]), done()):
        room[: len(data)] = data
        yield stream.feed(memoryview(room)[: len(data)])


def kept() -> MessageList:
    found = MessageList()
    for items in received(Stream()):
        found.extend(items)
    return found


class Lists(unittest.TestCase):
    def test_what_is_kept(self) -> None:
        found = kept()
        self.assertEqual([it.name for it in found.views(rtnl.Link)], NAMES)
        self.assertEqual([it.size + 16 for it in found], [len(it) for it in LINKS])
        self.assertEqual(list(found.views(rtnl.Route)), [])
        self.assertEqual((len(found), repr(found)), (5, "<MessageList of 5 messages>"))

    def test_indexes(self) -> None:
        found = kept()
        for at in range(-5, 5):
            view = found[at].view
            assert isinstance(view, rtnl.Link)
            self.assertEqual(view.name, NAMES[at])
        self.assertRaises(IndexError, lambda: found[5])
        views: List[object] = [it.view for it in found[1:4]]
        self.assertEqual([getattr(it, "name") for it in views], NAMES[1:4])

    def test_none(self) -> None:
        for found in (MessageList(), kept()):
            found.clear()
            found.extend(Datagram(b""))
            self.assertEqual((len(found), list(found), list(found.views(rtnl.Link))), (0, [], []))
            found.extend(Datagram(LINKS[3]))
            self.assertEqual([it.name for it in found.views(rtnl.Link)], ["wlan0"])

    def test_bytes_are_not_copied(self) -> None:
        """Nothing can change them."""
        found = MessageList()
        found.extend(Datagram(LINKS[1]))
        self.assertIs(found[0].body.obj, LINKS[1])


class Blocks(unittest.TestCase):
    def filled(self, sizes: List[int]) -> Session:
        """A session whose links have an attribute of such sizes."""
        limits = Limits(datagram=1 << 18)
        session = Session(limits)
        session.begin(16, seq=1, port=12345)
        for at, size in enumerate(sizes):
            data = message(16, link(at, attr(99, bytes([at % 256]) * size)))
            session.feed(data + bytes(-len(data) % 4))
        session.feed(done())
        return session

    def test_entries_of_all_sizes(self) -> None:
        """Many in a block, one that is larger than a block, and such that end where a block ends:
        with its heads an entry has 36 bytes more."""
        many: List[List[int]] = [[8] * 2000, [60000, 8, 60000], [8], []]
        for sizes in (*many, [16384 - 36, 8], [16384 - 40, 4, 9]):
            with self.filled(sizes) as session:
                found = [(it.index, it.attributes.as_bytes(99)) for it in session.links]
                wanted = [(at, bytes([at % 256]) * size) for at, size in enumerate(sizes)]
                self.assertEqual(found, wanted)

    def test_a_session_that_is_closed_meanwhile(self) -> None:
        session = self.filled([8] * 2000)
        entries = iter(session.links)
        first = next(entries)
        session.close()
        with self.assertRaises(Error) as caught:
            list(entries)
        self.assertEqual((caught.exception.code, first.index), (Code.NO_SESSION, 0))


if __name__ == "__main__":
    unittest.main()
