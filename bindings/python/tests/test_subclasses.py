"""Classes that are made of bytes, of text and of others, and say of themselves what isn't so: a
call of the library takes what they hold, and no byte behind it."""
import os
import unittest
import weakref
from ipaddress import IPv4Address, ip_address, ip_network
from typing import Any, Callable, Dict, Iterator, List, Sequence

import rtnl
from rtnl import Builder, Datagram, LinkHead, Session, Stream
from shared import attr, done, link, message

LINK = message(16, link(7, attr(3, b"eth0\0"))) + done()
ADD, SET = rtnl.Operation.ADD, rtnl.Operation.SET


class Long(bytes):
    """Bytes that say that they are more."""

    def __len__(self) -> int:
        return 65536


class Short(bytes):
    """Bytes that say that they are fewer, and other ones."""

    def __len__(self) -> int:
        return 4

    def __iter__(self) -> Iterator[int]:
        return iter((1, 2, 3, 4))

    def __getitem__(self, _: Any) -> Any:
        return 0

    def __bytes__(self) -> bytes:
        return b"1234"


class Text(str):
    """A text that is encoded as bytes that say that they are more."""

    def encode(self, *_: Any) -> bytes:
        return Long(str(self).encode())


class Path(os.PathLike):  # type: ignore[type-arg]
    """The same of a path."""

    def __fspath__(self) -> Any:
        return Long(b"eth0")


class Packed(IPv4Address):
    """An address whose bytes say that they are more."""

    @property
    def packed(self) -> bytes:
        return Long(super().packed)


class Growing(Dict[int, int]):
    """Metrics that say that they are more each time."""

    said = 0

    def __len__(self) -> int:
        self.said += 100
        return self.said


class Hops(List[rtnl.NextHopRequest]):
    """Next hops that do so."""

    said = 0

    def __len__(self) -> int:
        self.said += 100
        return self.said


class WideHead(LinkHead):
    """A head whose bytes say that they are more."""

    def packed(self, order: Any) -> bytes:
        return Long(super().packed(order))


def fed(dump: Any, data: Any) -> Any:
    """What a dump says when it was fed."""
    dump.begin(16, seq=1, port=12345)
    found = dump.feed(data)
    return found.ignored, found.ended, dump.status()


def shown(data: Any) -> List[Any]:
    """What the messages of a datagram hold."""
    return [bytes(it.body) for it in Datagram(data)]


def built(put: Callable[[Builder], None], head: LinkHead = LinkHead()) -> bytes:
    """A link into which something was put."""
    builder = Builder(room=1024)
    with builder.message(16, head):
        put(builder)
    return builder.finish()


class Subclasses(unittest.TestCase):
    def test_datagrams(self) -> None:
        calls: Sequence[Callable[[Any], Any]] = (
            rtnl.scan,
            rtnl.tape,
            rtnl.check,
            rtnl.show,
            shown,
            lambda data: fed(Session(), data),
            lambda data: fed(Stream(), data),
        )
        for kind in (Long, Short):
            for call in calls:
                self.assertEqual(call(kind(LINK)), call(LINK))

    def test_keys(self) -> None:
        with Session() as session:
            fed(session, LINK)
            key = session.links.key(0)
            for kind in (Long, Short):
                self.assertEqual(getattr(session.links.find(kind(key)), "name", None), "eth0")

    def test_what_is_put(self) -> None:
        for kind in (Long, Short):
            found = built(lambda builder: builder.put(1, kind(b"abc")))
            self.assertEqual(found, built(lambda builder: builder.put(1, b"abc")))
        wanted = built(lambda builder: builder.put(1, bytes((192, 0, 2, 1))))
        address = Packed("192.0.2.1")
        self.assertEqual(built(lambda builder: builder.put_address(1, address)), wanted)
        one, other = Builder(), Builder()
        one.put_message(3, Long(b"abcd"))
        other.put_message(3, b"abcd")
        self.assertEqual(one.finish(), other.finish())

    def test_texts(self) -> None:
        wanted = built(lambda builder: builder.put(3, b"eth0\0"))
        texts: Sequence[Any] = (Long(b"eth0"), Short(b"eth0"), Text("eth0"), Path())
        for text in texts:
            self.assertEqual(built(lambda builder: builder.put_text(3, text)), wanted)
            found, same = (rtnl.LinkRequest(name=it).packed(SET) for it in (text, "eth0"))
            self.assertEqual(found, same)

    def test_heads(self) -> None:
        nothing: Callable[[Builder], None] = lambda builder: None
        self.assertEqual(built(nothing, WideHead(index=7)), built(nothing, LinkHead(index=7)))

    def test_requests(self) -> None:
        to, by = ip_network("192.0.2.0/24"), ip_address("192.0.2.1")
        hop = rtnl.NextHopRequest(by)
        wanted = rtnl.RouteRequest(to, by, metrics={2: 1400}, hops=[hop])
        hops = Hops([rtnl.NextHopRequest(Packed("192.0.2.1"))])
        found = rtnl.RouteRequest(to, Packed("192.0.2.1"), metrics=Growing({2: 1400}), hops=hops)
        self.assertEqual(found.packed(ADD), wanted.packed(ADD))
        mac = bytes(6)
        one, other = (rtnl.LinkRequest(hardware_address=it) for it in (Long(mac), mac))
        self.assertEqual(one.packed(ADD), other.packed(ADD))

    def test_a_builder_that_is_made_anew_inside_of_a_call(self) -> None:
        """The call that lasts writes to the buffer that it was begun with."""
        builder, stays = Builder(), []

        class Again:
            """A number of which the builder is made anew whenever a call asks for it."""

            def __index__(self) -> int:
                buffer = weakref.ref(builder._buffer)
                Builder.__init__(builder)
                stays.append(buffer() is not None)
                return 16

        kind: Any = Again()
        builder.begin(kind, LinkHead())
        # The last one is asked for when the pointer to the builder was handed over.
        self.assertTrue(stays[-1])


if __name__ == "__main__":
    unittest.main()
