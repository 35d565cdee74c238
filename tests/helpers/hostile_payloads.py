"""Payloads that are hostile to what they mean: levels, kinds that lie, structs a byte short or
long, texts that are none, lists that end too early. They are the same in each run, and made by the
second reading alone.
"""
import itertools
import random
import struct
from typing import Iterator, List, Sequence, Tuple

import counting
import reference
from payloads import IDS, Maker, Place, message_of, places
from reference import ATTRIBUTE, NESTED, NET
from reference_data import Row

# Attributes of a link, of its LINKINFO, and of traffic control.
IFNAME, LINKINFO, AF_SPEC, PORT_NAME, ALT_IFNAME = 3, 18, 26, 38, 53
KIND, DATA, XSTATS, SLAVE_KIND, SLAVE_DATA = 1, 2, 3, 4, 5
ENCAP_TYPE, ENCAP, TC_KIND, TC_OPTIONS, TC_XSTATS, TC_STATS2, STATS_APP = 21, 22, 1, 2, 4, 7, 4
LINK, ROUTE, QDISC, FILTER = 16, 24, 36, 44
# UTF-8 that is whole, half, overlong, a surrogate, or beyond the last character; and controls.
TEXTS = """
61 c3a9 c3 c3a9c3 a9 c280 c29f c2a0 e282ac e282 e2 f09f9880 f09f98 f09f f0 c080 c1bf e08080
e09fbf eda080 edbfbf ee8080 efbfbf f0808080 f48fbfbf f4908080 f5808080 ff fe 7f 1f 20 22 5c
2f 6100 610000 610061 6100c3 00 0000 0061 0a 0d 09 610a c28561 6ec3b1 e280a8 e280ae
""".split()

# One of so many places is tried at its edges.
STEP = 1 if counting.IS_WHOLE else 7

# A number with flags, and a payload.
Item = Tuple[int, bytes]


class Builder:
    """Builds messages of one byte order."""

    def __init__(self, order: str):
        self.order = order
        self.maker = Maker(random.Random(f"hostile payloads {order}"), order)

    def list(self, *items: Item) -> bytes:
        found = (reference.item(ATTRIBUTE, (kind,), text, self.order) for kind, text in items)
        return b"".join(found)

    def message(self, kind: int, *items: Item, family: int = 0) -> bytes:
        sizes = {QDISC: 20, FILTER: 20, ROUTE: 12, LINK: 16}
        text = bytes([family]) + bytes(sizes[kind] - 1) + self.list(*items)
        return reference.item(reference.MESSAGE, (kind, 2, *IDS), text, self.order)

    def link(self, *items: Item, family: int = 0) -> bytes:
        return self.message(LINK, *items, family=family)

    def of_kind(self, kind: bytes, *data: Item) -> bytes:
        """A link of a kind, with this in its data."""
        return self.link((LINKINFO, self.list((KIND, kind), (DATA, self.list(*data)))))

    # Levels.

    def peer(self, levels: int, flags: int) -> bytes:
        """Links in links: each is the peer of the one around it."""
        text = self.list((IFNAME, b"a\0"))
        for _ in range(levels):
            peer = self.list((1 | flags, bytes(16) + text))
            info = self.list((KIND, b"veth\0"), (DATA | flags, peer))
            text = self.list((LINKINFO | flags, info))
        return text

    def deep(self) -> Iterator[bytes]:
        for levels in (*range(12), 20, 40):
            inner = self.peer(levels, 0)
            yield self.of_kind(b"veth", (1, bytes(16) + inner))
            yield self.link((LINKINFO, self.peer(levels, NESTED)))
            for flags in (0, NESTED):
                nests = b""
                for _ in range(levels):
                    nests = self.list((2 | flags, nests))
                yield self.link((AF_SPEC, nests))
                yield self.link((AF_SPEC, nests), family=7)
                yield self.message(QDISC, (TC_KIND, b"htb\0"), (TC_OPTIONS, nests))
                yield self.message(QDISC, (9, nests))
        yield from self.actions()

    def actions(self) -> Iterator[bytes]:
        """Actions, whose options hold lists in lists: some more levels than are shown."""
        text = self.list((1, bytes(20)))
        for kind in (b"gact", b"pedit", b"tunnel_key", b"none"):
            again = (1, b"") if kind == b"none" else (3, b"")
            one = self.list((1, kind), (2, text), (9, text), again)
            options = self.list(*[(3, self.list((1, one), (2, one), (0, one)))])
            yield self.message(FILTER, (TC_KIND, b"basic\0"), (TC_OPTIONS, options))

    # Kinds.

    def kinds(self) -> Iterator[bytes]:
        vlan = self.list((1, b"\1\0"), (2, b"\1\0\0\0\1\0\0\0"))
        kinds = [b"vlan\0", b"vlan", b"vlan\0\0\0", b"vlan\0junk", b"VLAN", b"vlan ", b"vla"]
        kinds += [b"bond\0", b"vxlan\0", b"", b"\0", b"\xff", b"*", b"clsact", b"none"]
        for kind in kinds:
            one, data = (KIND, kind), (DATA, vlan)
            for items in ((one, data), (data, one), (one, one, data), (one, data, one),
                          (one, (KIND, b"vlan\0"), data), ((KIND | NESTED, kind), data),
                          ((KIND | NET, kind), data), (one, (DATA | NESTED, vlan)),
                          (one, (DATA | NET, vlan)), (one, (DATA, vlan + b"\1")),
                          (one, *[data] * 5, (XSTATS, bytes(24)), (SLAVE_DATA, vlan)),
                          ((SLAVE_KIND, kind), data), ((SLAVE_KIND, kind), (SLAVE_DATA, vlan))):
                yield self.link((LINKINFO, self.list(*items)))
                yield self.of_kind(b"veth", (2, self.list((LINKINFO, self.list(*items)))))
        yield from self.kinds_of_traffic()
        yield from self.numbers_that_choose()

    def kinds_of_traffic(self) -> Iterator[bytes]:
        stats = self.list((1, bytes(16)), (STATS_APP, bytes(20)), (3, bytes(20)))
        for kind in b"codel\0 pie mq clsact\0 pfifo sfq netem\0 cake ?".split():
            one = TC_KIND, kind
            for text in (b"", b"\0", bytes(4), bytes(16), bytes(24), bytes(30), stats):
                inside = self.list((STATS_APP, text))
                options = (TC_OPTIONS, text), (TC_XSTATS, text), (TC_STATS2, inside)
                for items in ((one, *options), (*options, one), (one, one, *options), options):
                    yield self.message(QDISC, *items)
            yield self.message(QDISC, one, (TC_STATS2, stats), one)
            yield self.message(QDISC, one, (TC_STATS2, self.list(one, (STATS_APP, bytes(16)))))

    def numbers_that_choose(self) -> Iterator[bytes]:
        """Kinds that are numbers, of any length, and families."""
        text = self.list((1, b"\0\0\0\1"), (2, bytes(4)), (3, bytes(16)))
        for number, size in itertools.product((0, 1, 2, 5, 7, 8, 256, 2**32 - 1), "BHIQ"):
            if number < 256 ** struct.calcsize(size):
                kind = struct.pack(self.order + size, number)
                one, encap = (ENCAP_TYPE, kind), (ENCAP, text)
                for items in ((one, encap), (encap, one), (one, one, encap), (one, *[encap] * 6)):
                    yield self.message(ROUTE, *items, family=2)
        yield self.message(ROUTE, (ENCAP_TYPE, b"\1\0\0"), (ENCAP, text))
        nested = self.list((2, self.list((2, bytes(12)), (8, bytes(16)))), (10, text), (0, text))
        for family, count in itertools.product((0, 2, 7, 10, 128, 129, 255), (1, 4, 5, 6)):
            yield self.link(*[(AF_SPEC, nested)] * count, (12, nested), family=family)

    # Texts, flags and lists.

    def texts(self) -> Iterator[bytes]:
        every = [bytes.fromhex(it) for it in TEXTS]
        every += [bytes([it]) for it in range(256)] + [b"a" + it + b"z" for it in every]
        for text in every:
            yield self.link((IFNAME, text), (PORT_NAME, text), (52, self.list((ALT_IFNAME, text))))
            yield self.message(QDISC, (TC_KIND, text), (11, text))

    def lists(self) -> Iterator[bytes]:
        """Lists of many attributes, and lists that end in a header or in padding."""
        for count in (1, 255, 4000):
            empty = self.list(*[(number % 9, b"") for number in range(count)])
            yield self.of_kind(b"bond", (8, empty), (31, empty))
            yield self.message(FILTER, (TC_KIND, b"basic"), (TC_OPTIONS, self.list((3, empty))))
            yield self.message(FILTER, (TC_KIND, b"basic"), (TC_OPTIONS, empty))
            yield self.link((AF_SPEC, self.list((2, self.list((1, empty), (3, empty))))))
        whole = self.list((1, b"\1"), (13, bytes(4)))
        head = struct.Struct(self.order + ATTRIBUTE)
        ends = [bytes(count) for count in range(1, 5)]
        ends += [whole[:count] for count in range(len(whole))]
        ends += [head.pack(length, 13) + bytes(4) for length in (0, 3, 4, 5, 8, 9, 65535)]
        for end in ends:
            yield self.link((LINKINFO, self.list((KIND, b"bond"), (DATA, whole + end))))
            yield self.link((AF_SPEC, whole + end), (AF_SPEC, self.list((2, whole + end))))
            yield self.message(QDISC, (TC_KIND, b"htb"), (TC_OPTIONS, whole + end))

    # Each attribute at its edges.

    def at_edges(self) -> Iterator[bytes]:
        """Each attribute with payloads around the length that it has, and with flags."""
        for place, number, row in itertools.islice(places(self.order), 0, None, STEP):
            text = self.maker.fitting(row, 2)
            texts = text[:-1], text + b"\0", bytes(3), b""
            kinds = number | NESTED, number | NET, number | NESTED | NET
            for items in (*([(number, it)] for it in texts), *([(kind, text)] for kind in kinds)):
                yield self.of_place(place, row, items)

    def of_place(self, place: Place, row: Row, items: Sequence[Item]) -> bytes:
        return message_of(place, self.list(*place.beside, *items), self.maker)


def groups(order: str) -> List[Tuple[str, List[bytes]]]:
    """The name of each group of datagrams, and these."""
    build = Builder(order)
    return [
        ("payloads of many levels", [*build.deep()]),
        ("payloads whose kind lies", [*build.kinds()]),
        ("payloads of no text", [*build.texts()]),
        ("lists that end too early", [*build.lists()]),
        ("payloads at their edges", [*build.at_edges()]),
    ]
