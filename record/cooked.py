"""Packets of captures. One of netlink is a datagram behind 16 bytes, of which the last two are the
netlink protocol, highest byte first."""
from typing import Dict, Iterator, Optional

import netlink
from output import LONGEST, Damaged, Item, Note, cut, when
from source import Source

NETLINK = 253  # LINKTYPE_NETLINK
COOKED = 16
ROUTE = 0  # NETLINK_ROUTE


class Packets:
    """Takes the datagrams for rtnetlink out of packets, and counts all others."""

    def __init__(self) -> None:
        self.others: Dict[str, int] = {}

    def items(self, source: Source, place: str, link_type: int, kept: int, size: int,
              time: Optional[int] = None) -> Iterator[Item]:
        """What a packet gives that begins at the place, of which so many bytes come next. Its time
        is in microseconds."""
        packet = f"a packet of {kept} bytes"
        if link_type != NETLINK:
            self.leave(f"link type {link_type}")
            source.skip(kept, place, packet)
            return
        if kept < COOKED or kept > size:
            raise Damaged(f"{place}: {kept} bytes of a netlink packet of {size}")
        protocol = int.from_bytes(source.exactly(COOKED, place, packet)[-2:], "big")
        if protocol != ROUTE:
            self.leave(f"netlink protocol {protocol}")
            source.skip(kept - COOKED, place, packet)
            return
        if kept - COOKED > LONGEST:
            raise Damaged(f"{place}: a datagram of {kept - COOKED} bytes, above {LONGEST}")
        data = source.exactly(kept - COOKED, place, packet)
        yield from when(time)
        if kept < size:
            yield from cut(f"{place}: ", data, size - COOKED)
        else:
            yield from netlink.sent(data)

    def leave(self, sort: str) -> None:
        self.others[sort] = self.others.get(sort, 0) + 1

    def counted(self, found: Iterator[Item]) -> Iterator[Item]:
        """What is found, and how many packets were left out up to its end, or to the damage."""
        try:
            yield from found
        except Damaged:
            yield from self.notes()
            raise
        yield from self.notes()

    def notes(self) -> Iterator[Note]:
        for sort, count in self.others.items():
            yield Note(f"left out: {count} packet{'s' if count > 1 else ''} of {sort}")
