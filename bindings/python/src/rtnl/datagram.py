"""Datagrams: what one receive on a netlink socket gave."""
from typing import List, NamedTuple, Optional, Tuple

from ._buffers import Indexed, Readable, readable
from ._heads import Heads
from ._library import LIBRARY
from ._structs import EVENT
from ._structs import Taped as _Taped
from ._tape import borrow
from .errors import Code, place_of, require
from .limits import STANDARD, Limits
from .message import Messages


class Scanned(NamedTuple):
    """What a scan says of a datagram."""

    code: Code
    """OK where no head breaks a rule."""
    place: Optional[int]
    """Of the first fault, in bytes."""
    visits: int
    """How many attribute bytes were visited: at most the depth limit plus one times its bytes."""


class Event(NamedTuple):
    """A head: `struct rtnlc_event`."""

    place: int
    """Its offset in the datagram, in bytes."""
    size: int
    """Bytes behind it, without padding."""
    number: int
    """A message's type; an attribute's without its two flag bits; 0 of a next hop."""
    level: int
    """0 for messages and for the attributes of a body; one more in each container."""
    sort: int
    """`enum rtnlc_sort`: 0 a message, 1 bytes, 2 a list, 3 next hops, 4 a next hop."""
    nested: bool
    """NLA_F_NESTED"""
    net: bool
    """NLA_F_NET_BYTEORDER"""


class Taped(NamedTuple):
    """What a scan says of a datagram, and its heads: where there is a fault, those before it, and
    that of a container which is too long or too deep itself."""

    code: Code
    place: Optional[int]
    visits: int
    events: List[Event]


def scan(data: Readable, limits: Limits = STANDARD) -> Scanned:
    """Says whether a datagram is accepted, or where its first fault is."""
    read, pointer = readable(data)
    found = LIBRARY.rtnlc_scan(pointer, len(read), limits.pointer)
    return Scanned(Code(found.code), place_of(found.code, found.place), found.visits)


def tape(data: Readable, limits: Limits = STANDARD) -> Taped:
    """The same, with an event of each head."""
    _, taped, events = _taped(data, limits)
    found = [Event(*it) for it in EVENT.iter_unpack(events)]
    return Taped(Code(taped.code), place_of(taped.code, taped.place), taped.visits, found)


class Datagram(Messages):
    """The messages of a datagram, each of whose heads keeps the rules. Of one that doesn't an
    Error is raised, with the code and the place of the first fault.

    Nothing is copied of the bytes: they stay as they are while the datagram, or anything of it, is
    in use. The messages, their attributes and their values are read when they are asked for.

    >>> for message in Datagram(bytes.fromhex("1400000003000200010000003930000000000000")):
    ...     print(message.kind, message.seq, message.port)
    3 1 12345
    >>> Datagram(bytes(4))
    Traceback (most recent call last):
    rtnl.errors.Error: cut at 0
    """

    __slots__ = ("visits",)

    visits: int
    """How many attribute bytes were visited."""

    def __init__(self, data: Readable, limits: Limits = STANDARD) -> None:
        read, taped, events = _taped(data, limits)
        if taped.code:
            require(taped.code, taped.place)
        self.visits = taped.visits
        super().__init__(Heads(read, events, limits.order))


def _taped(data: Readable, limits: Limits) -> Tuple[Indexed, _Taped, bytes]:
    """The bytes of a datagram, what the library answers, and its events."""
    read, pointer = readable(data)
    size = len(read)
    room = borrow(size, limits.datagram)
    taped = LIBRARY.rtnlc_tape(pointer, size, limits.pointer, room.events, room.count)
    return read, taped, room.taken(taped.count)
