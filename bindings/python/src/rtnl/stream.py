"""Dumps of any length, in constant space."""
from ctypes import pointer

from . import _structs
from ._buffers import Readable, readable
from ._heads import Heads
from ._library import LIBRARY
from ._tape import borrow
from .dump import Dump
from .errors import require
from .limits import STANDARD, Limits
from .message import Messages


class Items(Messages):
    """The entries of a dump that a datagram has, as messages."""

    __slots__ = ("ignored", "ended")

    ignored: int
    """How many other messages it has, which do not end the dump."""
    ended: bool
    """Whether it ended the dump."""


class Stream(Dump):
    """One dump after another, of which no table is kept: begin one, send its request, and look at
    the items of each datagram that comes back, until none waits.

        stream = Stream()
        socket.send(stream.begin(RTM_GETROUTE, seq=1, port=port))
        while stream.waiting:
            for route in stream.feed(socket.recv(65536)).views(Route):
                print(route.destination)

    Its memory doesn't grow. An interrupted dump can't be taken back: its items were handed out.
    """

    __slots__ = ()

    _begin = LIBRARY.rtnlc_stream_begin
    _abandon = LIBRARY.rtnlc_stream_abandon
    _status = LIBRARY.rtnlc_stream_status

    def __init__(self, limits: Limits = STANDARD) -> None:
        self.pointer = pointer(_structs.Stream())
        self.limits = limits
        require(LIBRARY.rtnlc_stream_new(self.pointer, limits.pointer))

    def feed(self, data: Readable) -> Items:
        """Takes a datagram into the dump that waits, and answers its items. They read the bytes of
        the datagram, which stay as they are while an item is in use.

        An Error has the code NOT_WAITING, TOTAL, TOO_LARGE, or CUT to TOO_DEEP with the place of
        the first fault. Then the dump still waits; but for NOT_WAITING it is damaged from then on,
        so that it can't be complete.
        """
        read, at = readable(data)
        room = borrow(len(read), self.limits.datagram)
        found = LIBRARY.rtnlc_stream_feed(self.pointer, at, len(read), room.events, room.count)
        events = room.taken(found.events)
        require(found.code, found.place)
        items = Items(Heads(read, events, self.limits.order))
        items.ignored, items.ended = found.ignored, found.ended
        return items
