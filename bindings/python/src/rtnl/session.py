"""Dumps, read into bounded tables."""
from ctypes import pointer
from types import TracebackType
from typing import NamedTuple, Optional, Type

from . import _structs
from ._buffers import Readable, readable
from ._library import LIBRARY
from .address import Address
from .constants import RTM_NEWADDR, RTM_NEWLINK, RTM_NEWNEIGH, RTM_NEWROUTE, RTM_NEWRULE
from .dump import Dump
from .errors import require
from .limits import STANDARD, Limits
from .link import Link
from .neighbour import Neighbour
from .route import Route
from .rule import Rule
from .table import Table


class Fed(NamedTuple):
    """What a datagram was to the dump that a session waits for."""

    items: int
    """Messages that are entries of the dump, those too that its table missed."""
    ignored: int
    """Messages that are neither that nor its end."""
    ended: bool
    """One of them ended the dump."""


class Session(Dump):
    """One dump after another: begin one, send its request, feed what comes back until none waits,
    and look at the table.

        with Session() as session:
            socket.send(session.begin(RTM_GETLINK, seq=1, port=port))
            while session.waiting:
                session.feed(socket.recv(65536))
            if not session.status().complete:
                raise RuntimeError(f"no whole dump: {session.status()}")
            for link in session.links:
                print(link.name, link.mtu)

    It opens no socket. Its tables hold memory until it is closed, which leaving a `with` does, and
    its end in any case. Any thread may call; without the interpreter's lock, only one at a time.
    """

    __slots__ = ("__weakref__",)

    _begin = LIBRARY.rtnlc_session_begin
    _abandon = LIBRARY.rtnlc_session_abandon
    _status = LIBRARY.rtnlc_session_status
    # While the interpreter ends, the module may be gone before the last session.
    _free = LIBRARY.rtnlc_session_free

    def __init__(self, limits: Limits = STANDARD) -> None:
        self.pointer = pointer(_structs.Session())
        self.limits = limits
        require(LIBRARY.rtnlc_session_new(self.pointer, limits.pointer))

    def feed(self, data: Readable) -> Fed:
        """Takes a datagram into the dump that waits: all of its entries, or none.

        An Error has the code NOT_WAITING, TOTAL, TOO_LARGE, CUT to TOO_DEEP with the place of the
        first fault, NO_MEMORY or NO_SESSION. Then the tables are as they were, and the dump still
        waits; but for NOT_WAITING it is damaged from then on, so that it can't be complete.
        """
        read, at = readable(data)
        found = LIBRARY.rtnlc_session_feed(self.pointer, at, len(read))
        require(found.code, found.place)
        return Fed(found.items, found.ignored, found.ended)

    @property
    def links(self) -> Table[Link]:
        """The links of the last dump of links."""
        return Table(self, Link, RTM_NEWLINK)

    @property
    def addresses(self) -> Table[Address]:
        """The addresses of the last dump of addresses."""
        return Table(self, Address, RTM_NEWADDR)

    @property
    def routes(self) -> Table[Route]:
        """The routes of the last dump of routes."""
        return Table(self, Route, RTM_NEWROUTE)

    @property
    def neighbours(self) -> Table[Neighbour]:
        """The neighbours of the last dump of neighbours."""
        return Table(self, Neighbour, RTM_NEWNEIGH)

    @property
    def rules(self) -> Table[Rule]:
        """The rules of the last dump of rules."""
        return Table(self, Rule, RTM_NEWRULE)

    def close(self) -> None:
        """Gives back what it holds. Closing it again does nothing; all else raises an Error with
        the code NO_SESSION then."""
        self._free(self.pointer)

    def __enter__(self) -> "Session":
        return self

    def __exit__(
        self,
        kind: Optional[Type[BaseException]],
        error: Optional[BaseException],
        trace: Optional[TracebackType],
    ) -> None:
        self.close()

    def __del__(self) -> None:
        # One that was not made in full has nothing.
        if hasattr(self, "pointer"):
            self.close()
