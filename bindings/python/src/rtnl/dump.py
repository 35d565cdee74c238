"""What sessions and streams share: the dump that waits, its request, and where it stands."""
import enum
from ctypes import create_string_buffer
from typing import Any, ClassVar, Dict, NamedTuple, Protocol

from ._buffers import Readable, within
from ._library import LIBRARY
from .errors import require
from .limits import STANDARD, Limits

# Room for any request: RTNLC_REQUEST.
REQUEST = 32


class State(enum.IntEnum):
    """How far a dump has come: `enum rtnlc_state`."""

    IDLE = 0
    """No dump was begun."""
    WAITING = 1
    """The last one waits for its answers."""
    DONE = 2
    """It has ended by DONE; a status of 0 or more is no failure."""
    FAILED = 3
    """By ERROR, whose code is not 0."""
    OVERRUN = 4
    """By OVERRUN: the kernel lost some of it."""
    ABANDONED = 5
    """By the caller."""


class Status(NamedTuple):
    """Where the last dump of a session or a stream stands."""

    received: int
    """Bytes of all datagrams that were looked at, since it was made."""
    visits: int
    """Attribute bytes visited in them: at most the depth limit plus one times those received."""
    ignored: int
    """Messages of the dump that were neither entries nor its end."""
    seq: int
    port: int
    status: int
    """Of DONE, 0 where it has none; or the code of ERROR, a negative errno."""
    kind: int
    """The NEW type of the dump's family, as RTM_NEWLINK."""
    family: int
    """The address family that it asked for."""
    state: State
    damaged: bool
    """A datagram of it was refused."""
    interrupted: bool
    """The kernel's table changed meanwhile: dump again."""
    complete: bool
    """It ended by DONE with no failure, was neither damaged nor interrupted, and the table of a
    session missed no entry."""

    @property
    def error(self) -> int:
        """The errno by which the kernel refused the dump, or 0."""
        is_refused = self.state in (State.DONE, State.FAILED) and self.status < 0
        return -self.status if is_refused else 0


class Taken(Protocol):
    """What a datagram was to the dump that waits."""

    @property
    def ignored(self) -> int:
        """Messages that are neither entries of the dump nor its end."""

    @property
    def ended(self) -> bool:
        """One of them ended the dump."""


class Dump:
    """One dump after another: a Session or a Stream."""

    __slots__ = ("pointer", "limits")

    pointer: Any
    """To the struct of the library. It is for calls of the package."""
    limits: Limits
    """Those that it was made with."""
    # The calls of the library.
    _begin: ClassVar[Any]
    _abandon: ClassVar[Any]
    _status: ClassVar[Any]

    def begin(self, kind: int, family: int = 0, *, seq: int, port: int) -> bytes:
        """Begins a dump, and answers its request.

        `kind` is any message type of the family, as RTM_GETLINK; `family` an address family, or 0
        for all; `seq` another number than that of the dump before; `port` the port id that the
        answers carry, which is that of the socket. Of a session the table of the family is
        emptied, and the others stay. An Error has the code NO_KIND, BUSY or SAME_SEQ, of a session
        also NO_MEMORY or NO_SESSION, and then nothing has happened.
        """
        check_request(kind, family, seq=seq, port=port)
        return put_request(self._begin, self.pointer, kind, family, seq, port)

    def feed(self, data: Readable) -> Taken:
        """Takes a datagram into the dump that waits."""
        raise NotImplementedError

    def abandon(self) -> None:
        """Ends the dump that waits, as abandoned. An Error where none waits."""
        require(self._abandon(self.pointer))

    def status(self) -> Status:
        """Where the last dump stands. Of a closed session an Error with the code NO_SESSION."""
        found = self._status(self.pointer)
        require(found.code)
        values: Dict[str, Any] = {name: getattr(found, name) for name in Status._fields}
        values["state"] = State(found.state)
        return Status(**values)

    @property
    def waiting(self) -> bool:
        """Whether a dump waits for more datagrams."""
        found = self._status(self.pointer)
        require(found.code)
        is_waiting: bool = found.state == State.WAITING
        return is_waiting


def check_request(kind: int, family: int, **numbers: int) -> None:
    """Raises a ValueError where a number of a request doesn't fit its field."""
    within(16, kind=kind)
    within(8, family=family)
    within(32, **numbers)


def put_request(call: Any, *arguments: Any) -> bytes:
    """The request that a call puts."""
    out = create_string_buffer(REQUEST)
    put = call(*arguments, out, REQUEST)
    require(put.code)
    return out.raw[: put.len]


def request(kind: int, family: int = 0, seq: int = 0, limits: Limits = STANDARD) -> bytes:
    """The request of a dump: of any message type of a family, as RTM_GETLINK, for an address
    family, or 0 for all. An Error with the code NO_KIND for a type of no family that is dumped."""
    check_request(kind, family, seq=seq)
    return put_request(LIBRARY.rtnlc_request, kind, family, seq, limits.big)
