"""The tables of a session."""
from ctypes import addressof, create_string_buffer, string_at
from dataclasses import replace
from itertools import count
from typing import TYPE_CHECKING, Any, Iterator, Optional, Sequence, Type, TypeVar, Union, overload

from ._buffers import Readable, readable
from ._library import LIBRARY
from ._view import View
from .datagram import Datagram
from .errors import Code, require

if TYPE_CHECKING:
    from .session import Session

V = TypeVar("V", bound=View)

# An entry is written with all its padding, so no limit of datagrams is one of entries.
LARGEST = 1 << 20
# Most entries and keys are no longer.
USUAL = 4096
# Entries are read so many bytes at a time, where all are gone over.
BLOCK = 16384


def put(call: Any, *arguments: Any) -> bytes:
    """What a call puts, in as much room as it takes."""
    size = USUAL
    while True:
        out = create_string_buffer(size)
        found = call(*arguments, out, size)
        if found.code != Code.NO_ROOM:
            require(found.code)
            return string_at(out, found.len)
        size = found.len


class Table(Sequence[V]):
    """The entries of the last dump of a family, in the order of their first appearance.

    It is a look at its session: the next dump of the family empties it, and of a session that is
    closed it raises an Error with the code NO_SESSION. An entry is a copy, and stays; its message
    is of the NEW type, in its canonical bytes, with flags, sequence number and port id 0. Going
    over all reads some entries ahead.
    """

    __slots__ = ("_session", "_view", "_kind", "_limits")

    def __init__(self, session: "Session", view: Type[V], kind: int) -> None:
        self._session, self._view, self._kind = session, view, kind
        self._limits = replace(session.limits, datagram=LARGEST)

    def _size(self) -> Any:
        found = LIBRARY.rtnlc_session_table(self._session.pointer, self._kind)
        require(found.code)
        return found

    def _entry(self, index: int) -> V:
        data = put(LIBRARY.rtnlc_session_entry, self._session.pointer, self._kind, index)
        return next(Datagram(data, self._limits).views(self._view))

    def __len__(self) -> int:
        found: int = self._size().count
        return found

    @overload
    def __getitem__(self, index: int) -> V:
        ...

    @overload
    def __getitem__(self, index: slice) -> Sequence[V]:
        ...

    def __getitem__(self, index: Union[int, slice]) -> Union[V, Sequence[V]]:
        found = range(len(self))[index]
        if isinstance(found, range):
            return [self._entry(at) for at in found]
        return self._entry(found)

    def __iter__(self) -> Iterator[V]:
        data = self._block(0)
        at = 0
        while data:
            for entry in Datagram(data, self._limits).views(self._view):
                yield entry
                at += 1
            data = self._block(at)

    def _block(self, begin: int) -> bytes:
        """The entries from an index on, one behind another: as many as a block has room for, or
        one that is larger; no bytes behind the last one."""
        call, session, kind = LIBRARY.rtnlc_session_entry, self._session.pointer, self._kind
        out = create_string_buffer(BLOCK)
        place, used = addressof(out), 0
        for at in count(begin):
            found = call(session, kind, at, place + used, BLOCK - used)
            if found.code:
                break
            used += found.len
        if found.code == Code.NO_ROOM:
            return string_at(out, used) if used else put(call, session, kind, begin)
        if found.code != Code.END:
            require(found.code)
        return string_at(out, used)

    def __repr__(self) -> str:
        return f"<Table of {self._view.__name__}>"

    @property
    def limit(self) -> int:
        """How many entries it has at most."""
        found: int = self._size().limit
        return found

    @property
    def missed(self) -> int:
        """How often a new entry found no room."""
        found: int = self._size().missed
        return found

    def key(self, index: int) -> bytes:
        """The bytes that tell an entry from all others: two entries share them exactly where they
        are the same object."""
        at = range(len(self))[index]
        return put(LIBRARY.rtnlc_session_key, self._session.pointer, self._kind, at)

    def find(self, key: Readable) -> Optional[V]:
        """The entry with this key; None where there is none."""
        read, pointer = readable(key)
        session = self._session.pointer
        found = LIBRARY.rtnlc_session_find(session, self._kind, pointer, len(read))
        if found.code == Code.END:
            return None
        require(found.code)
        return self._entry(found.index)
