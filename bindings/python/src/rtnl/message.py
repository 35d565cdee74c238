"""The messages of a datagram."""
import struct
from itertools import repeat
from typing import (
    TYPE_CHECKING,
    Dict,
    Iterator,
    List,
    Optional,
    Sequence,
    Type,
    TypeVar,
    Union,
    overload,
)

from ._families import context_of
from ._heads import Heads
from .attributes import Attributes
from .constants import NLMSG_ERROR
from .names import type_name
from .values import number

if TYPE_CHECKING:
    from ._view import View

# struct nlmsghdr
HEADER = {"little": struct.Struct("<IHHII"), "big": struct.Struct(">IHHII")}
HEADER_SIZE = HEADER["little"].size
# The first field of struct nlmsgerr.
ERRNO = {"little": struct.Struct("<i"), "big": struct.Struct(">i")}

V = TypeVar("V", bound="View")
VIEWS: Dict[int, Type["View"]] = {}
"""The view of each context that a message's attributes may have."""


class Message:
    """A message where it stands: its header, and what is behind it."""

    __slots__ = ("_heads", "_at", "_end", "place", "size", "kind", "context")

    place: int
    """The offset of its header in the datagram, in bytes."""
    size: int
    """Bytes of its body."""
    kind: int
    """Its type, as RTM_NEWLINK."""
    context: int
    """What its attributes' numbers mean: `enum rtnlc_context`; 0 where it has none."""

    def __init__(self, heads: Heads, at: int, end: int) -> None:
        self._heads, self._at, self._end = heads, at, end
        self.place, self.size, self.kind, _, _, _, _ = heads.fields(at)
        self.context = context_of(self.kind)

    def __repr__(self) -> str:
        return f"<Message {self.name or self.kind} seq={self.seq} port={self.port}>"

    @property
    def name(self) -> Optional[str]:
        """The name of its type in the kernel's headers, as RTM_NEWLINK; None of another's."""
        return type_name(self.kind)

    def _header(self, field: int) -> int:
        """A field of its header, by the field's number."""
        heads = self._heads
        found: int = HEADER[heads.order].unpack_from(heads.data, self.place)[field]
        return found

    @property
    def flags(self) -> int:
        """The bits NLM_F_*."""
        return self._header(2)

    @property
    def seq(self) -> int:
        """The sequence number, that of the request which it answers."""
        return self._header(3)

    @property
    def port(self) -> int:
        """The port id."""
        return self._header(4)

    @property
    def body(self) -> memoryview:
        """What is behind the header, not copied."""
        begin = self.place + HEADER_SIZE
        return memoryview(self._heads.data)[begin : begin + self.size]

    @property
    def error(self) -> Optional[int]:
        """The number in an NLMSG_ERROR: 0 where it acknowledges a request, else the errno for
        which the kernel refused one. None of other messages."""
        body = bytes(self.body[:4]) if self.kind == NLMSG_ERROR else b""
        found = number(body, ERRNO[self._heads.order])
        return None if found is None else abs(found)

    @property
    def attributes(self) -> Attributes:
        """The attributes of its body, behind the family's head; none of other messages."""
        return Attributes(self._heads, self._at + 1, self._end, 0, self.context)

    @property
    def view(self) -> Optional["View"]:
        """The message as a Link, Address, Route, Neighbour or Rule; None where it is no NEW, DEL
        or SET of these."""
        found = VIEWS.get(self.context)
        return None if found is None else found(self._heads, self._at, self._end)


class Messages(Sequence[Message]):
    """Messages one after another."""

    __slots__ = ("_heads", "_bounds")

    _heads: Heads

    def __init__(self, heads: Heads) -> None:
        self._heads = heads
        self._bounds: List[int] = heads.messages()

    def __len__(self) -> int:
        return len(self._bounds) - 1

    @overload
    def __getitem__(self, index: int) -> Message:
        ...

    @overload
    def __getitem__(self, index: slice) -> Sequence[Message]:
        ...

    def __getitem__(self, index: Union[int, slice]) -> Union[Message, Sequence[Message]]:
        found = range(len(self))[index]
        if isinstance(found, range):
            return [self[at] for at in found]
        return Message(self._heads, self._bounds[found], self._bounds[found + 1])

    def __iter__(self) -> Iterator[Message]:
        return map(Message, repeat(self._heads), self._bounds, self._bounds[1:])

    def __repr__(self) -> str:
        return f"<{type(self).__name__} of {len(self)} messages>"

    def kept(self) -> "Messages":
        """The same messages, of bytes that don't change: a copy, where these may."""
        heads = self._heads
        if isinstance(heads.data, bytes):
            return self
        return Messages(Heads(bytes(heads.data), heads.tape, heads.order))

    def views(self, kind: Type[V]) -> Iterator[V]:
        """Those that are of a family, as its views: NEW, DEL and SET of it."""
        heads, context = self._heads, kind.context
        for begin, end in zip(self._bounds, self._bounds[1:]):
            if context_of(heads.kind(begin)) == context:
                yield kind(heads, begin, end)
