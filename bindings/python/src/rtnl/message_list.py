"""Messages that are kept."""
from bisect import bisect
from itertools import chain
from typing import Iterator, List, Sequence, Type, Union, overload

from .message import Message, Messages, V


class MessageList(Sequence[Message]):
    """Messages that are kept while other datagrams come, as those of a dump until it is complete:
    the bytes and the heads of each datagram.

    >>> from rtnl import Datagram
    >>> kept, received = MessageList(), bytearray(20)
    >>> for seq in "01", "02":
    ...     received[:] = bytes.fromhex(f"1400000003000200{seq}0000003930000000000000")
    ...     kept.extend(Datagram(received))
    >>> [message.seq for message in kept]
    [1, 2]
    """

    __slots__ = ("_parts", "_ends")

    def __init__(self) -> None:
        self._parts: List[Messages] = []
        # How many messages there are up to the end of each part.
        self._ends: List[int] = []

    def extend(self, messages: Messages) -> None:
        """Keeps the messages of a datagram, or the items of a stream, behind the others. Bytes
        that may change, as those of a `bytearray`, are copied."""
        if messages:
            self._ends.append(len(self) + len(messages))
            self._parts.append(messages.kept())

    def clear(self) -> None:
        """Drops all of them."""
        self._parts.clear()
        self._ends.clear()

    def views(self, kind: Type[V]) -> Iterator[V]:
        """Those that are of a family, as its views: NEW, DEL and SET of it."""
        return chain.from_iterable(part.views(kind) for part in self._parts)

    def __len__(self) -> int:
        return self._ends[-1] if self._ends else 0

    @overload
    def __getitem__(self, index: int) -> Message:
        ...

    @overload
    def __getitem__(self, index: slice) -> Sequence[Message]:
        ...

    def __getitem__(self, index: Union[int, slice]) -> Union[Message, Sequence[Message]]:
        found = range(len(self))[index]
        if isinstance(found, range):
            return [self[at] for at in found]
        part = bisect(self._ends, found)
        return self._parts[part][found - self._ends[part]]

    def __iter__(self) -> Iterator[Message]:
        return chain.from_iterable(self._parts)

    def __repr__(self) -> str:
        return f"<MessageList of {len(self)} messages>"
