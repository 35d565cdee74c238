"""The heads of a datagram that was accepted, in the order of their offsets."""
import struct
from functools import lru_cache
from typing import Any, Dict, Iterator, List, Tuple

from ._buffers import Indexed, Order
from ._structs import EVENT, Event
from ._tape import SIZE
from .values import NUMBERS

# enum rtnlc_sort
MESSAGE, BYTES, LIST, HOPS, NEXT_HOP = range(5)
# Bytes of struct rtattr.
ATTRIBUTE_SIZE = 4

# Where an event has its level and its sort. Its words of four bytes are the place, the length, and
# what the head is: number, level and sort.
LEVEL, SORT = Event.level.offset, Event.sort.offset
WORDS, WHAT = SIZE // 4, Event.number.offset // 4
WHAT_HEAD = struct.Struct("@HBB")
# The place, the length and the sort alone.
PAYLOAD = struct.Struct("@II3xB")
# The number alone.
NUMBER = struct.Struct("@8xH")
# More heads, and more lists of them, are not kept: they must not fill the memory.
MOST_KEPT, LISTS_KEPT = 128, 128

Fields = Tuple[int, int, int, int, int, bool, bool]


class Heads:
    """The bytes of a datagram, its tape, which is the structs of its events, and the order of its
    numbers. A head is known by its index in the tape."""

    __slots__ = ("data", "tape", "words", "order", "numbers")

    def __init__(self, data: Indexed, tape: bytes, order: Order) -> None:
        self.data, self.tape, self.order = data, tape, order
        self.words = memoryview(tape).cast("I")
        self.numbers = NUMBERS[order]

    def fields(self, at: int) -> Any:
        """Of a head its place, the bytes behind it, number, level, sort and the two flags."""
        return EVENT.unpack_from(self.tape, at * SIZE)

    def kind(self, at: int) -> int:
        """The number of a head: of a message its type."""
        found: int = NUMBER.unpack_from(self.tape, at * SIZE)[0]
        return found

    def messages(self) -> List[int]:
        """The index of each message's head, and last how many heads there are."""
        sorts = self.tape[SORT::SIZE]
        found, at = [], sorts.find(MESSAGE)
        while at >= 0:
            found.append(at)
            at = sorts.find(MESSAGE, at + 1)
        found.append(len(sorts))
        return found

    def of_level(self, begin: int, end: int, level: int) -> Iterator[int]:
        """The heads between two indexes that lie at a level."""
        levels = self.tape[begin * SIZE + LEVEL : end * SIZE : SIZE]
        return (begin + at for at, found in enumerate(levels) if found == level)

    def behind(self, at: int, end: int) -> int:
        """The index behind the heads that lie in a head, up to an index."""
        tape, level = self.tape, self.tape[at * SIZE + LEVEL]
        at += 1
        while at < end and tape[at * SIZE + LEVEL] > level:
            at += 1
        return at

    def first(self, begin: int, end: int, level: int) -> Dict[int, int]:
        """Of each number that a head between two indexes has at a level: where the first of them
        stands, counted from the first index."""
        heads = self.words[begin * WORDS + WHAT : end * WORDS : WORDS].tobytes()
        if end - begin > MOST_KEPT:
            return first_of.__wrapped__(heads, level)
        return first_of(heads, level)


@lru_cache(maxsize=LISTS_KEPT)
def first_of(heads: bytes, level: int) -> Dict[int, int]:
    """The same, of what heads are. Most messages of a dump have the same ones as another."""
    first: Dict[int, int] = {}
    for at, (number, found, _) in enumerate(WHAT_HEAD.iter_unpack(heads)):
        if found == level:
            first.setdefault(number, at)
    return first
