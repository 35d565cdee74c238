"""The codes of the library, and the exception that carries one."""
import enum
from typing import Optional

from ._library import LIBRARY
from ._loading import LibraryError

__all__ = ["Code", "Error", "LibraryError"]


class Code(enum.IntEnum):
    """Why a call didn't do what it was asked for: `enum rtnlc_code`. Its `str` is a few words."""

    OK = 0
    CUT = 1
    """Fewer bytes are left than a head has."""
    BAD_LENGTH = 2
    """A length is below its head's size, or above the bytes that are left."""
    SHORT_BODY = 3
    """A message is shorter than the head of its type."""
    TOO_LONG = 4
    """A container has more than 65,532 bytes; built, an attribute of bytes more than 65,531."""
    TOO_DEEP = 5
    """A container opens a level above the depth limit."""
    TOO_LARGE = 6
    """The datagram is above the datagram limit; nothing was looked at."""
    TOTAL = 7
    """All datagrams would be above the total limit; nothing was looked at."""
    NOT_WAITING = 8
    """No dump waits for its answers."""
    BUSY = 9
    """A dump waits for its answers."""
    SAME_SEQ = 10
    """The sequence number is that of the dump before."""
    MISMATCH = 11
    """A value is of another kind than its attribute holds, or a head is not that of its type."""
    BAD_LIMIT = 12
    """One of the limits is out of its range; nothing was looked at."""
    NO_MEMORY = 13
    """An allocation was refused."""
    NO_ROOM = 17
    """A buffer has less room than the answer needs."""
    NO_STREAM = 18
    """There is no stream."""
    NO_KIND = 19
    """The message type is of no family that is dumped."""
    NO_SESSION = 20
    """The session is closed."""
    NOTHING_OPEN = 21
    """Nothing is open that could be closed, or into which could be put."""
    STILL_OPEN = 22
    """Something is still open in what should end, or before the next."""
    NO_BUILDER = 23
    """There is no builder."""
    NO_SEED = 24
    """No random bytes are had for the hash of a session's tables."""
    NO_MIRROR = 25
    """There is no mirror."""
    END = 255
    """Nothing more stands there."""

    def __str__(self) -> str:
        words: bytes = LIBRARY.rtnlc_code_name(self.value)
        return words.decode()


LAST_WITH_PLACE = Code.TOO_DEEP


class Error(Exception):
    """Why a call didn't do what it was asked for.

    It is all that calls of this package raise of what datagrams hold. A TypeError, or a ValueError
    for a number that a field of the request hasn't got the bits for, is a mistake of the caller's.
    """

    code: Code
    """The library's code."""
    place: Optional[int]
    """The offset of the datagram's first fault, in bytes, of the codes from CUT to TOO_DEEP. What
    is built has none."""

    def __init__(self, code: Code, place: Optional[int] = None) -> None:
        super().__init__(code, place)
        self.code, self.place = code, place

    def __str__(self) -> str:
        return str(self.code) if self.place is None else f"{self.code} at {self.place}"


def place_of(code: int, place: int) -> Optional[int]:
    """The place of a code, where the code has one."""
    return place if Code.OK < code <= LAST_WITH_PLACE else None


def require(code: int, place: int = 0) -> None:
    """Raises an Error where the code isn't OK."""
    if code:
        raise Error(Code(code), place_of(code, place))
