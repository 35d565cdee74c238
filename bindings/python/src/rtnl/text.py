"""What the library says of whole datagrams, in words and in bytes."""
from ctypes import create_string_buffer
from typing import NamedTuple, Optional

from ._buffers import Readable, readable, within
from ._library import LIBRARY
from .errors import Code, Error, place_of, require
from .limits import STANDARD, Limits

# Most texts are no longer.
USUAL = 4096


class Checked(NamedTuple):
    """What a check says of a datagram."""

    code: Code
    """OK where it is accepted."""
    place: Optional[int]
    """Of the first fault, in bytes."""
    canonical: bool
    """It is accepted, and the very bytes that its messages are written as."""


def check(data: Readable, limits: Limits = STANDARD) -> Checked:
    """Says whether a datagram is canonical: every padding whole and of zeros, and every byte of a
    head that is not kept zero. An Error with the code NO_MEMORY where there is none."""
    read, pointer = readable(data)
    found = LIBRARY.rtnlc_check(pointer, len(read), limits.pointer)
    if found.code == Code.NO_MEMORY:
        raise Error(Code.NO_MEMORY)
    return Checked(Code(found.code), place_of(found.code, found.place), found.canonical)


def show(data: Readable, number: int = 1, limits: Limits = STANDARD) -> str:
    """The text that `rtnl show` prints of a datagram of this number. A refused one has a text too,
    which says why. An Error with the code NO_MEMORY where there is none."""
    within(64, number=number)
    read, pointer = readable(data)
    size = USUAL
    while True:
        out = create_string_buffer(size)
        found = LIBRARY.rtnlc_show(number, pointer, len(read), limits.pointer, out, size)
        require(found.code)
        if found.len <= size:
            return out.raw[: found.len].decode("ascii")
        size = found.len
