"""Bytes of the caller's, as calls of the library take them, and the numbers of a request."""
import operator
from ctypes import byref, c_char
from typing import Any, Literal, Tuple, Union

Readable = Union[bytes, bytearray, memoryview]
"""The bytes of a datagram. Of what can't be written to and is not bytes, or is of a class that is
made of bytes, a copy is read."""
Indexed = Union[bytes, memoryview]
Order = Literal["little", "big"]
"""The order of numbers: their lowest byte first, or their highest."""


def readable(data: Readable) -> Tuple[Indexed, Any]:
    """The bytes, one for each index, and what a call is handed for a pointer to them."""
    if type(data) is bytes:
        return data, data
    view = memoryview(data)
    if view.readonly or not view.c_contiguous or not view.nbytes:
        copy = bytes(view)
        return copy, copy
    view = view.cast("B")
    return view, byref(c_char.from_buffer(view))


def plain(data: Readable) -> bytes:
    """These bytes as no more than bytes. A class that is made of them may say another length than
    it has, so what is handed to a call with its length is one of these."""
    return data if type(data) is bytes else bytes(memoryview(data))


def within(bits: int, **numbers: int) -> None:
    """Raises a ValueError where one of these numbers doesn't fit so many bits, and a TypeError
    where it is none."""
    for name, value in numbers.items():
        try:
            fits = 0 <= operator.index(value) < 1 << bits
        except TypeError:
            raise TypeError(f"{name} must be a whole number, not {value!r}") from None
        if not fits:
            raise ValueError(f"{name} must be from 0 to {(1 << bits) - 1}, not {value}")
