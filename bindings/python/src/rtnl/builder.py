"""Datagrams that are built."""
import ctypes
import os
import struct
from contextlib import contextmanager
from typing import Any, Iterator, Optional

from . import _structs
from ._buffers import Readable, plain, readable, within
from ._library import LIBRARY
from .errors import Code, Error
from .head import MARKS, Head
from .limits import STANDARD, Limits
from .values import FAMILIES, IPAddress

MOST_WEIGHT = 256


def hops_of(weight: int) -> int:
    """What the kernel's field has of the weight of a next hop."""
    if not 1 <= weight <= MOST_WEIGHT:
        raise ValueError(f"weight must be from 1 to {MOST_WEIGHT}, not {weight}")
    return weight - 1


def require(code: int) -> None:
    """Raises an Error where the code isn't OK. What is built has no place in a datagram."""
    if code:
        raise Error(Code(code))


class Builder:
    """Messages that are put one after another into a buffer of this many bytes: as many as the
    limits allow, where none are said.

    >>> from rtnl.constants import IFLA_MTU, NLM_F_REQUEST, RTM_NEWLINK
    >>> from rtnl.head import LinkHead
    >>> builder = Builder(Limits(big=False))
    >>> with builder.message(RTM_NEWLINK, LinkHead(index=7), NLM_F_REQUEST, seq=1):
    ...     builder.put_u32(IFLA_MTU, 1500)
    >>> builder.finish().hex(" ", 8)
    '2800000010000100 0100000000000000 0000000007000000 0000000000000000 08000400dc050000'

    What `finish` hands out is never malformed: it is within the limits, and is read again as
    exactly what was put. The first call that is refused raises an Error, which changes nothing of
    what was put; and all behind it raise the same one, until `clear`. Attributes are put by their
    number, with NLA_F_NESTED and NLA_F_NET_BYTEORDER where they are meant; neither changes the
    bytes. A number that doesn't fit its field is a ValueError, and no refusal.
    """

    __slots__ = ("limits", "_buffer", "_made", "_pointer")

    limits: Limits
    """Those that it was made with; `total` and `entries` say nothing here."""

    def __init__(self, limits: Limits = STANDARD, room: Optional[int] = None) -> None:
        self.limits = limits
        self._buffer = ctypes.create_string_buffer(limits.datagram if room is None else room)
        self._made = _structs.Builder()
        # What points to the struct leads to the buffer, too: a call that lasts keeps both.
        self._made.buffer = self._buffer
        self._pointer = ctypes.pointer(self._made)
        self.clear()

    def clear(self) -> None:
        """Begins again, without a refusal: what was built is gone."""
        room = len(self._buffer)
        require(LIBRARY.rtnlc_builder_new(self._pointer, self.limits.pointer, self._buffer, room))

    def begin(self, kind: int, head: Head, flags: int = 0, *, seq: int = 0, port: int = 0) -> None:
        """Begins a message of a type NEW, DEL or SET with its family's head. `message` also ends
        it. An Error has the code STILL_OPEN where a message is open; MISMATCH where the head is
        not that of the type; NO_ROOM; or TOO_LARGE."""
        within(16, kind=kind, flags=flags)
        within(32, seq=seq, port=port)
        front = plain(head.packed(self.limits.order))
        call: Any = LIBRARY.rtnlc_builder_begin
        require(call(self._pointer, kind, flags, seq, port, front, len(front)))

    def end(self) -> None:
        """Ends the message. It needs no room. An Error has the code NOTHING_OPEN; or STILL_OPEN
        where an attribute or a next hop is."""
        require(LIBRARY.rtnlc_builder_end(self._pointer))

    @contextmanager
    def message(
        self, kind: int, head: Head, flags: int = 0, *, seq: int = 0, port: int = 0
    ) -> Iterator[None]:
        """A message with what is put into it in the block, as of `begin` and `end`. Where the
        block raises it stays open."""
        self.begin(kind, head, flags, seq=seq, port=port)
        yield
        self.end()

    def open(self, number: int) -> None:
        """Opens an attribute that holds attributes, or next hops: what is put next stands in it.
        `list` also closes it. An Error has the code NOTHING_OPEN; MISMATCH where next hops stand,
        or for an attribute that holds bytes; TOO_DEEP; NO_ROOM; or TOO_LARGE."""
        within(16, number=number)
        require(LIBRARY.rtnlc_builder_open(self._pointer, number))

    def open_hop(self, index: int = 0, weight: int = 1, flags: int = 0) -> None:
        """Opens a next hop in RTA_MULTIPATH; attributes of routes stand in it. Its weight is that
        of ip(8), from 1 to 256: the kernel's field, `rtnh_hops`, has one less. `hop` also closes
        it. An Error has the code NOTHING_OPEN; MISMATCH where no next hops stand; NO_ROOM; or
        TOO_LARGE."""
        within(31, index=index)
        within(8, flags=flags)
        require(LIBRARY.rtnlc_builder_open_hop(self._pointer, flags, hops_of(weight), index))

    def close(self) -> None:
        """Closes the attribute or the next hop that was opened last. It needs no room. An Error
        has the code NOTHING_OPEN; or TOO_LONG for more than 65,532 bytes."""
        require(LIBRARY.rtnlc_builder_close(self._pointer))

    @contextmanager
    def list(self, number: int) -> Iterator[None]:
        """An attribute that holds what is put into it in the block, as of `open` and `close`.
        Where the block raises it stays open."""
        self.open(number)
        yield
        self.close()

    @contextmanager
    def hop(self, index: int = 0, weight: int = 1, flags: int = 0) -> Iterator[None]:
        """A next hop with what is put into it in the block, as of `open_hop` and `close`. Where
        the block raises it stays open."""
        self.open_hop(index, weight, flags)
        yield
        self.close()

    def put(self, number: int, data: Readable) -> None:
        """Puts an attribute that holds these bytes. An Error, as of all that put, has the code
        NOTHING_OPEN where no message is open; MISMATCH where next hops stand, or for an attribute
        that holds others; TOO_LONG for more than 65,531 bytes; NO_ROOM; or TOO_LARGE."""
        within(16, number=number)
        read, at = readable(data)
        require(LIBRARY.rtnlc_builder_put(self._pointer, number, at, len(read)))

    def put_text(self, number: int, text: str) -> None:
        """Puts an attribute that holds a text, and behind it a zero byte."""
        within(16, number=number)
        data = plain(os.fsencode(text))
        require(LIBRARY.rtnlc_builder_put_text(self._pointer, number, data, len(data)))

    def put_address(self, number: int, address: IPAddress) -> None:
        """Puts an attribute that holds an address: 4 bytes, or 16."""
        self.put(number, address.packed)

    def put_via(self, number: int, address: IPAddress) -> None:
        """Puts an attribute that holds an address behind its address family, as RTA_VIA."""
        family = struct.pack(MARKS[self.limits.order] + "H", FAMILIES[address.version])
        self.put(number, family + address.packed)

    def _put_number(self, call: Any, bits: int, number: int, value: int) -> None:
        within(16, number=number)
        within(bits, value=value)
        require(call(self._pointer, number, value))

    def put_u8(self, number: int, value: int) -> None:
        """Puts an attribute that holds a number of one byte."""
        self._put_number(LIBRARY.rtnlc_builder_put_u8, 8, number, value)

    def put_u16(self, number: int, value: int) -> None:
        """Puts an attribute that holds a number of two bytes, in the order of the limits."""
        self._put_number(LIBRARY.rtnlc_builder_put_u16, 16, number, value)

    def put_u32(self, number: int, value: int) -> None:
        """Puts an attribute that holds a number of four bytes, in the order of the limits."""
        self._put_number(LIBRARY.rtnlc_builder_put_u32, 32, number, value)

    def put_u64(self, number: int, value: int) -> None:
        """Puts an attribute that holds a number of eight bytes, in the order of the limits."""
        self._put_number(LIBRARY.rtnlc_builder_put_u64, 64, number, value)

    def put_be16(self, number: int, value: int) -> None:
        """Puts an attribute that holds a number of two bytes, the highest first."""
        self._put_number(LIBRARY.rtnlc_builder_put_be16, 16, number, value)

    def put_be32(self, number: int, value: int) -> None:
        """Puts an attribute that holds a number of four bytes, the highest first."""
        self._put_number(LIBRARY.rtnlc_builder_put_be32, 32, number, value)

    def put_be64(self, number: int, value: int) -> None:
        """Puts an attribute that holds a number of eight bytes, the highest first."""
        self._put_number(LIBRARY.rtnlc_builder_put_be64, 64, number, value)

    def put_message(
        self, kind: int, body: Readable, flags: int = 0, *, seq: int = 0, port: int = 0
    ) -> None:
        """Puts a whole message of no family, whose body is these bytes: one of netlink itself, as
        NLMSG_DONE, of a type that isn't known here, or a GET. An Error has the code STILL_OPEN
        where a message is open; MISMATCH for NEW, DEL and SET of a family, and for a body that is
        shorter than its type says, 20 bytes of NLMSG_ERROR and one of a GET; TOO_LONG for a
        message of more than 1,048,576 bytes; NO_ROOM; or TOO_LARGE."""
        within(16, kind=kind, flags=flags)
        within(32, seq=seq, port=port)
        read, at = readable(body)
        call: Any = LIBRARY.rtnlc_builder_message
        require(call(self._pointer, kind, flags, seq, port, at, len(read)))

    def finish(self) -> bytes:
        """The datagram: all messages. It changes nothing, and more messages may come behind. An
        Error has the code of the first refusal; or STILL_OPEN where a message is open."""
        put = LIBRARY.rtnlc_builder_finish(self._pointer)
        require(put.code)
        return memoryview(self._buffer)[: put.len].tobytes()
