"""Files of rtmon: messages, each of which is taken as a datagram. A comment line in front of each
has the last time that the file gives before it."""
import struct
import sys
from typing import BinaryIO, Iterator

from output import LONGEST, RECEIVED, SECOND, Damaged, Item, when
from source import Source

HEADER = 16
TIME = 15  # the type of a message with two numbers, seconds and microseconds
ORDERS = {"little": "<", "big": ">"}


def items(file: BinaryIO) -> Iterator[Item]:
    """Each message, with the bytes that align it."""
    source, order, time = Source(file), "", None
    while True:
        place = f"byte {source.place}"
        head = source.up_to(HEADER)
        if not head:
            return
        if len(head) < HEADER:
            raise Damaged(f"{place}: the capture ends within the header of a message")
        order = order or order_of(head)
        length, kind = struct.unpack_from(f"{order}IH", head)
        if not HEADER <= length <= LONGEST:
            raise Damaged(f"{place}: a message of {length} bytes")
        aligned = length + 3 & ~3
        data = head + source.exactly(aligned - HEADER, place, f"a message of {length} bytes")
        if kind == TIME and length == HEADER + 8:
            seconds, microseconds = struct.unpack_from(f"{order}II", data, HEADER)
            time = seconds * SECOND + microseconds
        else:
            yield from when(time, RECEIVED)
            yield data


def order_of(head: bytes) -> str:
    """The byte order of a file, by its first message, which is a time; or else this machine's."""
    for order in ORDERS.values():
        if struct.unpack_from(f"{order}IH", head) == (HEADER + 8, TIME):
            return order
    return ORDERS[sys.byteorder]
