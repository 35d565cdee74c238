"""The room that the library writes events to. It is borrowed while a call is made: another thread,
or a signal's handler that comes in between, borrows another one."""
from collections import deque
from ctypes import sizeof
from typing import Deque

from ._structs import Event

SIZE = sizeof(Event)
# A datagram has at most one head for so many bytes.
BYTES_OF_A_HEAD = 4
LEAST = 4096
# So many rooms are kept for the next calls. The largest limit of a datagram, 1,048,576 bytes, has a
# room of 4 MiB, so what is kept is never above 16 MiB.
SPARE = 4


class Room:
    """Room for so many events."""

    __slots__ = ("count", "events", "_bytes")

    def __init__(self, count: int) -> None:
        written = bytearray(count * SIZE)
        self.count = count
        self.events = (Event * count).from_buffer(written)
        self._bytes = memoryview(written)

    def taken(self, count: int) -> bytes:
        """The first events, so many, as the bytes of their structs; and the room is given back."""
        found = self._bytes[: count * SIZE].tobytes()
        _SPARE.append(self)
        return found


_SPARE: Deque[Room] = deque(maxlen=SPARE)


def borrow(size: int, limit: int) -> Room:
    """Room for the heads of a datagram of so many bytes, however many it has; of one above the
    limit of datagrams, at which the library doesn't look, as much as the limit needs. A room that
    is never given back is lost, and nothing else."""
    most = min(size, limit)
    try:
        room = _SPARE.pop()
    except IndexError:
        room = Room(LEAST)
    return room if room.count * BYTES_OF_A_HEAD >= most else Room(most // BYTES_OF_A_HEAD)
