"""The bytes and the lines of a capture, each with its place. No more memory is taken than bytes
are there, whatever length a capture names."""
from typing import BinaryIO, Iterator, Tuple

from output import Damaged

PIECE = 1 << 16
LONGEST_LINE = 1 << 24


class Source:
    """Bytes, from the front to the end, and the place of the next one."""

    def __init__(self, file: BinaryIO) -> None:
        self.file, self.place = file, 0

    def up_to(self, size: int) -> bytes:
        """So many bytes, or all that are left."""
        data = bytearray()
        while len(data) < size:
            piece = self.file.read(min(size - len(data), PIECE))
            if not piece:
                break
            data += piece
        self.place += len(data)
        return bytes(data)

    def exactly(self, size: int, place: str, what: str) -> bytes:
        """So many bytes, which belong to what begins at the place."""
        data = self.up_to(size)
        if len(data) < size:
            raise Damaged(f"{place}: the capture ends within {what}")
        return data

    def skip(self, size: int, place: str, what: str) -> None:
        """Goes past so many bytes."""
        while size > 0:
            size -= len(self.exactly(min(size, PIECE), place, what))


def lines(file: BinaryIO, encoding: str) -> Iterator[Tuple[int, str]]:
    """The lines, by their numbers."""
    number = 0
    while True:
        line = file.readline(LONGEST_LINE + 1)
        if not line:
            return
        number += 1
        if len(line) > LONGEST_LINE:
            raise Damaged(f"line {number}: longer than {LONGEST_LINE} bytes")
        yield number, line.rstrip(b"\r\n").decode(encoding, "replace")
