"""The datagrams of a file, in place of a socket. Each stands behind its size, four bytes, lowest
first, and is padded to four bytes. Requests go nowhere. And where the lines go: with QUIET in the
environment nowhere, and nothing more is made a text."""
import os
import sys

PORT = 2
"""The port id that answers carry."""


class Source:
    def __init__(self) -> None:
        self._file = open(sys.argv[1], "rb")

    def send(self, request: bytes) -> None:
        pass

    def recv(self) -> bytes:
        """The next datagram; no bytes at the end."""
        size = int.from_bytes(self._file.read(4), "little")
        return self._file.read((size + 3) // 4 * 4)[:size]


def say(*fields: object, flush: bool = False) -> None:
    """Prints a line of these fields, with a dash for a missing one."""
    print(*("-" if it is None else it for it in fields), flush=flush)


if "QUIET" in os.environ:

    def say(*fields: object, flush: bool = False) -> None:
        pass
