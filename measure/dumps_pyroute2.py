"""Reads a dump by pyroute2, and prints how many messages there are.

usage: dumps_pyroute2.py read|kept|visited FILE, where each datagram stands behind its size, four
bytes, lowest first, and is padded to four bytes. By `read` nothing is made of it; by `kept` each
message is parsed and kept; by `visited` it is parsed, each of its attributes is looked at, since
pyroute2 decodes one when it is asked for, and it is let go.
"""
import struct
import sys
from typing import BinaryIO, Iterator, List

from broken_pyroute2 import visit
from pyroute2.netlink.rtnl.marshal import MarshalRtnl  # type: ignore


def datagrams(file: BinaryIO) -> Iterator[bytes]:
    """Each datagram of the file."""
    while size := file.read(4):
        length = struct.unpack("<I", size)[0]
        yield file.read(length + 3 & ~3)[:length]


def main(way: str, path: str) -> None:
    marshal, count = MarshalRtnl(), 0
    kept: List[object] = []
    with open(path, "rb") as file:
        for datagram in datagrams(file):
            for message in marshal.parse(datagram) if way != "read" else ():
                count += 1
                if way == "kept":
                    kept.append(message)
                else:
                    visit(message)
    print(count)


if __name__ == "__main__":
    main(*sys.argv[1:])
