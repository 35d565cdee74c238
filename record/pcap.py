"""Captures of an nlmon device, as tcpdump and tshark write them: pcap in either byte order, with
microseconds or nanoseconds, and pcapng. The datagrams are those of netlink packets (link type 253)
of protocol 0, rtnetlink, without the 16 bytes in front of each, behind a comment line with the
time. All other packets are counted on standard error."""
import struct
from typing import BinaryIO, Iterator

import pcapng
from cooked import Packets
from output import SECOND, Damaged, Item
from source import Source

# The first bytes of a file: the byte order that they say, and the parts of a microsecond.
MAGICS = {
    b"\xa1\xb2\xc3\xd4": (">", 1), b"\xd4\xc3\xb2\xa1": ("<", 1),
    b"\xa1\xb2\x3c\x4d": (">", 1000), b"\x4d\x3c\xb2\xa1": ("<", 1000),
}
# The link type shares its field with what says how long a check sum is behind each packet.
LINK_TYPE = 0x03FFFFFF


def items(file: BinaryIO) -> Iterator[Item]:
    """What the capture gives, and last what was left out of it."""
    packets = Packets()
    yield from packets.counted(found(Source(file), packets))


def found(source: Source, packets: Packets) -> Iterator[Item]:
    """What the packets give, by what the file begins with."""
    magic = source.exactly(4, "byte 0", "its first bytes")
    if magic == pcapng.SECTION:
        yield from pcapng.items(source, packets)
    elif magic in MAGICS:
        yield from classic(source, packets, *MAGICS[magic])
    else:
        raise Damaged("byte 0: neither pcap nor pcapng")


def classic(source: Source, packets: Packets, order: str, parts: int) -> Iterator[Item]:
    """The packets behind the first bytes of a pcap file."""
    head = source.exactly(20, "byte 0", "its header")
    major, minor, link_type = struct.unpack(f"{order}HH12xI", head)
    if major != 2:
        raise Damaged(f"byte 4: version {major}.{minor} of pcap")
    while True:
        place = f"byte {source.place}"
        head = source.up_to(16)
        if not head:
            return
        if len(head) < 16:
            raise Damaged(f"{place}: the capture ends within the header of a packet")
        seconds, rest, kept, size = struct.unpack(f"{order}IIII", head)
        time = seconds * SECOND + rest // parts
        yield from packets.items(source, place, link_type & LINK_TYPE, kept, size, time)
