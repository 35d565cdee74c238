"""The datagrams that the scripts of this folder measure over: those of recordings, those that are
made up, and the forms in which programs take them."""
import os
import struct
from typing import Iterator, List, Sequence

HEADER = struct.Struct("<IHHII")
DONE = 3
# The bytes that one of a dump has at most, as a kernel sends it to a reader with room.
DATAGRAM = 32_768
# The bytes of a route or a neighbour in front of its attributes: nlmsghdr, and rtmsg or ndmsg.
ROUTE_HEAD = HEADER.size + 12
NLMSG_TSTAMP = 15
# What a recording is a dump of, by the type of its first message.
KINDS = {16: "link", 20: "addr", 24: "route", 28: "neigh", 32: "rule"}
# The types of messages that a notification has: NEW and DEL of links, addresses, routes and
# neighbours, which `ip monitor` prints.
NOTIFIED = {16, 17, 20, 21, 24, 25, 28, 29}
# The sequence number and the port of dumps that are made up.
SEQ, PORT = 1, 2
# A capture's first bytes: version 2.4, packets of up to 262,144 bytes, link type netlink.
PCAP = struct.pack("<IHHiIII", 0xA1B2C3D4, 2, 4, 0, 0, 262_144, 253)
# In front of each packet: to this host, of a netlink device, of protocol 0, rtnetlink.
COOKED = struct.pack(">HHH8sH", 0, 824, 0, bytes(8), 0)

Datagrams = List[bytes]


def datagrams_of(path: str) -> Datagrams:
    """The datagrams of a recording's lines."""
    with open(path, encoding="ascii") as file:
        lines = file.read().splitlines()
    return [bytes.fromhex(line) for line in lines if line.strip() and not line.startswith("#")]


def names_in(folder: str) -> List[str]:
    """The recordings of a folder, by their names."""
    return sorted(name[:-4] for name in os.listdir(folder) if name.endswith(".hex"))


def messages(datagrams: Sequence[bytes]) -> Iterator[bytes]:
    """Each message of the datagrams, without padding."""
    for datagram in datagrams:
        at = 0
        while at + HEADER.size <= len(datagram):
            length = HEADER.unpack_from(datagram, at)[0]
            yield datagram[at:at + length]
            at += length + 3 & ~3


def kind_of(message: bytes) -> int:
    """The type of a message."""
    return int(HEADER.unpack_from(message)[1])


def notifications(datagrams: Sequence[bytes]) -> Iterator[bytes]:
    """Each message that the kernel could send as a notification, as it would."""
    for it in messages(datagrams):
        length, kind, _, _, _ = HEADER.unpack_from(it)
        if kind in NOTIFIED:
            # A notification has no flag MULTI, and the kernel's number and port.
            yield HEADER.pack(length, kind, 0, 0, 0) + it[HEADER.size:]


def of_one_dump(datagrams: Sequence[bytes]) -> Datagrams:
    """The datagrams of a dump, whose messages carry SEQ and PORT."""
    renumbered = []
    for datagram in datagrams:
        parts = []
        for it in messages([datagram]):
            length, kind, flags, _, _ = HEADER.unpack_from(it)
            head = HEADER.pack(length, kind, flags, SEQ, PORT)
            parts.append(head + it[HEADER.size:] + bytes(-len(it) % 4))
        renumbered.append(b"".join(parts))
    return renumbered


def repeated(datagrams: Datagrams, size: int) -> Datagrams:
    """The datagrams again and again, until there are so many bytes."""
    return datagrams * max(1, size // sum(map(len, datagrams)))


# The forms in which programs take them.


def as_lines(datagrams: Sequence[bytes]) -> bytes:
    """The recording of these datagrams."""
    return "".join(datagram.hex() + "\n" for datagram in datagrams).encode()


def sized(datagrams: Sequence[bytes]) -> bytes:
    """As the C programs take them: each behind its size, and padded to four bytes."""
    return b"".join(struct.pack("<I", len(d)) + d + bytes(-len(d) % 4) for d in datagrams)


def as_rtmon(datagrams: Sequence[bytes]) -> bytes:
    """A file of rtmon."""
    time = HEADER.pack(HEADER.size + 8, NLMSG_TSTAMP, 0, 0, 0) + struct.pack("<II", 1, 0)
    return time + b"".join(it + bytes(-len(it) % 4) for it in datagrams)


def as_pcap(datagrams: Sequence[bytes]) -> bytes:
    """A capture of an nlmon device."""
    packets = (COOKED + it for it in datagrams)
    return PCAP + b"".join(struct.pack("<IIII", 1, 0, len(it), len(it)) + it for it in packets)


# Those that are made up.


def attribute(kind: int, payload: bytes) -> bytes:
    """An attribute with its padding."""
    return struct.pack("<HH", 4 + len(payload), kind) + payload + bytes(-len(payload) % 4)


def number(kind: int, value: int, form: str = "<I") -> bytes:
    """An attribute that holds a number."""
    return attribute(kind, struct.pack(form, value))


def message(kind: int, body: bytes) -> bytes:
    """A message of a dump."""
    return HEADER.pack(HEADER.size + len(body), kind, 2, SEQ, PORT) + body


def link(attributes: bytes) -> bytes:
    """A datagram of one link with these attributes."""
    body = bytes(16) + attributes
    return HEADER.pack(HEADER.size + len(body), 16, 0, 1, 1) + body


def link_like(recorded: bytes, index: int) -> bytes:
    """The link that was recorded, with an IFINDEX and an IFNAME of its own, which is its first
    attribute."""
    behind = 32 + (struct.unpack_from("<H", recorded, 32)[0] + 3) // 4 * 4
    family = recorded[16:20] + struct.pack("<i", index + 1) + recorded[24:32]
    return message(16, family + attribute(3, b"eth%05d\0" % index) + recorded[behind:])


def route_like(recorded: bytes, index: int) -> bytes:
    """The route or the neighbour of IPv4 that was recorded, with an RTA_DST or an NDA_DST of its
    own, which have the same number."""
    at = ROUTE_HEAD
    while at < len(recorded):
        length, kind = struct.unpack_from("<HH", recorded, at)
        if (length, kind) == (8, 1):
            own = struct.pack(">I", 0x0A000000 + index)
            behind = recorded[HEADER.size:at + 4] + own + recorded[at + 8:]
            return message(kind_of(recorded), behind)
        at += length + 3 & ~3
    raise ValueError("a route without RTA_DST")


def route(attributes: bytes) -> bytes:
    """A route with these attributes."""
    return message(24, struct.pack("<BBBBBBBBI", 2, 32, 0, 0, 254, 3, 0, 1, 0) + attributes)


def destination(index: int) -> bytes:
    """RTA_DST of one route of many."""
    return number(1, 0x0A000000 + index, ">I")


def short_route(index: int) -> bytes:
    """One with RTA_DST and RTA_OIF: 44 bytes."""
    return route(destination(index) + number(4, 5))


def usual_route(index: int) -> bytes:
    """One with RTA_TABLE, RTA_DST, RTA_PRIORITY and RTA_OIF: 60 bytes."""
    return route(number(15, 254) + destination(index) + number(6, 100) + number(4, 5))


def long_route(index: int) -> bytes:
    """One with RTA_TABLE, RTA_DST, RTA_PREFSRC, RTA_GATEWAY, RTA_OIF, RTA_PRIORITY and two
    metrics: 96 bytes."""
    from_to = number(7, 0xC0000201, ">I") + number(5, 0xC00002FE, ">I")
    metrics = attribute(8, number(2, 1400) + number(8, 1360))
    others = number(4, 5) + number(6, 100) + metrics
    return route(number(15, 254) + destination(index) + from_to + others)


def dumped(items: Sequence[bytes], each: int) -> Datagrams:
    """The datagrams of a dump, so many messages in each, as a kernel sends them."""
    datagrams = [b"".join(items[at:at + each]) for at in range(0, len(items), each)]
    return datagrams + [message(DONE, struct.pack("<i", 0))]


def dump_of(routes: int) -> Datagrams:
    """The datagrams of a dump of so many routes."""
    return dumped([usual_route(index) for index in range(routes)], 64)
