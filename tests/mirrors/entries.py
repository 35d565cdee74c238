"""The entries of a table, as far as the kernel tells when they change.

The kernel tells nobody of counters and timers, of neighbours of state NOARP, of a device's own list
of forwarding entries, and of the flags DEAD and LINKDOWN of hops and routes. It says of a link's
peer and promiscuity what they were once.
"""
import struct
from typing import Dict, Iterator, Set, Tuple

# The heads' sizes, and the attributes whose values change without a word (linux/if_link.h,
# linux/if_addr.h, linux/rtnetlink.h, linux/neighbour.h).
HEADS = {"link": 16, "addr": 8, "route": 12, "neigh": 12, "rule": 12}
SILENT: Dict[str, Set[int]] = {
    "link": {5, 7, 12, 18, 23, 26, 29, 30, 35, 44, 47, 48, 49, 50, 51, 55, 57, 60, 61, 62},
    "addr": {6},
    "route": {12},
    "neigh": {3, 4, 15},
    "rule": set(),
}
NUD_NOARP, NUD_STALE, NUD_DELAY = 0x40, 4, 8
AF_BRIDGE, NTF_SELF = 7, 2
DEAD_OR_LINKDOWN = 17
RTA_MULTIPATH, IFLA_IFALIAS = 9, 20


def attributes(data: bytes) -> Iterator[Tuple[int, bytes]]:
    while data:
        length, kind = struct.unpack_from("<HH", data)
        yield kind & 0x3FFF, data[4:length]
        data = data[(length + 3) & ~3 :]


def hops(data: bytes) -> bytes:
    """Next hops, without the flags that change without a word."""
    found = b""
    while data:
        (length,) = struct.unpack_from("<H", data)
        found += data[:2] + bytes([data[2] & ~DEAD_OR_LINKDOWN]) + data[3:length]
        data = data[(length + 3) & ~3 :]
    return found


def head(kind: str, data: bytes) -> bytes:
    """The head of a body, without what changes without a word."""
    if kind == "link":
        return data[:12]
    if kind == "route":
        (flags,) = struct.unpack_from("<I", data, 8)
        return data[:8] + struct.pack("<I", flags & ~DEAD_OR_LINKDOWN)
    if kind == "neigh":
        (state,) = struct.unpack_from("<H", data, 8)
        state = NUD_STALE if state == NUD_DELAY else state
        return data[:8] + struct.pack("<H", state) + data[10:12]
    return data[:8] if kind == "addr" else data[:12]


def is_untold(neighbour: bytes) -> bool:
    """Whether the kernel changes a neighbour without a word."""
    if neighbour[0] == AF_BRIDGE:
        return bool(neighbour[10] & NTF_SELF)
    (state,) = struct.unpack_from("<H", neighbour, 8)
    return bool(state & NUD_NOARP)


def told(kind: str, table: Dict[str, str]) -> Dict[str, Tuple[object, ...]]:
    """The entries of a table by their keys, as they can be known."""
    found: Dict[str, Tuple[object, ...]] = {}
    for key, body in table.items():
        data = bytes.fromhex(body)
        if kind == "neigh" and is_untold(data):
            continue
        parts = []
        for number, payload in attributes(data[HEADS[kind] :]):
            if number in SILENT[kind] or (kind == "link" and number == IFLA_IFALIAS):
                continue
            if kind == "route" and number == RTA_MULTIPATH:
                payload = hops(payload)
            parts.append((number, payload))
        found[key] = (head(kind, data), *sorted(parts))
    return found
