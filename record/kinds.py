"""What the kernel dumps, a row for each kind, and the requests, which are those of ip(8), bridge(8)
and tc(8)."""
import socket
import struct
from typing import Dict, NamedTuple, Tuple

from netlink import HEADER
from output import Stop, shown

DUMP = 0x301  # NLM_F_REQUEST | NLM_F_DUMP
ATTRIBUTE = struct.Struct("=HHI")
EXT_MASK, PROXY = 29, 8  # IFLA_EXT_MASK of linux/if_link.h, NTF_PROXY of linux/neighbour.h
MOST_INDEX = (1 << 31) - 1
# The address families that a request may have, by their names in sys/socket.h, and for multicast
# routes in linux/rtnetlink.h.
FAMILIES: Dict[str, int] = {
    "inet": 2, "inet6": 10, "bridge": 7, "packet": 17, "mpls": 28, "ipmr": 128, "ip6mr": 129,
}
BRIDGE, INET6 = FAMILIES["bridge"], FAMILIES["inet6"]
# RTEXT_FILTER_ of linux/rtnetlink.h; cfm is CFM_CONFIG and CFM_STATUS.
MASKS: Dict[str, int] = {
    "vf": 1, "brvlan": 2, "brvlan-compressed": 4, "skip-stats": 8, "mrp": 0x10, "cfm": 0x60,
    "mst": 0x80,
}


class Kind(NamedTuple):
    """The type of the request, RTM_GET.., and the size of the head behind its header, up to the
    next multiple of 4; the options that it takes; the address family of the only dump there is;
    the attributes behind the head; and by which kind `rtnl table` reads the dump, if not by its
    own name."""

    number: int
    size: int
    options: Tuple[str, ...] = ()
    family: int = 0
    attributes: bytes = b""
    read_as: str = ""


KINDS: Dict[str, Kind] = {
    "link": Kind(18, 16, ("family", "ext_mask")),
    "addr": Kind(22, 8, ("family",)),
    "route": Kind(26, 12, ("family",)),
    "neigh": Kind(30, 12, ("family", "proxy")),
    "rule": Kind(34, 12, ("family",)),
    "nexthop": Kind(106, 8, ("family",)),
    "qdisc": Kind(38, 20),
    "class": Kind(42, 20, ("dev",)),
    "filter": Kind(46, 20, ("dev",)),
    "netconf": Kind(82, 4, ("family",)),
    "neightbl": Kind(66, 4, ("family",)),
    "mdb": Kind(86, 8, family=BRIDGE),
    # BRIDGE_VLANDB_DUMP_FLAGS, of which none is set.
    "vlan": Kind(114, 8, family=BRIDGE, attributes=ATTRIBUTE.pack(8, 1, 0)),
    "nsid": Kind(90, 4),
    "addrlabel": Kind(74, 12, family=INET6),
    "fdb": Kind(30, 12, family=BRIDGE, read_as="neigh"),
}
# Those of one device, which each needs.
OF_DEVICE = tuple(name for name, kind in KINDS.items() if "dev" in kind.options)


class Asked(NamedTuple):
    """A kind, and what else a request for it says: 0 where it doesn't."""

    kind: str
    family: int = 0
    ext_mask: int = 0
    proxy: bool = False
    dev: int = 0


def request(asked: Asked, seq: int) -> bytes:
    kind = KINDS[asked.kind]
    head = bytearray(kind.size)
    head[0] = asked.family or kind.family
    if asked.kind in OF_DEVICE:
        struct.pack_into("=i", head, 4, asked.dev)
    if asked.proxy:
        head[10] = PROXY
    body = bytes(head) + kind.attributes
    if asked.ext_mask:
        body += ATTRIBUTE.pack(ATTRIBUTE.size, EXT_MASK, asked.ext_mask)
    return HEADER.pack(HEADER.size + len(body), kind.number, DUMP, seq, 0) + body


def index_of(device: str) -> int:
    """The index of a device, of which this is the name or the index."""
    try:
        return socket.if_nametoindex(device)
    except (OSError, ValueError):
        pass
    try:
        if device.isascii() and device.isdecimal() and int(device) <= MOST_INDEX:
            socket.if_indextoname(int(device))
            return int(device)
    except (OSError, ValueError):
        pass
    raise Stop(f"device {shown(device)}: there is none of this name or index")
