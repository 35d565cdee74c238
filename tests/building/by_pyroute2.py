"""Reads datagrams by pyroute2's walkers: what `messages` answers has the form of reads.py."""
import struct
from typing import Any, List

from pyroute2.netlink import nla, nlmsg
from pyroute2.netlink.rtnl.fibmsg import fibmsg
from pyroute2.netlink.rtnl.ifaddrmsg import ifaddrmsg
from pyroute2.netlink.rtnl.ifinfmsg import ifinfmsg
from pyroute2.netlink.rtnl.ndmsg import ndmsg
from pyroute2.netlink.rtnl.rtmsg import rtmsg

# A number that no attribute has: each is one that pyroute2 has no type for, and keeps its place.
NO_NAMES = ((65535, "NONE", "none"),)
NESTED, NUMBER = 0x8000, 0x3FFF


class region(nla):  # type: ignore[misc]
    """Attributes one after another, behind an attribute's head."""

    fields = ()
    nla_map = NO_NAMES


class next_hop(nla):  # type: ignore[misc]
    """As pyroute2's rtmsg has it."""

    is_nla = False
    header = (("length", "H"),)
    fields = (("flags", "B"), ("hops", "B"), ("oif", "i"))
    nla_map = NO_NAMES


# Each family's message with pyroute2's own head; its attributes' context.
FAMILIES = {
    group: (type(cls.__name__, (nlmsg,), {"fields": cls.fields, "nla_map": NO_NAMES}), name)
    for group, cls, name in [(4, ifinfmsg, "link"), (5, ifaddrmsg, "addr"), (6, rtmsg, "route"),
                             (7, ndmsg, "neigh"), (8, fibmsg, "rule")]}
# NEW, DEL and SET of the families: other messages are bytes here.
TYPES = {16, 17, 19, 20, 21, 24, 25, 28, 29, 32, 33}
HOPS = {("route", 9)}
LISTS = {("link", 18), ("route", 8)}


def decoded(cls: Any, data: bytes, offset: int, length: int) -> Any:
    found = cls(data, offset=offset, length=length)
    found.decode()
    return found


def next_hops(data: bytes, offset: int, end: int) -> List[Any]:
    found = []
    while offset < end:
        length, = struct.unpack_from("<H", data, offset)
        hop = decoded(next_hop, data, offset, length)
        found.append([hop["flags"], hop["hops"], hop["oif"], attributes(data, hop, "route")])
        offset += (length + 3) & ~3
    return found


def attributes(data: bytes, holder: Any, context: str) -> List[Any]:
    """The attributes that pyroute2 found in a message, a next hop or an attribute."""
    found: List[Any] = []
    for slot in holder["attrs"]:
        # A slot decodes when it is asked for its value; its place is known before.
        it = slot.nla
        offset, length = it.offset, it.length
        kind, = struct.unpack_from("<H", data, offset + 2)
        number = kind & NUMBER
        if (context, number) in HOPS:
            found.append([kind, next_hops(data, offset + 4, offset + length)])
        elif (context, number) in LISTS or kind & NESTED:
            inner = decoded(region, data, offset, length)
            found.append([kind, attributes(data, inner, "other")])
        else:
            found.append([kind, data[offset + 4:offset + length].hex()])
    return found


def head_of(message: Any) -> str:
    """The bytes of a family's head, by the fields that pyroute2 reads."""
    whole = "<" + "".join(form for _, form in message.fields)
    values = [message[name] for name, form in message.fields if "x" not in form]
    return struct.pack(whole, *values).hex()


def messages(data: bytes) -> List[Any]:
    found = []
    offset = 0
    while offset < len(data):
        length, kind = struct.unpack_from("<IH", data, offset)
        has_family = kind // 4 in FAMILIES and kind in TYPES
        cls, context = FAMILIES[kind // 4] if has_family else (nlmsg, "")
        message = decoded(cls, data, offset, length)
        header = message["header"]
        body = head_of(message) if has_family else data[offset + 16:offset + length].hex()
        found.append([header["type"], header["flags"], header["sequence_number"], header["pid"],
                      body, attributes(data, message, context) if has_family else []])
        offset += (length + 3) & ~3
    return found
