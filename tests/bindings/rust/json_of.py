"""What the views of the package for Rust must say of a message, by what `rtnl` prints of it in
JSON: a field is null where its attribute is missing, or holds another number of bytes.
"""
import ipaddress
import struct
from typing import Any, Callable, Dict, List, Optional

Object = Dict[str, Any]
WIDTHS = {"u8": 1, "u16": 2, "u32": 4}
STATES = "UNKNOWN NOTPRESENT DOWN LOWERLAYERDOWN TESTING DORMANT UP".split()
# Address families by the bytes of their addresses: AF_INET and RTNL_FAMILY_IPMR, and IPv6's.
ADDRESSES = {2: 4, 128: 4, 10: 16, 129: 16}
NDA_PORT = 6


def first(attrs: List[Object], number: int) -> Optional[Object]:
    return next((it for it in attrs if it["number"] == number), None)


def payload(attr: Optional[Object]) -> Optional[bytes]:
    """The bytes of an attribute that holds bytes; of a text without a zero byte at its end."""
    if attr is None or "items" in attr:
        return None
    value, form = attr["value"], attr["form"]
    if form in WIDTHS:
        return bytes(value.to_bytes(WIDTHS[form], "little"))
    if form in ("ipv4", "ipv6"):
        return ipaddress.ip_address(value).packed
    return bytes.fromhex(value) if form == "hex" else bytes(value.encode())


def number(attrs: List[Object], of: int, size: int = 4) -> Optional[int]:
    """The number of so many bytes, in network order where the attribute says so."""
    attr = first(attrs, of)
    data = payload(attr)
    if attr is None or data is None or attr["form"] == "text" or len(data) != size:
        return None
    return int.from_bytes(data, "big" if "net" in attr["flags"] else "little")


def text(attrs: List[Object], of: int) -> Optional[str]:
    data = payload(first(attrs, of))
    return None if data is None else data.split(b"\0")[0].hex()


def hardware(attrs: List[Object], of: int) -> Optional[str]:
    return (payload(first(attrs, of)) or b"").hex() or None


def packed(data: Optional[bytes], sizes: List[int]) -> Optional[str]:
    """The text of an address of one of these sizes."""
    if data is None or len(data) not in sizes:
        return None
    return ipaddress.ip_address(data).compressed


def address(attrs: List[Object], of: int, family: int) -> Optional[str]:
    return packed(payload(first(attrs, of)), [ADDRESSES.get(family, -1)])


def prefix(attrs: List[Object], of: int, family: int, length: int) -> Optional[str]:
    found = address(attrs, of, family)
    return None if found is None else f"{found}/{length}"


def gateway(attrs: List[Object]) -> Optional[str]:
    if first(attrs, 5):
        return packed(payload(first(attrs, 5)), [4, 16])
    attr = first(attrs, 18)
    data = payload(attr)
    if attr is None or data is None or len(data) <= 2:
        return None
    (family,) = struct.unpack((">" if "net" in attr["flags"] else "<") + "H", data[:2])
    return packed(data[2:], [ADDRESSES.get(family, -1)])


def unsigned(value: int) -> int:
    """The index of an interface as a number without a sign."""
    return value & 0xFFFFFFFF


def items(attrs: List[Object], of: int, form: str) -> List[Object]:
    attr = first(attrs, of)
    found: List[Object] = attr["items"] if attr and attr["form"] == form else []
    return found


def link(it: Object) -> Object:
    attrs = it["attrs"]
    state = number(attrs, 16, 1)
    return {
        "index": unsigned(it["index"]), "flags": it["flags"], "type": it["type"],
        "name": text(attrs, 3), "mtu": number(attrs, 4), "hardware_address": hardware(attrs, 1),
        "master": number(attrs, 10), "kind": text(items(attrs, 18, "list"), 1),
        "operational_state":
            None if state is None else STATES[state] if state < len(STATES) else str(state),
    }


def addr(it: Object) -> Object:
    attrs, family = it["attrs"], it["family"]
    flags = number(attrs, 8)
    return {
        "family": family, "index": it["index"], "scope": it["scope"],
        "prefix": prefix(attrs, 1, family, it["prefix"]), "local": address(attrs, 2, family),
        "label": text(attrs, 3), "flags": it["flags"] if flags is None else flags,
    }


def hop(it: Object) -> Object:
    return {"index": unsigned(it["index"]), "weight": it["hops"] + 1, "flags": it["flags"],
            "gateway": gateway(it["attrs"])}


def table(it: Object, of: int) -> int:
    found = number(it["attrs"], of)
    own: int = it["table"]
    return own if found is None else found


def route(it: Object) -> Object:
    attrs, family = it["attrs"], it["family"]
    return {
        "family": family, "destination": prefix(attrs, 1, family, it["dst_len"]),
        "is_default": it["dst_len"] == 0, "gateway": gateway(attrs),
        "out_interface": number(attrs, 4), "table": table(it, 15), "priority": number(attrs, 6),
        "protocol": it["protocol"], "scope": it["scope"], "type": it["type"], "flags": it["flags"],
        "preferred_source": address(attrs, 7, family),
        "next_hops": [hop(one) for one in items(attrs, 9, "hops")],
    }


def neigh(it: Object) -> Object:
    attrs = it["attrs"]
    return {
        "family": it["family"], "index": unsigned(it["index"]), "state": it["state"],
        "flags": it["flags"], "type": it["type"],
        "address": packed(payload(first(attrs, 1)), [4, 16]),
        "link_layer_address": hardware(attrs, 2),
    }


def rule(it: Object) -> Object:
    attrs, family = it["attrs"], it["family"]
    return {
        "family": family, "table": table(it, 15), "action": it["action"], "flags": it["flags"],
        "priority": number(attrs, 6), "mark": number(attrs, 10), "mark_mask": number(attrs, 16),
        "from": prefix(attrs, 2, family, it["src_len"]),
        "to": prefix(attrs, 1, family, it["dst_len"]),
        "in_interface": text(attrs, 3), "out_interface": text(attrs, 17),
    }


VIEWS: Dict[str, Callable[[Object], Object]] = {
    "link": link, "addr": addr, "route": route, "neigh": neigh, "rule": rule,
}


def viewed(message: Object) -> Object:
    """The view of a message or an entry, under the name of its family; or of nothing."""
    return {name: view(message[name]) for name, view in VIEWS.items() if name in message}
