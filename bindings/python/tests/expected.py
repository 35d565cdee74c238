"""What typed views must say, of the lines of JSON that the program `rtnl` prints."""
from ipaddress import ip_address
from typing import Any, Dict, List, Optional, Tuple

from rtnl import HardwareAddress, Prefix

Attrs = List[Dict[str, Any]]


def first(attrs: Attrs, number: int) -> Dict[str, Any]:
    """The first attribute of a number, or nothing in it."""
    return next((it for it in attrs if it["number"] == number), {})


def of_form(attrs: Attrs, number: int, *forms: str) -> Any:
    """The value of the first attribute of a number, where it has one of these forms."""
    found = first(attrs, number)
    return found["value"] if found.get("form") in forms else None


def address(attrs: Attrs, number: int) -> Any:
    found = of_form(attrs, number, "ipv4", "ipv6")
    return None if found is None else ip_address(found)


def prefix(attrs: Attrs, number: int, length: int) -> Optional[Prefix]:
    found = address(attrs, number)
    return None if found is None else Prefix(found, length)


def hardware(attrs: Attrs, number: int) -> Optional[HardwareAddress]:
    found = of_form(attrs, number, "hex")
    return None if found is None else HardwareAddress(bytes.fromhex(found))


def u8(attrs: Attrs, number: int) -> Optional[int]:
    """A number of one byte; the program prints some of them as bytes."""
    found = of_form(attrs, number, "u8", "hex")
    return int(found, 16) if isinstance(found, str) and len(found) == 2 else found


def gateway(attrs: Attrs) -> Any:
    """RTA_GATEWAY, or the address in RTA_VIA: `hex` of a family, 2 or 10, and an address."""
    found = address(attrs, 5)
    via = of_form(attrs, 18, "hex")
    if found is None and via and via[:4] in ("0200", "0a00"):
        return ip_address(bytes.fromhex(via[4:]))
    return found


def link(head: Dict[str, Any]) -> Dict[str, Any]:
    attrs = head["attrs"]
    words = "UNKNOWN NOTPRESENT DOWN LOWERLAYERDOWN TESTING DORMANT UP".split()
    state = of_form(attrs, 16, "u8")
    return {
        **{name: head[name] for name in ("family", "type", "index", "flags")},
        "name": of_form(attrs, 3, "text"),
        "mtu": of_form(attrs, 4, "u32"),
        "hardware_address": hardware(attrs, 1),
        "broadcast": hardware(attrs, 2),
        "operstate": state,
        "state": None if state is None else words[state],
        "kind": of_form(first(attrs, 18).get("items", []), 1, "text"),
        "master": of_form(attrs, 10, "u32"),
        "link": of_form(attrs, 5, "u32"),
        "alias": of_form(attrs, 20, "text"),
        "qdisc": of_form(attrs, 6, "text"),
        "queue_length": of_form(attrs, 13, "u32"),
        "group": of_form(attrs, 27, "u32"),
    }


def addr(head: Dict[str, Any]) -> Dict[str, Any]:
    attrs, flags = head["attrs"], of_form(head["attrs"], 8, "u32")
    return {
        **{name: head[name] for name in ("family", "scope", "index")},
        "prefix": prefix(attrs, 1, head["prefix"]),
        "local": address(attrs, 2),
        "broadcast": address(attrs, 4),
        "label": of_form(attrs, 3, "text"),
        "flags": head["flags"] if flags is None else flags,
        "priority": of_form(attrs, 9, "u32"),
        "protocol": u8(attrs, 11),
    }


def hop(found: Dict[str, Any]) -> Tuple[int, int, int, Any]:
    return found["flags"], found["hops"] + 1, found["index"], gateway(found["attrs"])


def route(head: Dict[str, Any]) -> Dict[str, Any]:
    attrs, table = head["attrs"], of_form(head["attrs"], 15, "u32")
    hops = first(attrs, 9).get("items")
    return {
        **{name: head[name] for name in ("family", "tos", "protocol", "scope", "type", "flags")},
        "destination_length": head["dst_len"],
        "table": head["table"] if table is None else table,
        "destination": prefix(attrs, 1, head["dst_len"]),
        "source": prefix(attrs, 2, head["src_len"]),
        "gateway": gateway(attrs),
        "index": of_form(attrs, 4, "u32"),
        "input_index": of_form(attrs, 3, "u32"),
        "preferred_source": address(attrs, 7),
        "priority": of_form(attrs, 6, "u32"),
        "mark": of_form(attrs, 16, "u32"),
        "hops": None if hops is None else [hop(it) for it in hops],
    }


def neigh(head: Dict[str, Any]) -> Dict[str, Any]:
    attrs = head["attrs"]
    return {
        **{name: head[name] for name in ("family", "index", "state", "flags", "type")},
        "address": address(attrs, 1),
        "hardware_address": hardware(attrs, 2),
        "master": of_form(attrs, 9, "u32"),
        "probes": of_form(attrs, 4, "u32"),
        "vlan": of_form(attrs, 5, "u16"),
        "vni": of_form(attrs, 7, "u32"),
    }


def rule(head: Dict[str, Any]) -> Dict[str, Any]:
    attrs, table = head["attrs"], of_form(head["attrs"], 15, "u32")
    return {
        **{name: head[name] for name in ("family", "tos", "action", "flags")},
        "table": head["table"] if table is None else table,
        "priority": of_form(attrs, 6, "u32"),
        "mark": of_form(attrs, 10, "u32"),
        "mask": of_form(attrs, 16, "u32"),
        "source": prefix(attrs, 2, head["src_len"]),
        "destination": prefix(attrs, 1, head["dst_len"]),
        "input_name": of_form(attrs, 3, "text"),
        "output_name": of_form(attrs, 17, "text"),
        "target": of_form(attrs, 4, "u32"),
        "protocol": u8(attrs, 21),
    }


VIEWS = {"link": link, "addr": addr, "route": route, "neigh": neigh, "rule": rule}
