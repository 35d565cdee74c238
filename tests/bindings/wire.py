"""Datagrams by Python's struct, for the tests of the packages: what recordings hold, what a kernel
would answer, and what the programs are to print of it. It shares no code with the library.
"""
import ipaddress
import os
import struct
from typing import Dict, Iterable, Iterator, List, NamedTuple, Optional, Tuple

ROOT = os.path.realpath(f"{os.path.dirname(os.path.realpath(__file__))}/../..")
ERROR, DONE = 2, 3
NEWLINK, NEWADDR, NEWROUTE, NEWNEIGH = 16, 20, 24, 28
MULTI, DUMP_INTR = 0x2, 0x10
# Attributes that the programs print.
IFLA_ADDRESS, IFLA_IFNAME, IFLA_MTU, IFLA_OPERSTATE = 1, 3, 4, 16
IFA_ADDRESS = 1
RTA_DST, RTA_OIF, RTA_GATEWAY, RTA_MULTIPATH, RTA_TABLE, RTA_VIA = 1, 4, 5, 9, 15, 18
NDA_DST, NDA_LLADDR = 1, 2
STATES = "UNKNOWN NOTPRESENT DOWN LOWERLAYERDOWN TESTING DORMANT UP".split()


class Message(NamedTuple):
    """A message without its sequence number and port id."""

    kind: int
    body: bytes
    flags: int = MULTI


Attributes = Dict[int, bytes]


def lines_of(path: str) -> List[bytes]:
    """The datagrams of a recording."""
    with open(path, encoding="ascii") as lines:
        found = (bytes.fromhex(line) for line in lines if not line.startswith("#"))
        return [it for it in found if it]


def datagrams(name: str) -> List[bytes]:
    """The datagrams of a recording in examples/."""
    return lines_of(f"{ROOT}/examples/{name}.hex")


def messages(datagram: bytes) -> Iterator[Message]:
    place = 0
    while place < len(datagram):
        length, kind, flags = struct.unpack_from("=IHH", datagram, place)
        yield Message(kind, datagram[place + 16:place + length], flags)
        place += (length + 3) & ~3


def recorded(name: str) -> List[Message]:
    """The entries of the dump in a recording of examples/."""
    found = [it for datagram in datagrams(name) for it in messages(datagram)]
    return [it for it in found if it.kind >= 16]


def padded(data: bytes) -> bytes:
    return data + bytes(-len(data) % 4)


def packed(message: Message, seq: int, port: int = 0) -> bytes:
    head = struct.pack("=IHHII", 16 + len(message.body), message.kind, message.flags, seq, port)
    return padded(head + message.body)


def attribute(number: int, payload: bytes) -> bytes:
    return padded(struct.pack("=HH", 4 + len(payload), number) + payload)


def attributes(data: bytes) -> Attributes:
    """The payload of the first attribute of each number, without its two flag bits."""
    found: Attributes = {}
    place = 0
    while place < len(data):
        length, number = struct.unpack_from("=HH", data, place)
        found.setdefault(number & 0x3FFF, data[place + 4:place + length])
        place += (length + 3) & ~3
    return found


def hops(data: bytes) -> Iterator[Tuple[int, Attributes]]:
    """The interface and the attributes of each next hop."""
    place = 0
    while place < len(data):
        length, _, _, index = struct.unpack_from("=HBBi", data, place)
        yield index, attributes(data[place + 8:place + length])
        place += (length + 3) & ~3


def link(index: int, name: bytes, state: int, mtu: int, address: str) -> Message:
    """A link, made by hand."""
    body = struct.pack("=BxHiII", 0, 1, index, 0, 0)
    body += attribute(IFLA_IFNAME, name + b"\0")
    body += attribute(IFLA_OPERSTATE, bytes([state])) + attribute(IFLA_MTU, struct.pack("=I", mtu))
    return Message(NEWLINK, body + attribute(IFLA_ADDRESS, bytes.fromhex(address.replace(":", ""))))


def failure(code: int, request: bytes) -> Message:
    """An ERROR of a negative errno, about a request."""
    return Message(ERROR, struct.pack("=i", code) + request, 0)


# ---- What the programs print ----

# Graphic ASCII, but for the backslash, is printed as it is, and any other byte of a name by its
# number.
PLAIN = {*b"!\"#$%&'()*+,-./0123456789:;<=>?@[]^_`{|}~",
         *b"ABCDEFGHIJKLMNOPQRSTUVWXYZabcdefghijklmnopqrstuvwxyz"}


def text(payload: Optional[bytes]) -> str:
    if payload is None:
        return "-"
    return "".join(chr(it) if it in PLAIN else f"\\x{it:02x}" for it in payload.split(b"\0")[0])


def address(payload: Optional[bytes]) -> str:
    return "-" if payload is None else ipaddress.ip_address(payload).compressed


def hardware(payload: Optional[bytes]) -> str:
    return payload.hex(":") if payload else "-"


def number(payload: Optional[bytes]) -> Optional[int]:
    return None if payload is None else int(struct.unpack("=I", payload)[0])


def shown(value: Optional[int]) -> str:
    return "-" if value is None else f"{value}"


def state(found: Attributes) -> str:
    return STATES[found[IFLA_OPERSTATE][0]] if IFLA_OPERSTATE in found else "-"


def gateway(found: Attributes) -> str:
    if RTA_GATEWAY not in found and RTA_VIA in found:
        return address(found[RTA_VIA][2:])
    return address(found.get(RTA_GATEWAY))


def destination(body: bytes) -> str:
    return f"{address(attributes(body[12:])[RTA_DST])}/{body[1]}" if body[1] else "default"


def link_line(body: bytes) -> str:
    found = attributes(body[16:])
    mtu = shown(number(found.get(IFLA_MTU)))
    name = text(found.get(IFLA_IFNAME))
    return f"{name} {state(found)} {mtu} {hardware(found.get(IFLA_ADDRESS))}"


def names(links: Iterable[Message]) -> Dict[int, str]:
    """The name of each link, by its index."""
    heads = ((struct.unpack_from("=i", it.body, 4)[0], attributes(it.body[16:])) for it in links)
    return {index: text(found.get(IFLA_IFNAME)) for index, found in heads}


def route_lines(body: bytes, named: Dict[int, str]) -> List[str]:
    found = attributes(body[12:])
    table = number(found.get(RTA_TABLE, struct.pack("=I", body[4])))
    ways = [(number(found.get(RTA_OIF)) or 0, found)]
    if RTA_MULTIPATH in found:
        ways = [*hops(found[RTA_MULTIPATH])]
    front = destination(body)
    return [f"{front} {gateway(it)} {named.get(index, '-')} {table}" for index, it in ways]


def change_line(message: Message) -> List[str]:
    """What `watch` prints of a message: one line, or none."""
    kind, body = message.kind, message.body
    verb = {0: "new", 1: "del"}.get(kind % 4)
    if verb is None:
        return []
    if kind - kind % 4 == NEWLINK:
        found = attributes(body[16:])
        return [f"{verb} link {text(found.get(IFLA_IFNAME))} {state(found)}"]
    if kind - kind % 4 == NEWADDR:
        at = address(attributes(body[8:]).get(IFA_ADDRESS))
        return [f"{verb} addr {at}/{body[1]} {struct.unpack_from('=I', body, 4)[0]}"]
    if kind - kind % 4 == NEWROUTE:
        found = attributes(body[12:])
        index = shown(number(found.get(RTA_OIF)))
        return [f"{verb} route {destination(body)} {gateway(found)} {index}"]
    if kind - kind % 4 == NEWNEIGH:
        found = attributes(body[12:])
        to, lower = address(found.get(NDA_DST)), hardware(found.get(NDA_LLADDR))
        return [f"{verb} neigh {to} {lower} {struct.unpack_from('=i', body, 4)[0]}"]
    return []
