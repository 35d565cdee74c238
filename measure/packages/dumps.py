"""The dumps and notifications that the packages and their peers read, made of a recording's
messages: these again and again, numbered anew, so that no two entries of a dump have one key."""
import os
import re
import struct
import sys
from typing import Callable, Iterable, Iterator, List, Tuple

sys.path.insert(0, os.path.join(os.path.dirname(os.path.abspath(__file__)), ".."))
from datagrams import DATAGRAM, attribute, datagrams_of, number, sized

# The port id of the answers, as measure/dump.h and the sources of the programs have it.
PORT = 2
NEW_LINK, NEW_ADDR, NEW_ROUTE, NEW_NEIGH, DONE = 16, 20, 24, 28, 3
IFNAME, DST, OIF, GATEWAY, MULTIPATH = 3, 1, 4, 5, 9
INET, INET6 = 2, 10

# The links of a dump of them, those in front of routes, the routes of each address family, and the
# notifications.
LINKS, INTERFACES, ROUTES, NOTIFICATIONS = 1_000, 100, 50_000, 100_000

# One route of IPv4 in so many has so many next hops in place of its gateway.
EACH, HOPS = 100, 4

# The kinds of each ten notifications. Each third one says that something is gone.
MIX = [NEW_LINK, NEW_ADDR] + [NEW_ROUTE, NEW_NEIGH] * 4
GONE = 3

# Links of this type are left out: netlink-packet-route 0.12 refuses them.
LEFT_OUT = re.compile(rb"vxlan\0")

RECORDINGS = {
    NEW_LINK: "links.hex", NEW_ADDR: "addresses.hex", NEW_ROUTE: "routes.hex",
    NEW_NEIGH: "neighbours.hex"}


def message(kind: int, body: bytes, seq: int, port: int, flags: int = 2) -> bytes:
    """A message of a dump, or a notification where its flags and numbers are 0."""
    return struct.pack("<IHHII", 16 + len(body), kind, flags, seq, port) + body


def parts_of(region: bytes, begin: int, head: int) -> Iterator[Tuple[int, bytes]]:
    """What stands one behind another in a region, from an offset on: the numbers and the bytes
    behind the head of messages or attributes, whose length stands first."""
    form, at = {16: "<IH", 4: "<HH"}[head], begin
    while at + head <= len(region):
        size, number_of_it = struct.unpack_from(form, region, at)
        yield number_of_it, region[at + head:at + size]
        at += (size + 3) // 4 * 4


def bodies_of(path: str, kind: int) -> List[bytes]:
    """The bodies of a recording's messages of a type."""
    return [
        body for datagram in datagrams_of(path) for found, body in parts_of(datagram, 0, 16)
        if found == kind]


def link(body: bytes, index: int) -> bytes:
    """A link with an index and a name of its own."""
    attributes = b"".join(
        attribute(it, b"eth%05d\0" % index if it == IFNAME else payload)
        for it, payload in parts_of(body, 16, 4))
    return body[:4] + struct.pack("<i", index + 1) + body[8:16] + attributes


def next_hops(index: int) -> bytes:
    """RTA_MULTIPATH: next hops with an interface and a gateway each."""
    hops = b""
    for hop in range(HOPS):
        gateway = number(GATEWAY, 0x0A000002 + (hop << 8), ">I")
        interface = 1 + (index + hop) % INTERFACES
        hops += struct.pack("<HBBi", 8 + len(gateway), 0, 0, interface) + gateway
    return attribute(MULTIPATH, hops)


def route(body: bytes, index: int) -> bytes:
    """A route with a destination of its own, and one of the interfaces."""
    has_hops = body[0] == INET and index % EACH == 0
    attributes = b""
    for it, payload in parts_of(body, 12, 4):
        if it == DST and body[0] == INET:
            payload = struct.pack(">I", 0x0A000000 + (index << 8))
        elif it == DST:
            payload = struct.pack(">II", 0x20010DB8, index) + payload[8:]
        elif it == OIF:
            payload = struct.pack("<I", 1 + index % INTERFACES)
        if not has_hops or it not in (OIF, GATEWAY):
            attributes += attribute(it, payload)
    return body[:12] + attributes + (next_hops(index) if has_hops else b"")


def dump(kind: int, bodies: Iterable[bytes], seq: int) -> List[bytes]:
    """The datagrams of a dump, as large as the kernel makes them for a buffer that is large
    enough."""
    datagrams = [b""]
    for body in bodies:
        it = message(kind, body, seq, PORT)
        if len(datagrams[-1]) + len(it) > DATAGRAM:
            datagrams.append(b"")
        datagrams[-1] += it
    return [*filter(None, datagrams), message(DONE, bytes(4), seq, PORT)]


def numbered(make: Callable[[bytes, int], bytes], bodies: List[bytes],
             many: int) -> Iterator[bytes]:
    """So many bodies, made of these again and again."""
    return (make(bodies[it % len(bodies)], it) for it in range(many))


class Recording:
    """The messages of a folder's recordings, as measure/record.sh makes them."""

    def __init__(self, folder: str) -> None:
        self.bodies = {
            kind: bodies_of(os.path.join(folder, name), kind) for kind, name in RECORDINGS.items()}
        links = self.bodies[NEW_LINK]
        self.bodies[NEW_LINK] = [it for it in links if not LEFT_OUT.search(it)]
        # A destination must have room for a number of its own.
        self.routes = {
            family: [it for it in self.bodies[NEW_ROUTE] if it[0] == family and it[1] >= least]
            for family, least in ((INET, 24), (INET6, 64))}

    def links(self, many: int, further: Iterable[bytes] = ()) -> bytes:
        """What `links` reads: a dump of so many links."""
        bodies = numbered(link, self.bodies[NEW_LINK], many)
        return sized([*dump(NEW_LINK, bodies, 1), *further])

    def all_routes(self, many: int) -> bytes:
        """What `routes` reads: links, and so many routes of each address family."""
        routes = [
            it for seq, family in ((2, INET), (3, INET6))
            for it in dump(NEW_ROUTE, numbered(route, self.routes[family], many), seq)]
        return self.links(min(many, INTERFACES), routes)

    def notification(self, index: int) -> bytes:
        """One of many notifications."""
        kind, turn = MIX[index % len(MIX)], index // len(MIX)
        found = self.bodies[kind]
        if kind == NEW_ROUTE:
            found = self.routes[INET] + self.routes[INET6]
        body = found[turn % len(found)]
        if kind in (NEW_LINK, NEW_ROUTE):
            body = (link if kind == NEW_LINK else route)(body, turn)
        return message(kind + (index % GONE == GONE - 1), body, 0, 0, 0)

    def notifications(self, many: int) -> bytes:
        """What `watch` reads: notifications, one a datagram."""
        return sized([self.notification(it) for it in range(many)])
