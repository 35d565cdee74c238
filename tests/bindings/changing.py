"""The two programs that change something, `link_up` and `route_add`: over a played kernel, which
says what each request must be, byte by byte, and answers it in each way that a kernel may; and
over the kernel in a network namespace, where `ip -j` says what has changed.
"""
import errno
import os
import socket
import struct
from ipaddress import ip_address, ip_network
from typing import Any, Dict, Iterator, List, Tuple

import in_kernel
import wire
from kernel import Answer, Command, Sent, nowhere, play, run
from played import BARE, FAULTS, Case, differs, ends
from wire import Message, attribute

# NLM_F_REQUEST and NLM_F_ACK; NLM_F_CREATE and NLM_F_EXCL besides.
ASKS, ADDS = 0x5, 0x605
USAGES = {
    "link_up": "link_up DEV [SOCKET]",
    "route_add": "route_add PREFIX via ADDRESS dev DEV [via ADDRESS dev DEV].. [SOCKET]",
}
# A gateway, and the name of the interface that leads to it.
Way = Tuple[str, str]
TO_IPV4, TO_IPV6 = "203.0.113.0/25", "2001:db8:eeee::/48"
BY_LO: List[Way] = [("192.0.2.9", "lo")]
PLAYED: List[Tuple[str, List[Way]]] = [
    (TO_IPV4, BY_LO),
    (TO_IPV6, [("2001:db8::9", "lo")]),
    ("0.0.0.0/0", [("192.0.2.9", "lo"), ("198.51.100.9", "lo"), ("192.0.2.8", "lo")]),
    (TO_IPV6, [("2001:db8::9", "lo"), ("2001:db8::8", "lo")]),
    (TO_IPV4, [("2001:db8::9", "lo")]),
]


def words_of(to: str, ways: List[Way]) -> List[str]:
    return [to, *(word for gateway, name in ways for word in ("via", gateway, "dev", name))]


def up_request(name: str) -> bytes:
    """The request that brings a link up: struct ifinfomsg with IFF_UP and its bit in the mask."""
    head = struct.pack("=BxHiII", 0, 0, 0, 1, 1)
    named = attribute(wire.IFLA_IFNAME, name.encode() + b"\0")
    return wire.packed(Message(wire.NEWLINK, head + named, ASKS), 1)


def gateway_of(text: str) -> bytes:
    return attribute(wire.RTA_GATEWAY, ip_address(text).packed)


def route_request(to: str, ways: List[Way]) -> bytes:
    """The request that adds a route to the main table, by RTPROT_STATIC and of RTN_UNICAST."""
    network = ip_network(to)
    family = {4: 2, 6: 10}[network.version]
    head = struct.pack("=BBBBBBBBI", family, network.prefixlen, 0, 0, 254, 4, 0, 1, 0)
    indexed = [(gateway_of(gateway), socket.if_nametoindex(name)) for gateway, name in ways]
    if len(ways) == 1:
        ((gateway, index),) = indexed
        behind = gateway + attribute(wire.RTA_OIF, struct.pack("=I", index))
    else:
        hops = (struct.pack("=HBBi", 8 + len(it), 0, 0, index) + it for it, index in indexed)
        behind = attribute(wire.RTA_MULTIPATH, b"".join(hops))
    destination = attribute(wire.RTA_DST, network.network_address.packed)
    return wire.packed(Message(wire.NEWROUTE, head + destination + behind, ADDS), 1)


def acknowledges(code: int = 0) -> Answer:
    """The kernel's answer to a request, behind what is no answer to it: a notification, an answer
    to another request, and a message of another type with its number."""
    def answer(_: int, request: bytes) -> Sent:
        others = [wire.packed(BARE._replace(flags=0), 0),
                  wire.packed(wire.failure(-errno.EIO, request), 77)
                  + wire.packed(BARE._replace(flags=0), 1)]
        return [*others, wire.packed(wire.failure(code, request), 1)]
    return answer


def asks(name: str, command: Command, wanted: bytes) -> Iterator[Case]:
    """The request of a program, which is acknowledged, and then one that is refused."""
    ended = play(command, acknowledges())
    found = [it.hex() for it in ended.requests]
    yield name, ends(ended, "", "", 0) + differs("requests", found, [wanted.hex()])
    program = name.split(":")[0]
    for code in (errno.EPERM, errno.EEXIST, errno.ENODEV):
        text = f"refused: {os.strerror(code)}"
        yield f"{name}, {text}", ends(
            play(command, acknowledges(-code)), "", f"{program}: {text}", 3)


def goes_wrong(program: str, command: Command) -> Iterator[Case]:
    """Answers that are broken, cut, or missing."""
    cut = wire.packed(Message(wire.NEWLINK, BARE.body + bytes(65536)), 1)
    cases = [(f"broken datagram: {fault}", 1, [made(1)]) for _, fault, made in FAULTS]
    cases += [("cut datagram", 4, [cut])]
    for text, status, sent in cases:
        def answer(_: int, __: bytes, sent: List[bytes] = sent) -> Sent:
            return [*sent]
        yield f"{program}: {text}", ends(play(command, answer), "", f"{program}: {text}", status)
    early = f"{program}: the answer ended early"
    others: Dict[str, List[bytes]] = {"no answer": [], "another's": [wire.packed(BARE, 77)]}
    for what, before in others.items():
        def stops(_: int, __: bytes, before: List[bytes] = before) -> Sent:
            return [*before, None]
        yield f"{program}: {what}", ends(play(command, stops), "", early, 2)
    text = f"{program}: {os.strerror(errno.ENOENT)}"
    yield f"{program}: no socket", ends(run([*command, nowhere()]), "", text, 2)


# Words that are none of a route, each in place of those that are.
MISUSED = ["", TO_IPV4, f"{TO_IPV4} socket", f"{TO_IPV4} via 192.0.2.9 dev",
           f"{TO_IPV4} by 192.0.2.9 dev lo", f"{TO_IPV4} via 192.0.2.9 on lo",
           f"{TO_IPV4} via 192.0.2 dev lo", f"{TO_IPV4} via 192.0.2.9 dev lo via 192.0.2.8",
           "203.0.113.0/33 via 192.0.2.9 dev lo", "2001:db8::/129 via 2001:db8::9 dev lo",
           "203.0.113.0 via 192.0.2.9 dev lo", "203.0.113/24 via 192.0.2.9 dev lo",
           "203.0.113.0/ via 192.0.2.9 dev lo", "203.0.113.0/-1 via 192.0.2.9 dev lo"]


def misused(commands: Dict[str, Command]) -> Iterator[Case]:
    cases = [("link_up", ""), ("link_up", "lo socket more")]
    for program, words in [*cases, *(("route_add", it) for it in MISUSED)]:
        ended = run([*commands[program], *words.split()])
        yield f"{program}: '{words}'", ends(ended, "", f"usage: {USAGES[program]}", 2)
    for ways in ([("192.0.2.9", "none0")], [*BY_LO, ("192.0.2.8", "none0")]):
        ended = run([*commands["route_add"], *words_of(TO_IPV4, ways)])
        yield "route_add: no interface", ends(ended, "", "route_add: no interface none0", 2)


def played_cases(commands: Dict[str, Command]) -> Iterator[Case]:
    """Over a played kernel."""
    up, add = commands["link_up"], commands["route_add"]
    for name in ("lo", "fifteen-letters"):
        yield from asks(f"link_up: {name}", [*up, name], up_request(name))
    for to, ways in PLAYED:
        words = words_of(to, ways)
        yield from asks(f"route_add: {' '.join(words)}", [*add, *words], route_request(to, ways))
    yield from goes_wrong("link_up", [*up, "lo"])
    yield from goes_wrong("route_add", [*add, *words_of(TO_IPV4, BY_LO)])
    yield from misused(commands)


# ---- Over the kernel ----

PAIR = "raised", "raised-peer"
# Routes over it, of one next hop and of two.
ADDED: List[Tuple[str, List[Way]]] = [
    (TO_IPV4, [("192.0.2.9", "raised")]),
    ("203.0.113.128/25", [("192.0.2.9", "raised"), ("198.51.100.9", "raised-peer")]),
    (TO_IPV6, [("2001:db8:ffff::9", "raised")]),
    ("2001:db8:eeef::/48", [("2001:db8:ffff::9", "raised"), ("2001:db8:ffff::8", "raised")]),
]


def is_up(name: str) -> bool:
    (link,) = in_kernel.said("link", "show", name)
    return "UP" in link["flags"]


def route_says(to: str) -> Dict[str, Any]:
    """What `ip -j` says of a route of the main table."""
    family = "-6" if ":" in to else "-4"
    found = in_kernel.said("-d", family, "route", "show", to)
    return found[0] if len(found) == 1 else {}


def has_ways(to: str, ways: List[Way]) -> List[str]:
    """What is not so of a route that was added: by RTPROT_STATIC, and with these next hops."""
    says = route_says(to)
    found = [(in_kernel.gateway_in(it), it.get("dev", "-"), it.get("weight", 1))
             for it in says.get("nexthops") or [says]]
    wanted = [(gateway, name, 1) for gateway, name in ways]
    return differs("next hops", found, wanted) + differs("protocol", says.get("protocol"), "4")


def adds(command: Command, to: str, ways: List[Way]) -> Iterator[Case]:
    words = words_of(to, ways)
    wrong = ends(run([*command, *words]), "", "", 0)
    yield f"route_add in the kernel: {' '.join(words)}", wrong or has_ways(to, ways)
    text = f"route_add: refused: {os.strerror(errno.EEXIST)}"
    yield "route_add in the kernel, again", ends(run([*command, *words]), "", text, 3)
    if route_says(to):
        in_kernel.ip("-6" if ":" in to else "-4", "route", "del", to)


def kernel_cases(commands: Dict[str, Command]) -> Iterator[Case]:
    """Over the kernel: a pair of links that are down is brought up, and routes lead over them."""
    in_kernel.ip("link", "add", PAIR[0], "type", "veth", "peer", "name", PAIR[1])
    try:
        for name in PAIR:
            wrong = [f"{name} is up already"] if is_up(name) else []
            wrong += ends(run([*commands["link_up"], name]), "", "", 0)
            yield f"link_up in the kernel: {name}", wrong + differs("up", is_up(name), True)
        text = f"link_up: refused: {os.strerror(errno.ENODEV)}"
        yield "link_up in the kernel: no link", ends(
            run([*commands["link_up"], "none0"]), "", text, 3)
        in_kernel.batch(["addr add 192.0.2.1/24 dev raised",
                         "addr add 198.51.100.1/24 dev raised-peer",
                         "addr add 2001:db8:ffff::1/64 dev raised nodad"])
        for to, ways in ADDED:
            yield from adds(commands["route_add"], to, ways)
        command = [*commands["route_add"], *words_of(TO_IPV4, [("203.0.113.200", "raised")])]
        text = f"route_add: refused: {os.strerror(errno.ENETUNREACH)}"
        yield "route_add in the kernel: no way", ends(run(command), "", text, 3)
    finally:
        in_kernel.ip("link", "del", PAIR[0])
