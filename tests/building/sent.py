#!/usr/bin/env python3
"""Sends to the kernel, in a network namespace of its own, what the builder for C builds: links,
addresses, routes, neighbours and rules. Each is acknowledged, and what `ip -j` says of it then is
what was asked; then half of them are deleted, many in one datagram, and the others stay.

  tests/building/sent.py PUT

PUT is put.c, compiled. The last line is 'N passed, M failed'; the status is 1 where a case failed.
"""
import errno
import json
import os
import socket
import struct
import sys
from typing import Any, Callable, Dict, Iterator, List, NamedTuple, Tuple

sys.dont_write_bytecode = True
HERE = os.path.dirname(os.path.realpath(__file__))
sys.path[:0] = [HERE, f"{HERE}/../helpers", f"{HERE}/../bindings"]
from calls import *
from counting import counted
from in_kernel import quiet, said
from namespace import entered

PAIRS, ADDRESSES, ROUTES, NEIGHBOURS, RULES = 4, 40, 200, 60, 40
# Other kinds of links, which a kernel may lack.
OTHERS = ["dummy", "bridge"]
Case = Tuple[str, List[str]]


class Thing(NamedTuple):
    """What is asked for: how it is added and deleted, and what ip is to say of it."""

    name: str
    add: Calls
    delete: Calls
    wanted: Dict[str, Any]


class Kernel:
    """A socket, and the builder that makes what is sent on it."""

    def __init__(self, program: str) -> None:
        self.program = program
        self.socket = socket.socket(socket.AF_NETLINK, socket.SOCK_RAW, socket.NETLINK_ROUTE)
        self.socket.bind((0, 0))
        self.socket.settimeout(10)
        self.seq = 0

    def answer(self, seq: int) -> str:
        """What the kernel answers to the request of this number: an errno's name, or nothing."""
        while True:
            data = self.socket.recv(65536)
            _, kind, _, found, _, code = struct.unpack_from("<IHHIIi", data)
            if (kind, found) == (2, seq):
                return errno.errorcode[-code] if code else ""

    def ask(self, requests: List[Calls]) -> List[str]:
        """Sends each, and answers what the kernel says: nothing where it is done."""
        first = self.seq + 1
        self.seq += len(requests)
        numbered = [with_seq(it, first + at) for at, it in enumerate(requests)]
        answers = []
        for at, found in enumerate(built(self.program, numbered)):
            if found.startswith("refused"):
                answers.append(found)
                continue
            self.socket.send(bytes.fromhex(found))
            answers.append(self.answer(first + at))
        return answers

    def ask_together(self, requests: List[Calls]) -> List[str]:
        """The same, of all in one datagram."""
        first = self.seq + 1
        self.seq += len(requests)
        numbered = [with_seq(it, first + at) for at, it in enumerate(requests)]
        [found] = built(self.program, [[line for it in numbered for line in it]])
        if found.startswith("refused"):
            return [found]
        self.socket.send(bytes.fromhex(found))
        return [self.answer(first + at) for at in range(len(requests))]

    def done(self, name: str, requests: List[Calls], together: bool = False) -> Case:
        """A case: the kernel acknowledges each."""
        answers = (self.ask_together if together else self.ask)(requests)
        return name, [f"{it} of {calls}" for it, calls in zip(answers, requests) if it]


def with_seq(calls: Calls, seq: int) -> Calls:
    begin, kind, flags, _, *rest = calls[0].split()
    return [" ".join([begin, kind, flags, str(seq), *rest]), *calls[1:]]


def differences(wanted: Dict[str, Any], found: Dict[str, Any]) -> List[str]:
    """The fields that ip says otherwise; one that is None is not there."""
    return [f"{key}: asked {value}, found {found.get(key)}" for key, value in wanted.items()
            if found.get(key) != value]


def compared(things: List[Thing], found: Dict[Any, Dict[str, Any]], key: Any) -> Iterator[Case]:
    """Each thing beside what ip says of it, by a key of both."""
    for thing in things:
        there = found.get(key(thing.wanted))
        yield thing.name, ["it is not there"] if there is None else differences(thing.wanted,
                                                                                there)


# Links.


def pair(name: str, other: str) -> Calls:
    """A pair of links, the second in the data of the first: a head of a link and its name."""
    label = other.encode() + b"\0"
    attr = struct.pack("<HH", 4 + len(label), IFLA_IFNAME) + label + bytes(-len(label) % 4)
    data = nested(NESTED | IFLA_INFO_DATA, raw(VETH_INFO_PEER, bytes(16) + attr))
    return link(NEWLINK, ADD, text(IFLA_IFNAME, name),
                nested(IFLA_LINKINFO, text(IFLA_INFO_KIND, "veth"), data))


def made_links(kernel: Kernel) -> Iterator[Case]:
    pairs = [pair(f"left{at}", f"right{at}") for at in range(PAIRS)]
    yield kernel.done("pairs of links", pairs)
    for kind in OTHERS:
        asked = link(NEWLINK, ADD, text(IFLA_IFNAME, kind), u32(IFLA_MTU, 1300),
                     nested(IFLA_LINKINFO, text(IFLA_INFO_KIND, kind)))
        [answer] = kernel.ask([asked])
        if answer == "ENOTSUP":
            print(f"skipped: a link of kind {kind}, since this kernel has none")
        else:
            yield f"a link of kind {kind}", [answer] if answer else []


def changed_links(kernel: Kernel, index: Dict[str, int]) -> Iterator[Case]:
    """Each of the links gets an MTU, a queue, an alias and an address, and is up."""
    names = [name for name in index if name != "lo"]
    things = []
    for at, name in enumerate(names):
        mac = f"02:00:00:00:0a:{at:02x}"
        add = link(NEWLINK, SET, u32(IFLA_MTU, 1400 + at), u32(IFLA_TXQLEN, 100 + at),
                   address(IFLA_ADDRESS, mac), raw(IFLA_IFALIAS, f"alias-{at}".encode()),
                   index=index[name], state=1, change=1)
        things.append(Thing(f"link {name}", add, [], {
            "ifname": name, "mtu": 1400 + at, "txqlen": 100 + at, "address": mac,
            "ifalias": f"alias-{at}"}))
    yield kernel.done("links changed", [it.add for it in things] +
                      [link(NEWLINK, SET, index=index["lo"], state=1, change=1)])
    found = {it["ifname"]: it for it in said("-d", "link")}
    yield from compared(things, found, lambda it: it["ifname"])
    yield "links are up", [name for name in index if "UP" not in found[name]["flags"]]


# Addresses.


def addresses(names: List[str], index: Dict[str, int]) -> List[Thing]:
    things = []
    for at in range(ADDRESSES):
        name = names[at % len(names)]
        if at % 2:
            local, other, family, length = f"2001:db8:{at:x}::1", "", INET6, 64
        else:
            local, other, family, length = f"10.{at}.0.1", f"10.{at}.0.255", INET, 24
        parts = [address(IFA_LOCAL, local), address(IFA_ADDRESS, local)]
        if other:
            parts += [address(IFA_BROADCAST, other), text(IFA_LABEL, f"{name}:{at}")]
        state = 0 if other else 2
        things.append(Thing(
            f"address {local}",
            addr(NEWADDR, ADD, *parts, length=length, index=index[name], family=family,
                 state=state),
            addr(DELADDR, SET, *parts[:2], length=length, index=index[name], family=family),
            {"local": local, "prefixlen": length, "scope": "0",
             **({"broadcast": other, "label": f"{name}:{at}"} if other else {})}))
    return things


def addresses_found() -> Dict[Any, Dict[str, Any]]:
    return {it["local"]: it for link in said("-d", "addr") for it in link["addr_info"]}


# Routes.


def way(at: int, family: int, names: List[str], index: Dict[str, int]) -> Tuple[Calls, Any]:
    """Where a route leads, and what ip says of it: to one gateway, or to two or three."""
    own = 0 if family == INET else 1
    # Addresses whose index is even are of IPv4.
    places = [(at + turn) * 2 % ADDRESSES + own for turn in range(3)]
    gateways = [f"10.{it}.0.77" if family == INET else f"2001:db8:{it:x}::77" for it in places]
    links = [names[it % len(names)] for it in places]
    if at % 5:
        return (address(RTA_GATEWAY, gateways[0]) + u32(RTA_OIF, index[links[0]]),
                {"gateway": gateways[0], "dev": links[0]})
    count = 2 + at % 2
    weights = [1 + turn * (60 + at % 60) for turn in range(count)]
    hops = [hop(index[links[turn]], weights[turn], address(RTA_GATEWAY, gateways[turn]))
            for turn in range(count)]
    told = [{"gateway": gateways[turn], "dev": links[turn], "weight": weights[turn], "flags": []}
            for turn in range(count)]
    return nested(RTA_MULTIPATH, *hops), {"nexthops": told}


def routes(names: List[str], index: Dict[str, int]) -> List[Thing]:
    things = []
    for at in range(ROUTES):
        family = INET if at % 2 == 0 else INET6
        prefix, length = (f"172.{16 + at // 16}.{at % 16 * 16}.0", 20 + at % 5) if family == INET \
            else (f"2001:dba:{at:x}::", 48 + at % 40)
        table = (254, 100, 1000, 4294967294)[at // 2 % 4]
        path, told = way(at // 2, family, names, index)
        parts = [address(RTA_DST, prefix), path, u32(RTA_PRIORITY, 10 + at), u32(RTA_TABLE, table)]
        metrics = {"mtu": 1300 + at % 50, "advmss": 1200 + at % 30} if at % 3 == 0 else {}
        if metrics:
            parts.append(nested(RTA_METRICS, u32(RTAX_MTU, metrics["mtu"]),
                                u32(RTAX_ADVMSS, metrics["advmss"])))
        head = {"family": family, "length": length, "table": table if table < 256 else 0,
                "protocol": 3 + at % 2}
        things.append(Thing(
            f"route {prefix}/{length}", route(NEWROUTE, ADD, *parts, **head),
            route(DELROUTE, SET, *parts[:1], *parts[2:4], **head),
            {"dst": f"{prefix}/{length}", "table": str(table), "metric": 10 + at,
             "protocol": str(3 + at % 2), "metrics": [metrics] if metrics else None, **told}))
    return things


def routes_found() -> Dict[Any, Dict[str, Any]]:
    both = said("-d", "-4", "route", "show", "table", "all") + \
        said("-d", "-6", "route", "show", "table", "all")
    # The main table is not named.
    return {it["dst"]: {"table": "254", **it} for it in both}


# Neighbours.


def neighbours(names: List[str], index: Dict[str, int]) -> List[Thing]:
    things = []
    for at in range(NEIGHBOURS):
        name = names[at % len(names)]
        family, to = (INET, f"10.{at}.0.9") if at % 2 else (INET6, f"2001:db8:{at + 1:x}::9")
        state, told = [(0x80, "PERMANENT"), (0x40, "NOARP"), (2, "REACHABLE")][at % 3]
        mac = f"02:00:00:00:0b:{at:02x}"
        marks = 0x80 if at % 6 == 0 else 0
        things.append(Thing(
            f"neighbour {to}",
            neigh(NEWNEIGH, ADD, address(NDA_DST, to), address(NDA_LLADDR, mac),
                  index=index[name], family=family, state=state, marks=marks),
            neigh(DELNEIGH, SET, address(NDA_DST, to), index=index[name], family=family, state=0),
            {"dst": to, "dev": name, "lladdr": mac, "state": [told]}))
    return things


def neighbours_found() -> Dict[Any, Dict[str, Any]]:
    return {it["dst"]: it for it in said("-d", "neigh", "show", "nud", "all")}


# Rules.


def rules(names: List[str], _: Dict[str, int]) -> List[Thing]:
    things = []
    for at in range(RULES):
        family = INET if at % 2 else INET6
        source, length = (f"10.{at}.0.0", 16) if family == INET else (f"2001:db8:{at + 1:x}::", 48)
        table = 100 if at % 3 else 1000
        name = names[at % len(names)]
        parts = [address(FRA_SRC, source), u32(FRA_PRIORITY, 1000 + at), u32(FRA_TABLE, table),
                 u32(FRA_FWMARK, 16 + at), u32(FRA_FWMASK, 0xff)]
        if at % 4 == 0:
            parts.append(text(FRA_IIFNAME, name))
        head = {"family": family, "source": length, "table": table if table < 256 else 0}
        things.append(Thing(
            f"rule {1000 + at}", rule(NEWRULE, ADD, *parts, **head),
            rule(DELRULE, SET, *parts, **head),
            {"priority": 1000 + at, "src": source, "srclen": length, "table": str(table),
             "fwmark": hex(16 + at), "fwmask": "0xff", "iif": name if at % 4 == 0 else None}))
    return things


def rules_found() -> Dict[Any, Dict[str, Any]]:
    return {it["priority"]: it for it in said("-d", "-4", "rule") + said("-d", "-6", "rule")}


# What is added, what ip says of it, and by which of its fields it is found there.
SORTS: List[Tuple[str, Callable[[List[str], Dict[str, int]], List[Thing]],
                  Callable[[], Dict[Any, Dict[str, Any]]], Callable[[Dict[str, Any]], Any]]] = [
    ("addresses", addresses, addresses_found, lambda it: it["local"]),
    ("routes", routes, routes_found, lambda it: it["dst"]),
    ("neighbours", neighbours, neighbours_found, lambda it: it["dst"]),
    ("rules", rules, rules_found, lambda it: it["priority"]),
]


def cases(program: str) -> Iterator[Case]:
    kernel = Kernel(program)
    quiet()
    yield from made_links(kernel)
    index = {it["ifname"]: it["ifindex"] for it in said("link")}
    yield from changed_links(kernel, index)
    names = [name for name in index if name.startswith(("left", "right"))]
    for what, make, found, key in SORTS:
        things = make(names, index)
        yield kernel.done(f"{what} added", [it.add for it in things])
        yield from compared(things, found(), key)
        again = kernel.ask([it.add for it in things])
        yield f"{what} added again", [it for it in again if it != "EEXIST"]
    for what, make, found, key in reversed(SORTS):
        things = make(names, index)
        deleted = [it.delete for it in things[::2]]
        yield kernel.done(f"{what} deleted", deleted, together=True)
        there = found()
        yield f"{what} that are gone", [it.name for it in things[::2] if key(it.wanted) in there]
        yield f"{what} that stay", [it.name for it in things[1::2] if key(it.wanted) not in there]


def main(words: List[str]) -> int:
    if len(words) != 1:
        print("usage: tests/building/sent.py PUT", file=sys.stderr)
        return 2
    if not entered(__file__, words, "requests to the kernel"):
        return counted([])
    return counted(cases(words[0]))


if __name__ == "__main__":
    sys.exit(main(sys.argv[1:]))
