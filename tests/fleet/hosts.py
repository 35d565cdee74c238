#!/usr/bin/env python3
"""Makes recordings of made-up hosts, for tests/fleet.sh, and writes what is to be found in them.

  tests/fleet/hosts.py FOLDER COUNT

FOLDER/hosts gets a folder for each of COUNT hosts: a third of them have a recording of their links
and one of their routes, the others one recording of both. The files in FOLDER/known say of them:

  answer      the hosts that have an IPv4 default route by eth1 with a metric below 100
  failed      each recording that isn't read as a whole: the status, its name, what is said of it
  lines       each host, and how many lines of JSON its recordings give
  unfinished  the hosts of which such lines are there, but not the ends of two dumps

None of this is found by a search: what a host has, and whether it is among the answers, is written
in the table SORTS. The numbers are those of the kernel's headers, in the little order.
"""
import os
import random
import struct
import sys
from typing import Callable, Dict, List, NamedTuple, Optional, Tuple

# linux/netlink.h, linux/rtnetlink.h, linux/if_link.h, bits/socket.h
NLM_F_MULTI, NLMSG_DONE = 2, 3
RTM_NEWLINK, RTM_NEWROUTE, RTM_DELROUTE = 16, 24, 25
IFLA_IFNAME, IFLA_MTU = 3, 4
RTA_DST, RTA_OIF, RTA_GATEWAY, RTA_PRIORITY, RTA_MULTIPATH, RTA_TABLE = 1, 4, 5, 6, 9, 15
RT_TABLE_COMPAT, RT_TABLE_MAIN, RT_TABLE_LOCAL = 252, 254, 255
RTPROT_BOOT, RTN_UNICAST, RTN_LOCAL = 3, 1, 2
AF_UNSPEC, AF_INET, AF_INET6 = 0, 2, 10
ARPHRD_ETHER = 1

SEQUENCE, PORT = 1, 4242
LINKS = "lo", "eth0", "eth1", "eth10", "eth1.100", 'eth"\\1'
# What may stand at the end of a folder's name.
ODD = ["\\n", " it's", ' "x"', " 7", " $HOME", "%s", "\ttab", " zürich", ";x", "*", "\nx"]
ODD += [".json", "&"]

At = Dict[str, int]


def padded(item: bytes) -> bytes:
    return item + bytes(-len(item) % 4)


def attribute(number: int, payload: bytes) -> bytes:
    return padded(struct.pack("<HH", 4 + len(payload), number) + payload)


def u32(number: int, value: int) -> bytes:
    return attribute(number, struct.pack("<I", value))


def message(kind: int, body: bytes) -> bytes:
    return struct.pack("<IHHII", 16 + len(body), kind, NLM_F_MULTI, SEQUENCE, PORT) + body


def link(name: str, index: int) -> bytes:
    head = struct.pack("<BxHiII", AF_UNSPEC, ARPHRD_ETHER, index, 1, 0)
    return message(
        RTM_NEWLINK,
        head + attribute(IFLA_IFNAME, name.encode() + b"\0") + u32(IFLA_MTU, 1500),
    )


class Way(NamedTuple):
    """What the head of a route says: of a default route where nothing else is said."""

    family: int = AF_INET
    length: int = 0
    table: int = RT_TABLE_MAIN
    kind: int = RTN_UNICAST
    verb: int = RTM_NEWROUTE


def route(way: Way, *attributes: bytes) -> bytes:
    table = way.table if way.table < 256 else RT_TABLE_COMPAT
    head = (way.family, way.length, 0, 0, table, RTPROT_BOOT, 0, way.kind, 0)
    inside = u32(RTA_TABLE, way.table) + b"".join(attributes)
    return message(way.verb, struct.pack("<8BI", *head) + inside)


DEFAULT = Way()


def by(index: int, metric: Optional[int], way: Way = DEFAULT) -> bytes:
    """A route by one interface, with this metric or without one."""
    size = {AF_INET: 4, AF_INET6: 16}[way.family]
    found = [attribute(RTA_DST, bytes([10] * size))] if way.length else []
    found += [attribute(RTA_GATEWAY, bytes([10] * size)), u32(RTA_OIF, index)]
    return route(way, *found, *([] if metric is None else [u32(RTA_PRIORITY, metric)]))


def over(indexes: List[int], metric: Optional[int]) -> bytes:
    """A default route over next hops by these interfaces."""
    gateway = attribute(RTA_GATEWAY, bytes([10] * 4))
    hops = [struct.pack("<HBBi", 8 + len(gateway), 0, 0, index) + gateway for index in indexes]
    found = [attribute(RTA_MULTIPATH, b"".join(hops))]
    return route(DEFAULT, *found, *([] if metric is None else [u32(RTA_PRIORITY, metric)]))


def line(*messages: bytes) -> str:
    return b"".join(messages).hex()


def cut(last: bytes) -> str:
    """A line whose datagram is refused: its message is longer than what there is of it."""
    return line(last[:-4])


DONE = line(message(NLMSG_DONE, struct.pack("<i", 0)))
NO_DATAGRAM = "no datagram"


class Sort(NamedTuple):
    """Hosts of one sort: whether they are among the answers, the lines of their routes by the
    indexes of their links, whether these are read as a whole, and what ends them."""

    is_answer: bool
    routes: Callable[[At], List[str]]
    is_whole: bool = True
    end: Tuple[str, ...] = (DONE,)
    links: Tuple[str, ...] = LINKS


def one(is_answer: bool, metric: Optional[int], way: Way = DEFAULT, name: str = "eth1") -> Sort:
    """Hosts with one such route by the link of this name."""
    return Sort(is_answer, lambda at: [line(by(at[name], metric, way))])


def both(eth0: int, eth1: int, is_answer: bool) -> Sort:
    """Hosts with two default routes of these metrics."""
    return Sort(is_answer, lambda at: [line(by(at["eth0"], eth0), by(at["eth1"], eth1))])


def hops(names: str, metric: Optional[int], is_answer: bool) -> Sort:
    """Hosts with one default route over several links."""
    return Sort(is_answer, lambda at: [line(over([at[name] for name in names.split()], metric))])


RENAMED = tuple("ETH1" if name == "eth1" else name for name in LINKS)
WITHOUT = tuple(name for name in LINKS if name != "eth1")
SORTS = [
    # The metric.
    one(True, 50),
    one(True, 99),
    one(False, 100),
    one(False, 101),
    one(True, None),
    one(False, 2**32 - 1),
    # The link's name and index.
    one(False, 50, name="eth0"),
    one(False, 50, name="eth10"),
    one(False, 50, name="eth1.100"),
    one(False, 50, name='eth"\\1'),
    Sort(False, lambda at: [line(by(at["ETH1"], 50))], links=RENAMED),
    Sort(False, lambda at: [line(by(at["eth0"], 50), over([at["eth0"], 99], 50))], links=WITHOUT),
    # The head: 0.0.0.0/1 and IPv6, other tables, a local route, one that went away.
    one(False, 50, Way(length=1)),
    one(False, 50, Way(length=24)),
    one(False, 50, Way(family=AF_INET6)),
    one(True, 50, Way(table=1000)),
    one(False, 50, Way(table=100, kind=RTN_LOCAL)),
    one(False, 50, Way(verb=RTM_DELROUTE)),
    # Two default routes, and none.
    both(10, 200, False),
    both(200, 10, True),
    Sort(False, lambda at: []),
    # Several next hops.
    hops("eth0 eth1", 20, True),
    hops("eth1 eth0", None, True),
    hops("eth0 eth10 eth1", 99, True),
    hops("eth1 eth1", 20, True),
    hops("eth0 eth1", 100, False),
    hops("eth0 eth10", 20, False),
    # A datagram that is refused, behind the route and with it; a line that isn't one, no end.
    Sort(True, lambda at: [line(by(at["eth1"], 50)), cut(by(at["eth0"], 60))], is_whole=False),
    Sort(False, lambda at: [line(by(at["eth0"], 50)), cut(by(at["eth1"], 60))], is_whole=False),
    Sort(False, lambda at: [line(by(at["eth1"], 50)), NO_DATAGRAM], is_whole=False),
    Sort(True, lambda at: [line(by(at["eth1"], 50))], end=()),
]


def common(at: At) -> str:
    """What every host has beside its sort: routes that aren't default ones, or not by eth1."""
    index = at.get("eth1", at["eth0"])
    local = Way(length=32, table=RT_TABLE_LOCAL, kind=RTN_LOCAL)
    return line(by(index, 10, Way(length=24)), by(index, None, local), by(at["eth0"], 1024))


def turn(number: int) -> int:
    """How many hosts of its sort stand before this one."""
    return number // len(SORTS)


def recordings(number: int, sort: Sort) -> Dict[str, List[str]]:
    """The recordings of a host, each with its lines."""
    drawn = random.Random(number)
    at = dict(zip(sort.links, [1, *drawn.sample(range(2, 12), len(sort.links) - 1)]))
    names = drawn.sample(sort.links, len(sort.links))
    links = [line(*(link(name, at[name]) for name in names)), DONE]
    routes = [common(at), *sort.routes(at), *sort.end]
    if (number + turn(number)) % 3 == 0:
        return {"links.hex": links, "routes.hex": routes}
    return {"both.hex": links + routes}


class Known(NamedTuple):
    """What is to be found, by lines: each list becomes a file of its name."""

    answer: List[str]
    failed: List[str]
    lines: List[str]
    unfinished: List[str]


def write(path: str, lines: List[str]) -> None:
    with open(path, "w", encoding="utf-8") as file:
        file.write("".join(f"{text}\n" for text in lines))


def add(folder: str, name: str, number: int, known: Known) -> None:
    """Writes the recordings of a host, and adds what is to be found in them."""
    sort = SORTS[number % len(SORTS)]
    os.makedirs(f"{folder}/hosts/{name}")
    printed: List[str] = []
    for file, found in recordings(number, sort).items():
        content = [f"# seq {SEQUENCE} port {PORT}", *found]
        write(f"{folder}/hosts/{name}/{file}", content)
        fault = f"1 hosts/{name}/{file}"
        if NO_DATAGRAM in found:
            line = content.index(NO_DATAGRAM) + 1
            fault += f": rtnl: line {line}: bad line"
        else:
            printed += found
        if file != "links.hex" and not sort.is_whole:
            known.failed.append(fault)
    if sort.is_answer:
        known.answer.append(name)
    if printed:
        known.lines.append(f"{name}|{len(printed)}")
        if printed.count(DONE) < 2:
            known.unfinished.append(name)


def main(folder: str, count: int) -> None:
    known = Known([], [], [], [])
    for number in range(count):
        # Of the last third each has an odd name.
        odd = ODD[(number + turn(number)) % len(ODD)] if 3 * number >= 2 * count else ""
        add(folder, f"host{number:04}{odd}", number, known)
    os.makedirs(f"{folder}/known")
    for title, found in zip(Known._fields, known):
        write(f"{folder}/known/{title}", found)


if __name__ == "__main__":
    main(sys.argv[1], int(sys.argv[2]))
