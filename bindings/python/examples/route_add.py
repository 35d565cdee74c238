#!/usr/bin/env python3
"""Adds a route with one next hop or more, and waits for the kernel's acknowledgement.
route_add.py PREFIX via ADDRESS dev DEV [via ADDRESS dev DEV].. [SOCKET]"""
import ipaddress
import sys
from dataclasses import replace
from typing import List, Tuple

import source
from change import change, index_of, misused

import rtnl
from rtnl.constants import RT_TABLE_MAIN, RTN_UNICAST, RTPROT_STATIC
from rtnl.values import IPAddress

USAGE = "route_add PREFIX via ADDRESS dev DEV [via ADDRESS dev DEV].. [SOCKET]"
# A gateway, and the name of the interface that leads to it.
Way = Tuple[IPAddress, str]


def prefix_of(word: str) -> rtnl.Prefix:
    address, slash, length = word.partition("/")
    found = rtnl.Prefix(ipaddress.ip_address(address), int(length))
    if not slash or not 0 <= found.length <= found.address.max_prefixlen:
        raise ValueError(word)
    return found


def ways_of(words: List[str]) -> List[Way]:
    """Those of four words each, behind which there may be one more."""
    if len(words) < 4 or len(words) % 4 > 1:
        raise ValueError(words)
    if {*words[:-1:4]} != {"via"} or {*words[2::4]} != {"dev"}:
        raise ValueError(words)
    return [*zip(map(ipaddress.ip_address, words[1::4]), words[3::4])]


def add(kernel: source.Source, to: rtnl.Prefix, ways: List[Way]) -> None:
    hops = [rtnl.NextHopRequest(gateway, index_of(name)) for gateway, name in ways]
    route = rtnl.RouteRequest(
        to, table=RT_TABLE_MAIN, protocol=RTPROT_STATIC, type=RTN_UNICAST, hops=hops
    )
    if len(hops) == 1:
        route = replace(route, gateway=hops[0].gateway, index=hops[0].index, hops=())
    change(kernel, route, rtnl.Operation.ADD)


def main(words: List[str]) -> None:
    try:
        to, ways = prefix_of(words[0]), ways_of(words[1:])
    except (IndexError, ValueError):
        misused(USAGE)
    source.run("route_add", lambda kernel: add(kernel, to, ways), at=2 + 4 * len(ways))


if __name__ == "__main__":
    main(sys.argv[1:])
