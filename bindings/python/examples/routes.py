#!/usr/bin/env python3
"""Prints a line for each next hop of each route, IPv4 and then IPv6: its destination, gateway,
interface and table. routes.py [SOCKET]"""
import socket
from typing import Iterable, Mapping, Optional, Union

import source

import rtnl
from rtnl.constants import RTM_GETLINK, RTM_GETROUTE


def show(route: rtnl.Route, names: Mapping[int, Optional[str]]) -> None:
    destination = route.destination if route.destination_length else "default"
    hops: Iterable[Union[rtnl.Route, rtnl.NextHop]] = (route,)
    if route.hops is not None:
        hops = route.hops
    for hop in hops:
        source.say(destination, hop.gateway, names.get(hop.index or 0), route.table)


def routes(kernel: source.Source) -> None:
    stream = rtnl.Stream()
    links = kernel.dump(stream, RTM_GETLINK).views(rtnl.Link)
    names = {link.index: link.name for link in links}
    for family in (socket.AF_INET, socket.AF_INET6):
        for route in kernel.dump(stream, RTM_GETROUTE, family).views(rtnl.Route):
            show(route, names)


if __name__ == "__main__":
    source.run("routes", routes)
