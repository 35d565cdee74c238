"""Prints a line for each next hop of each route of two dumps, by our package: as they come."""
import socket

import rtnl
from rtnl.constants import RTM_GETLINK, RTM_GETROUTE
from rtnl_dump import show, stream
from source import Source

source, routes, names = Source(), rtnl.Stream(), {}
for items in stream(source, routes, RTM_GETLINK, 0, 1):
    names.update((link.index, link.name) for link in items.views(rtnl.Link))
for seq, family in (2, socket.AF_INET), (3, socket.AF_INET6):
    for items in stream(source, routes, RTM_GETROUTE, family, seq):
        for route in items.views(rtnl.Route):
            show(route, names)
