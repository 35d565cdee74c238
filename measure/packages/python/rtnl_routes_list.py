"""Prints a line for each next hop of each route of two dumps, by our package: from lists."""
import socket

import rtnl
from rtnl.constants import RTM_GETLINK, RTM_GETROUTE
from rtnl_dump import kept, show
from source import Source

source, stream = Source(), rtnl.Stream()
links = kept(source, stream, RTM_GETLINK, 0, 1).views(rtnl.Link)
names = {link.index: link.name for link in links}
for seq, family in (2, socket.AF_INET), (3, socket.AF_INET6):
    for route in kept(source, stream, RTM_GETROUTE, family, seq).views(rtnl.Route):
        show(route, names)
