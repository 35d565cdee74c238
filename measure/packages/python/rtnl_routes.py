"""Prints a line for each next hop of each route of two dumps, by our package: from tables."""
import socket

import rtnl
from rtnl.constants import RTM_GETLINK, RTM_GETROUTE
from rtnl_dump import dump, show
from source import Source

source = Source()
with rtnl.Session(rtnl.Limits(entries=65536)) as session:
    dump(source, session, RTM_GETLINK, 0, 1)
    names = {link.index: link.name for link in session.links}
    for seq, family in (2, socket.AF_INET), (3, socket.AF_INET6):
        dump(source, session, RTM_GETROUTE, family, seq)
        for route in session.routes:
            show(route, names)
