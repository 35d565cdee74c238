"""Prints a line for each next hop of each route of two dumps, by pyroute2."""
import socket

from pyroute2.netlink.rtnl import RTM_GETLINK, RTM_GETROUTE
from pyroute2_dump import dump
from source import Source, say


def gateway(it):
    via = it.get_attr("RTA_VIA")
    return it.get_attr("RTA_GATEWAY") or (via["addr"] if via else None)


source = Source()
names = {it["index"]: it.get_attr("IFLA_IFNAME") for it in dump(source, RTM_GETLINK, 0, 1)}
for seq, family in (2, socket.AF_INET), (3, socket.AF_INET6):
    for route in dump(source, RTM_GETROUTE, family, seq):
        length = route["dst_len"]
        to = f"{route.get_attr('RTA_DST') or '-'}/{length}" if length else "default"
        table = route.get_attr("RTA_TABLE", route["table"])
        hops = route.get_attr("RTA_MULTIPATH")
        if hops is None:
            say(to, gateway(route), names.get(route.get_attr("RTA_OIF")), table)
        for hop in hops or ():
            say(to, gateway(hop), names.get(hop["oif"]), table)
