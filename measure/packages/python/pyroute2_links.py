"""Prints a line for each interface of a dump, by pyroute2."""
from pyroute2.netlink.rtnl import RTM_GETLINK
from pyroute2_dump import dump
from source import Source, say

for link in dump(Source(), RTM_GETLINK, 0, 1):
    say(*(link.get_attr(f"IFLA_{it}") for it in ("IFNAME", "OPERSTATE", "MTU", "ADDRESS")))
