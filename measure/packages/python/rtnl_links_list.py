"""Prints a line for each interface of a dump, by our package: from a list."""
import rtnl
from rtnl.constants import RTM_GETLINK
from rtnl_dump import kept
from source import Source, say

for link in kept(Source(), rtnl.Stream(), RTM_GETLINK, 0, 1).views(rtnl.Link):
    say(link.name, link.state, link.mtu, link.hardware_address)
