"""Prints a line for each interface of a dump, by our package: as they come."""
import rtnl
from rtnl.constants import RTM_GETLINK
from rtnl_dump import stream
from source import Source, say

for items in stream(Source(), rtnl.Stream(), RTM_GETLINK, 0, 1):
    for link in items.views(rtnl.Link):
        say(link.name, link.state, link.mtu, link.hardware_address)
