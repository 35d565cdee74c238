"""Prints a line for each interface of a dump, by our package: from a table."""
import rtnl
from rtnl.constants import RTM_GETLINK
from rtnl_dump import dump
from source import Source, say

with rtnl.Session() as session:
    dump(Source(), session, RTM_GETLINK, 0, 1)
    for link in session.links:
        say(link.name, link.state, link.mtu, link.hardware_address)
