#!/usr/bin/env python3
"""Prints a line for each interface: its name, state, MTU and hardware address.
links.py [SOCKET]"""
import source

import rtnl
from rtnl.constants import RTM_GETLINK


def links(kernel: source.Source) -> None:
    for link in kernel.dump(rtnl.Stream(), RTM_GETLINK).views(rtnl.Link):
        source.say(link.name, link.state, link.mtu, link.hardware_address)


if __name__ == "__main__":
    source.run("links", links)
