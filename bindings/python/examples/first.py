#!/usr/bin/env python3
"""Prints a line for each link of this machine, over the package and a socket alone."""
import socket
import rtnl
from rtnl.constants import RTM_GETLINK

with socket.socket(socket.AF_NETLINK, socket.SOCK_RAW, socket.NETLINK_ROUTE) as kernel:
    kernel.bind((0, 0))
    with rtnl.Session() as session:
        kernel.send(session.begin(RTM_GETLINK, seq=1, port=kernel.getsockname()[0]))
        while session.waiting:
            session.feed(kernel.recv(65536))
        if not session.status().complete:  # refused, interrupted, more than 4,096 links, ..
            raise RuntimeError(f"no whole dump: {session.status()}")
        for link in session.links:
            print(link.name, link.state, link.mtu, link.hardware_address)
