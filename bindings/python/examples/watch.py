#!/usr/bin/env python3
"""Prints what changes of links, addresses, routes and neighbours, until it is interrupted.
watch.py [SOCKET]"""
import source

import rtnl
from rtnl.constants import (
    RTNLGRP_IPV4_IFADDR,
    RTNLGRP_IPV4_ROUTE,
    RTNLGRP_IPV6_IFADDR,
    RTNLGRP_IPV6_ROUTE,
    RTNLGRP_LINK,
    RTNLGRP_NEIGH,
)

GROUPS = (
    RTNLGRP_LINK,
    RTNLGRP_NEIGH,
    RTNLGRP_IPV4_IFADDR,
    RTNLGRP_IPV6_IFADDR,
    RTNLGRP_IPV4_ROUTE,
    RTNLGRP_IPV6_ROUTE,
)
# The types of a family are NEW, DEL, GET and SET, from a multiple of 4 on.
VERBS = {0: "new", 1: "del"}


def show(verb: str, it: object) -> None:
    if isinstance(it, rtnl.Link):
        source.say(verb, "link", it.name, it.state)
    elif isinstance(it, rtnl.Address):
        source.say(verb, "addr", it.prefix, it.index)
    elif isinstance(it, rtnl.Route):
        destination = it.destination if it.destination_length else "default"
        source.say(verb, "route", destination, it.gateway, it.index)
    elif isinstance(it, rtnl.Neighbour):
        source.say(verb, "neigh", it.address, it.hardware_address, it.index)


def watch(kernel: source.Source) -> None:
    while True:
        datagram = kernel.receive()
        if datagram is None:
            return
        for message in rtnl.Datagram(datagram):
            if message.kind % 4 in VERBS:
                show(VERBS[message.kind % 4], message.view)


if __name__ == "__main__":
    source.run("watch", watch, GROUPS)
