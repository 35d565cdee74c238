"""Prints a line for each notification of links, addresses, routes and neighbours, by our
package."""
import rtnl
from source import Source, say

VERBS = {0: "new", 1: "del"}


def show(verb: str, it: object) -> None:
    if isinstance(it, rtnl.Link):
        say(verb, "link", it.name, it.state, flush=True)
    elif isinstance(it, rtnl.Address):
        say(verb, "addr", it.prefix, it.index, flush=True)
    elif isinstance(it, rtnl.Route):
        to = it.destination if it.destination_length else "default"
        say(verb, "route", to, it.gateway, it.index, flush=True)
    elif isinstance(it, rtnl.Neighbour):
        say(verb, "neigh", it.address, it.hardware_address, it.index, flush=True)


source = Source()
while data := source.recv():
    for message in rtnl.Datagram(data):
        if message.kind % 4 in VERBS:
            show(VERBS[message.kind % 4], message.view)
