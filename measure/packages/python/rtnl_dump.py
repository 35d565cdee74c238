"""What the programs over our package share."""
from typing import Iterator

import rtnl
from source import PORT, Source, say


def dump(source: Source, session: rtnl.Session, kind: int, family: int, seq: int) -> None:
    """Reads a dump into the session's table."""
    source.send(session.begin(kind, family, seq=seq, port=PORT))
    while session.waiting:
        data = source.recv()
        if not data:
            raise EOFError("the answer ended early")
        session.feed(data)
    if not session.status().complete:
        raise OSError(f"incomplete: {session.status()}")


def stream(
    source: Source, stream: rtnl.Stream, kind: int, family: int, seq: int
) -> Iterator[rtnl.Items]:
    """The items of a dump's datagrams, as they come."""
    source.send(stream.begin(kind, family, seq=seq, port=PORT))
    while stream.waiting:
        data = source.recv()
        if not data:
            raise EOFError("the answer ended early")
        yield stream.feed(data)
    if not stream.status().complete:
        raise OSError(f"incomplete: {stream.status()}")


def kept(
    source: Source, it: rtnl.Stream, kind: int, family: int, seq: int
) -> rtnl.MessageList:
    """The items of a dump that is complete."""
    found = rtnl.MessageList()
    for items in stream(source, it, kind, family, seq):
        found.extend(items)
    return found


def show(route: rtnl.Route, names: "dict[int, str]") -> None:
    """Prints a line for each next hop of a route."""
    to = route.destination if route.destination_length else "default"
    for hop in (route,) if route.hops is None else route.hops:
        say(to, hop.gateway, names.get(hop.index), route.table)
