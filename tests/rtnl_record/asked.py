#!/usr/bin/env python3
"""When rtnl-record monitor asks for dumps on the socket that listens, and what it writes where.
The socket and the clock are made here; the named pipe is one of this machine. The last line is
'N passed, M failed', and the status is 1 where a case failed.
"""
import errno
import os
import select
import signal
import struct
import sys
import tempfile
import time
from typing import Iterator, List, NamedTuple, Optional, Tuple

sys.dont_write_bytecode = True
TESTS = os.path.dirname(os.path.dirname(os.path.realpath(__file__)))
sys.path[:0] = [f"{TESTS}/../record", f"{TESTS}/helpers"]
import drops
import monitor
from again import Again
from answers import INTR, MULTI, PORT, code, message, refused
from counting import counted
from drops import END, FULL, NONE
from output import Item, Loss, Note

LINK, ROUTE = 18, 26  # RTM_GETLINK and RTM_GETROUTE
NEXTHOP, NEIGH, CLASS, FILTER = 106, 30, 42, 46
OTHER, DEVICE = 4712, 0x0403
# The head of a request: family 7, AF_BRIDGE, and the index of a device.
OF_BRIDGE = "07" + "00" * 11
OF_DEVICE = bytes(4).hex() + struct.pack("=i", DEVICE).hex() + bytes(12).hex()


class After(NamedTuple):
    """What comes so many seconds later."""

    seconds: float
    step: object


class Told(NamedTuple):
    """What a reader writes into the pipe."""

    text: bytes


SILENT = "silent"


def item(seq: int, size: int = 16) -> bytes:
    return message(16, bytes(size), seq=seq)


def done(seq: int) -> bytes:
    return message(3, code(0), seq=seq)


def error(seq: int, number: int) -> bytes:
    return message(2, code(number) + bytes(16), flags=0, seq=seq)


def foreign(kind: int, seq: int) -> bytes:
    """What the kernel tells all of, since another process asked for it under this number."""
    return struct.pack("=IHHII", 20, kind, MULTI, seq, OTHER) + code(0)


NEWS, BIG = foreign(16, 1), 1 << 20
A1, A2, D1, D2, D3 = item(1), item(2), done(1), done(2), done(3)


class Case(NamedTuple):
    """The kinds that are asked for first, what happens, and what is seen: a request by its
    numbers and what else it says, a datagram by its type and number, all else by its text; and
    the index of the device that --dev names."""

    name: str
    kinds: List[str]
    steps: List[object]
    seen: List[str]
    dev: int = 0


def asks(seq: int, kind: str, number: int, rest: str = "") -> List[str]:
    words = f"asks {number} under {seq}" + f" with {rest}" * bool(rest)
    return [f"# seq {seq} port {PORT} kind {kind}", words]


FIRST, SECOND = asks(1, "link", LINK), asks(2, "route", ROUTE)
LINK_AGAIN = asks(2, "link", LINK)
BOTH, GONE = ["link", "route"], [drops.LINE, f"! {drops.SAID}"]
LATE = "! dump of kind link: no datagram came within 5 seconds"
KINDS = ("is no kind; there are link, addr, route, neigh, rule, nexthop, qdisc, class, filter, "
         "netconf, neightbl, mdb, vlan, nsid, addrlabel, fdb")
CASES = [
    Case("none", [], [NEWS, SILENT], ["16/1", "waits for ever"]),
    Case("one", ["link"], [A1, D1, SILENT], [*FIRST, "16/1", "3/1", "waits for ever"]),
    Case("the next behind the end", BOTH, [A1, A1, D1, A2 + D2],
         [*FIRST, "16/1", "16/1", "3/1", *SECOND, "16/2"]),
    Case("the next behind an error", BOTH, [error(1, 95), D2],
         [*FIRST, "2/1", f"! dump of kind link: {refused(errno.EOPNOTSUPP)}", *SECOND, "3/2"]),
    Case("an interrupted one", BOTH, [message(16, bytes(16), MULTI | 0x10), D1, D2],
         [*FIRST, "16/1", "3/1", f"! dump of kind link: {INTR}", *SECOND, "3/2"]),
    Case("notifications amid", BOTH, [NEWS, A1, NEWS, D1, NEWS, D2],
         [*FIRST, "16/1", "16/1", "16/1", "3/1", *SECOND, "16/1", "3/2"]),
    Case("an end of another port", BOTH, [foreign(3, 1), foreign(2, 1), D1, D2],
         [*FIRST, "3/1", "2/1", "3/1", *SECOND, "3/2"]),
    Case("an end of another number", BOTH, [done(9), D1, D2],
         [*FIRST, "3/9", "3/1", *SECOND, "3/2"]),
    Case("a kind named twice", ["link", "route", "link"], [D1, D2, SILENT],
         [*FIRST, "3/1", *SECOND, "3/2", "waits for ever"]),
    Case("no answer", BOTH, [SILENT, D2], [*FIRST, "waits 5", LATE, *SECOND, "3/2"]),
    Case("notifications are no answer", BOTH, [After(4, NEWS), SILENT, D2],
         [*FIRST, "16/1", "waits 1", LATE, *SECOND, "3/2"]),
    Case("an answer gives more time", ["link"], [After(4, A1), SILENT],
         [*FIRST, "16/1", "waits 5", LATE]),
    Case("a slow reader, while the answers wait", ["link"], [After(9, NEWS), A1, D1],
         [*FIRST, "16/1", "16/1", "3/1"]),
    Case("dropped amid, and its end came", BOTH, [A1, FULL, A1, D1, NONE, D2],
         [*FIRST, "16/1", "16/1", "3/1", *GONE, *SECOND, "3/2"]),
    Case("dropped amid, and no end came", BOTH, [A1, FULL, NONE, SILENT, A2, D2, D3],
         [*FIRST, "16/1", *GONE, "waits 1", *LINK_AGAIN, "16/2", "3/2", *asks(3, "route", ROUTE),
          "3/3"]),
    Case("dropped amid, and an answer later", ["link"],
         [FULL, NONE, After(.5, A1), After(.75, NEWS), SILENT, D2],
         [*FIRST, *GONE, "16/1", "16/1", "waits 0.25", *LINK_AGAIN, "3/2"]),
    Case("dropped twice, and each time asked again", ["link"],
         [FULL, NONE, SILENT, FULL, NONE, SILENT, D3],
         [*FIRST, *GONE, "waits 1", *LINK_AGAIN, *GONE, "waits 1", *asks(3, "link", LINK), "3/3"]),
    Case("the next one is in no doubt", BOTH, [FULL, D1, NONE, SILENT],
         [*FIRST, "3/1", *GONE, *SECOND, "waits 5", LATE.replace("link", "route")]),
    Case("dropped where none runs", ["link"], [D1, FULL, NONE, SILENT],
         [*FIRST, "3/1", *GONE, "waits for ever"]),
    Case("none is asked for in front of the place", BOTH, [FULL, D1, NEWS, NEWS, NONE, D2],
         [*FIRST, "3/1", "16/1", "16/1", *GONE, *SECOND, "3/2"]),
    # More than the kernel keeps: while it drops others, the dump goes on.
    Case("a long one while others are dropped", ["link"],
         [FULL, *[item(1, BIG - 16)] * 4, D1, NONE], [*FIRST, *["16/1"] * 4, "3/1", *GONE]),
    Case("the one before still runs", ["link"],
         [FULL, NONE, SILENT, error(2, errno.EBUSY), After(.5, A1), D1, SILENT, D3],
         [*FIRST, *GONE, "waits 1", *LINK_AGAIN, "2/2", "16/1", "3/1", "waits 1",
          *asks(3, "link", LINK), "3/3"]),
    Case("an end amid", BOTH, [A1, END, NEWS],
         [*FIRST, "16/1", "16/1", "! no whole dump of kind link, route at the end"]),
    Case("said", [], [Told(b"link\n"), D1, NEWS, Told(b"route\n"), D2, SILENT],
         [*FIRST, "3/1", "16/1", *SECOND, "3/2", "waits for ever"]),
    Case("said twice", [], [Told(b"link\nroute\nlink\n"), D1, D2, SILENT],
         [*FIRST, "3/1", *SECOND, "3/2", "waits for ever"]),
    Case("said of one that waits", BOTH, [Told(b"route\n"), D1, D2, SILENT],
         [*FIRST, "3/1", *SECOND, "3/2", "waits for ever"]),
    Case("said of the one that runs", ["link"], [A1, Told(b"link\n"), D1, D2, SILENT],
         [*FIRST, "16/1", "3/1", *LINK_AGAIN, "3/2", "waits for ever"]),
    Case("said of the one that is asked for again", BOTH,
         [FULL, NONE, Told(b"link\n"), SILENT, D2, D3, SILENT],
         [*FIRST, *GONE, "waits 1", *LINK_AGAIN, "3/2", *asks(3, "route", ROUTE), "3/3",
          "waits for ever"]),
    Case("in two parts", [], [Told(b"li"), Told(b"nk\nrou"), D1, Told(b"te\n"), D2],
         [*FIRST, "3/1", *SECOND, "3/2"]),
    Case("no kind", [], [Told(b"routes\nlink\n"), D1],
         [f"! PIPE: 'routes' {KINDS}", *FIRST, "3/1"]),
    Case("no kind, but its beginning is", [], [Told(b"link \n")], [f"! PIPE: 'link ' {KINDS}"]),
    Case("an empty line", [], [Told(b"\n")], [f"! PIPE: '' {KINDS}"]),
    Case("bytes that are no text", [], [Told(b"\xff\x1b[1m\n")],
         [f"! PIPE: '\ufffd\\x1b[1m' {KINDS}"]),
    Case("neighbours of both sorts, and a further kind", ["neigh", "fdb"],
         [D1, D2, Told(b"nexthop\n"), D3],
         [*asks(1, "neigh", NEIGH), "3/1", *asks(2, "fdb", NEIGH, OF_BRIDGE), "3/2",
          *asks(3, "nexthop", NEXTHOP), "3/3"]),
    Case("kinds of a device, and of none", ["class", "link"], [D1, D2, Told(b"filter\n"), D3],
         [*asks(1, "class", CLASS, OF_DEVICE), "3/1", *LINK_AGAIN, "3/2",
          *asks(3, "filter", FILTER, OF_DEVICE), "3/3"], DEVICE),
    Case("a kind of a device that is not named", ["link"], [Told(b"class\nroute\n"), D1, D2],
         [*FIRST, "! PIPE: class needs --dev", "3/1", *SECOND, "3/2"]),
    Case("a line without end", [], [Told(b"x" * 50000), Told(b"\nlink\n"), D1],
         [f"! PIPE: '{'x' * 40}..' {KINDS}", *FIRST, "3/1"]),
]


class Socket(drops.Socket):
    """Notes what is asked for, too."""

    def __init__(self, steps: List[object], seen: List[str]) -> None:
        super().__init__(steps)
        self.seen = seen

    def sendto(self, data: bytes, to: Tuple[int, int]) -> None:
        length, kind, flags, seq, port = struct.unpack_from("=IHHII", data)
        is_dump = (length, flags, port, to) == (len(data), 0x301, 0, (0, 0))
        rest = f" with {data[16:].hex()}" if any(data[16:]) else ""
        self.seen.append(f"asks {kind} under {seq}{rest}" if is_dump else f"sends {data.hex()}")


class Happening:
    """Lets the steps happen while it is waited, by a clock of its own, and then an interrupt. What
    the recorder waits for beside the socket is the pipe."""

    now = 0.0
    written = -1
    turns = 0

    def ready(self, files: List[object], seconds: Optional[float]) -> Optional[List[object]]:
        link, *rest = files
        assert isinstance(link, Socket)
        self.turns += 1
        assert self.turns < 1000, "it never waits"
        if any(len(it.rest) > 100 for it in rest):  # type: ignore[attr-defined]
            link.seen.append("keeps a long line")
        if link.is_ended or not link.steps:
            return None
        if isinstance(link.steps[0], Told):
            os.write(self.written, link.steps.pop(0).text)  # type: ignore[attr-defined]
        if select.select(rest, [], [], 0)[0]:
            return rest
        if link.steps and link.steps[0] == SILENT:
            link.steps.pop(0)
            link.seen.append("waits for ever" if seconds is None else f"waits {seconds:g}")
            Happening.now += seconds or 0
            return []
        if link.steps and isinstance(link.steps[0], After):
            Happening.now += link.steps[0].seconds
            link.steps[0] = link.steps[0].step
        return [link]


def sign_of(it: Item) -> str:
    """How a case names it."""
    if isinstance(it, bytes):
        kind, _, seq = struct.unpack_from("=HHI", it, 4)
        return f"{kind}/{seq}"
    return f"! {it}" if isinstance(it, Note) else f"# {it}"


def seen(kinds: List[str], steps: List[object], again: Again, dev: int = 0) -> Iterator[str]:
    """What is seen in its turn, behind the line of the groups."""
    found: List[str] = []
    link = Socket(list(steps), found)
    items = monitor.items(link, ["link"], False, kinds, dev, again)  # type: ignore[arg-type]
    for it in items:
        found.append(sign_of(it).replace(again.name, "PIPE"))
        if isinstance(it, Note) and not isinstance(it, Loss):
            found.append("a note that is no loss")
    yield from found[1:]
    yield from (f"left: {it!r:.40}" for it in link.steps)


def judged(found: List[str], expected: List[str]) -> List[str]:
    return [] if found == expected else [f"{found} for {expected}"]


def piped(case: Case, path: str) -> List[str]:
    os.mkfifo(path)
    again = Again(path)
    Happening.written = os.open(path, os.O_WRONLY)
    found = [*seen(case.kinds, case.steps, again, case.dev)]
    os.close(Happening.written)
    os.close(again.file)
    os.remove(path)
    return judged(found, case.seen)


def of_file(path: str) -> List[str]:
    """A file that has an end, and a last line without one: nothing is waited for behind it."""
    with open(path, "wb") as file:
        file.write(b"link\nroute")
    again = Again(path)
    found = [*seen([], [D1, D2, SILENT], again)]
    wrong = judged(found, [*FIRST, "3/1", *SECOND, "3/2", "waits for ever"])
    return wrong + (["it is still open"] if again.is_open else [])


def unreadable() -> List[str]:
    """A file that can be opened, and of which the first read fails."""
    again = Again("/proc/self/mem")
    found = [*seen(["link"], [D1, NEWS], again)]
    failed = f"! PIPE: {os.strerror(errno.EIO)}"
    return judged(found, [*FIRST, failed, "3/1", "16/1"])


def cases() -> Iterator[Tuple[str, List[str]]]:
    monitor.Interrupt = Happening  # type: ignore[assignment,misc]
    time.monotonic = lambda: Happening.now
    with tempfile.TemporaryDirectory() as folder:
        for case in CASES:
            yield case.name, piped(case, f"{folder}/pipe")
        yield "a file that has an end", of_file(f"{folder}/file")
    yield "a file that can't be read", unreadable()


if __name__ == "__main__":
    # What waits for ever ends.
    signal.alarm(60)
    sys.exit(counted(cases()))
