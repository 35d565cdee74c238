#!/usr/bin/env python3
"""Where rtnl-record monitor says that the kernel dropped messages: behind those that the kernel
had queued when it said so. They come from a socket that is made here. The last line is
'N passed, M failed', and the status is 1 where a case failed.
"""
import errno
import os
import sys
from typing import Iterator, List, Optional, Tuple

sys.dont_write_bytecode = True
TESTS = os.path.dirname(os.path.dirname(os.path.realpath(__file__)))
sys.path[:0] = [f"{TESTS}/../record", f"{TESTS}/helpers"]
import monitor
from counting import counted
from output import Item, Loss, Note

LINE = "# dropped: the kernel had no room for messages here"
SAID = "the kernel dropped messages, since they were not received soon enough"
# What the socket gives: datagrams; that the kernel has dropped some, and that none waits; that an
# end is asked for; and a datagram of another process.
ONE, TWO, THREE, LONG = b"\x11" * 16, b"\x22" * 16, b"\x33" * 16, b"\x11" * (1 << 20)
FULL, NONE, END, OTHER = "full", "none", "end", "other"
Step = object
CASES: List[Tuple[str, List[Step], List[str]]] = [
    ("none is dropped", [ONE, NONE, TWO, NONE], ["1", "2"]),
    ("before all", [FULL, NONE, ONE], ["-", "1"]),
    ("behind what is queued", [ONE, FULL, TWO, THREE, NONE, ONE], ["1", "2", "3", "-", "1"]),
    ("behind what another process sent", [FULL, ONE, OTHER, TWO, NONE], ["1", "2", "-"]),
    ("twice, with none between", [FULL, ONE, FULL, TWO, NONE], ["1", "-", "2", "-"]),
    ("twice, apart", [FULL, ONE, NONE, TWO, FULL, NONE], ["1", "-", "2", "-"]),
    ("an end while some are queued", [FULL, END, ONE, TWO, NONE], ["1", "2", "-"]),
    # Where always one more comes, no more than the kernel has room for was in front of the place.
    ("no end of datagrams", [FULL, *[LONG] * 9, NONE], ["1"] * 3 + ["-"] + ["1"] * 6),
]


class Socket:
    """Gives these steps, and asks for an end behind them."""

    def __init__(self, steps: List[Step]) -> None:
        self.steps, self.is_ended = steps, False

    def getsockname(self) -> Tuple[int, int]:
        return 4711, 0

    def setblocking(self, _: bool) -> None:
        pass

    def setsockopt(self, *_: int) -> None:
        pass

    def recvmsg_into(self, rooms: List[bytearray], _: int, __: int
                     ) -> Tuple[int, List[bytes], int, Tuple[int, int]]:
        step = self.steps.pop(0)
        if step == END:
            self.is_ended, step = True, self.steps.pop(0)
        if step == FULL:
            raise OSError(errno.ENOBUFS, os.strerror(errno.ENOBUFS))
        if step == NONE:
            raise BlockingIOError
        data = step if isinstance(step, bytes) else ONE
        rooms[0][:len(data)] = data
        return len(data), [], 0, (4712 if step == OTHER else 0, 0)


class Interrupt:
    """Comes where the socket has nothing more, or is asked to."""

    def ready(self, files: List[Socket], _: Optional[float]) -> Optional[List[Socket]]:
        return None if files[0].is_ended or not files[0].steps else files


def judged(steps: List[Step], expected: List[str]) -> List[str]:
    link = Socket(list(steps))
    found: List[Item] = [*monitor.items(link, ["link"], False, [], 0, None)]  # type: ignore[arg-type]
    signs = [sign_of(it) for it in found if not isinstance(it, Note)][1:]
    said = [str(it) for it in found if isinstance(it, Loss)]
    wrong = [] if signs == expected else [f"{signs} for {expected}"]
    return wrong + ([] if said == [SAID] * expected.count("-") else [f"said: {said}"])


def sign_of(item: Item) -> str:
    """The first digit of a datagram, or a sign for the line that is asked for."""
    if isinstance(item, bytes):
        return item.hex()[0]
    return "-" if f"# {item}" == LINE else str(item)


def cases() -> Iterator[Tuple[str, List[str]]]:
    monitor.Interrupt = Interrupt  # type: ignore[assignment,misc]
    for name, steps, expected in CASES:
        yield name, judged(steps, expected)


if __name__ == "__main__":
    sys.exit(counted(cases()))
