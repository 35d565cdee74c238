#!/usr/bin/env python3
"""What rtnl-record dump makes of answers that a kernel gives seldom. They come from a socket that
is made here and hands out datagrams that are packed by hand. The last line is
'N passed, M failed', and the status is 1 where a case failed.
"""
import errno
import os
import socket
import struct
import sys
from typing import List, NamedTuple, Optional, Tuple

sys.dont_write_bytecode = True
TESTS = os.path.dirname(os.path.dirname(os.path.realpath(__file__)))
sys.path[:0] = [f"{TESTS}/../record", f"{TESTS}/helpers"]
import dump
from counting import counted
from kinds import Asked
from output import Item, Loss

KERNEL, PORT, SEQ = 0, 4711, 1
MULTI, INTERRUPTED = 2, 0x10


def message(kind: int, body: bytes = b"", flags: int = MULTI, seq: int = SEQ) -> bytes:
    length = 16 + len(body)
    return struct.pack("=IHHII", length, kind, flags, seq, PORT) + body + bytes(-length % 4)


def code(number: int) -> bytes:
    return struct.pack("=i", -number)


LINK = message(16, bytes(16))
DONE = message(3, code(0))
FIRST = f"# seq 1 port {PORT} kind link"


class Socket:
    """Hands out datagrams, each with the port id of its sender."""

    def __init__(self, datagrams: List[Tuple[int, bytes]]) -> None:
        self.datagrams, self.sent = datagrams, b""
        self.waits: List[float] = []

    def getsockname(self) -> Tuple[int, int]:
        return PORT, 0

    def settimeout(self, seconds: float) -> None:
        self.waits.append(seconds)

    def sendto(self, data: bytes, to: Tuple[int, int]) -> None:
        self.sent, self.to = data, to

    def recvmsg_into(self, rooms: List[bytearray], control: int, flags: int
                     ) -> Tuple[int, List[bytes], int, Tuple[int, int]]:
        if not self.datagrams:
            raise socket.timeout
        sender, data = self.datagrams.pop(0)
        size = min(len(rooms[0]), len(data))
        rooms[0][:size] = data[:size]
        return len(data), [], 0, (sender, 0)


class Case(NamedTuple):
    name: str
    datagrams: List[bytes]
    lines: List[str]
    loss: Optional[str] = None
    size: int = 1 << 20


SLOW = "no datagram came within 5 seconds"
CUT = "the datagram was cut: {} of {} bytes are recorded"
INTR = "the kernel interrupted the dump: entries may be missing, or not agree"


def refused(number: int) -> str:
    return f"the kernel answered with error {number}, {os.strerror(number)}"


CASES = [
    Case("an end alone", [DONE], [DONE.hex()]),
    Case("two datagrams", [LINK, LINK + DONE], [LINK.hex(), (LINK + DONE).hex()]),
    Case("nothing behind the end", [DONE, LINK], [DONE.hex()]),
    Case("no end", [LINK], [LINK.hex()], SLOW),
    Case("no answer", [], [], SLOW),
    Case("an interrupted item", [message(16, bytes(16), MULTI | INTERRUPTED), DONE],
         [message(16, bytes(16), MULTI | INTERRUPTED).hex(), DONE.hex()], INTR),
    Case("an interrupted end", [LINK + message(3, code(0), MULTI | INTERRUPTED)],
         [(LINK + message(3, code(0), MULTI | INTERRUPTED)).hex()], INTR),
    Case("an interrupted item of another dump",
         [message(16, bytes(16), INTERRUPTED, 2) + DONE],
         [(message(16, bytes(16), INTERRUPTED, 2) + DONE).hex()]),
    Case("an error", [message(2, code(95) + LINK[:16])], [message(2, code(95) + LINK[:16]).hex()],
         refused(errno.EOPNOTSUPP)),
    Case("an error at the end", [message(3, code(12))], [message(3, code(12)).hex()],
         refused(errno.ENOMEM)),
    Case("an error of another request, and the end", [message(2, code(1), seq=9), DONE],
         [message(2, code(1), seq=9).hex(), DONE.hex()]),
    Case("an overrun", [message(4)], [message(4).hex()], refused(errno.EOVERFLOW)),
    Case("an end without its number", [message(3)], [message(3).hex()]),
    Case("a datagram that was cut", [LINK, DONE],
         ["# cut: 20 of 32 bytes", LINK[:20].hex(), DONE.hex()], CUT.format(20, 32), 20),
    Case("a datagram that was cut, and no more", [LINK + DONE],
         ["# cut: 32 of 52 bytes", LINK.hex()], CUT.format(32, 52), 32),
    Case("a room of one byte", [DONE], ["# cut: 1 of 20 bytes", DONE.hex()[:2]],
         CUT.format(1, 20), 1),
    Case("a length of 0", [bytes(16) + DONE], [(bytes(16) + DONE).hex()]),
    Case("a length above the datagram", [b"\xff" * 32, DONE], ["ff" * 32, DONE.hex()]),
]


def judged(case: Case) -> List[str]:
    """What is wrong with the request, with the lines, and with the loss, which is said once. A
    datagram of another sender is none of them."""
    link = Socket([it for data in case.datagrams for it in ((PORT, message(2)), (KERNEL, data))])
    found: List[Item] = [*dump.items(link, Asked("link", 2), case.size)]  # type: ignore[arg-type]
    lines = [dump_line(it) for it in found if not isinstance(it, Loss)]
    losses = [str(it) for it in found if isinstance(it, Loss)]
    given = [(link.sent.hex(), link.to), lines, losses]
    expected = [(request(), (KERNEL, 0)), [FIRST, *case.lines], [case.loss] if case.loss else []]
    return [f"{it} for {other}" for it, other in zip(given, expected) if it != other]


def dump_line(item: Item) -> str:
    return item.hex() if isinstance(item, bytes) else f"# {item}"


def request() -> str:
    """A request for the links of IPv4."""
    return (struct.pack("=IHHII", 32, 18, 0x301, SEQ, 0) + b"\2" + bytes(15)).hex()


def main() -> int:
    return counted((it.name, judged(it)) for it in CASES)


if __name__ == "__main__":
    sys.exit(main())
