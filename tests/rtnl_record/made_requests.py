"""Requests with zero bytes behind them, as ip(8) sends them: the whole of a buffer, of which the
kernel takes what the length of each message names. Each is a datagram of a trace and of a capture,
in which nothing says which way it went but the flags of its messages."""
import struct
from typing import Iterator, NamedTuple

from case import Case
from made_pcap import AT, cooked, pcap
from made_traces import OPENED, trace

REQUEST, DUMP, ACK = 0x1, 0x300, 0x4


def message(flags: int, body: bytes = b"", order: str = "<", length: int = -1) -> bytes:
    """A message of type 18, which asks for links; its length is aligned by zero bytes."""
    named = 16 + len(body) if length < 0 else length
    head = struct.pack(f"{order}IHHII", named, 18, flags, 7, 0)
    return head + body + bytes(-len(body) % 4)


ASKS = message(REQUEST | DUMP, b"\0")
PLAIN = message(DUMP, b"\0")


class Row(NamedTuple):
    """A datagram, and how many bytes at its end are cut off."""

    name: str
    data: bytes
    cut: int


ROWS = [
    Row("120 zero bytes", ASKS + bytes(120), 120),
    Row("one zero byte", ASKS + b"\0", 1),
    Row("16 zero bytes", ASKS + bytes(16), 16),
    Row("zero bytes behind two requests", ASKS + message(REQUEST | ACK, b"1234") + bytes(8), 8),
    Row("in the other order", message(REQUEST, b"1234", ">") + bytes(40), 40),
    Row("nothing behind it", ASKS, 0),
    Row("what aligns it", message(REQUEST, b"1"), 0),
    Row("another byte at the end", ASKS + bytes(119) + b"\1", 0),
    Row("another byte at the front", ASKS + b"\1" + bytes(119), 0),
    Row("no request", PLAIN + bytes(120), 0),
    Row("a message behind it that is no request", ASKS + PLAIN + bytes(120), 0),
    Row("a message before it that is no request", PLAIN + ASKS + bytes(120), 0),
    Row("a length behind the datagram", message(REQUEST, bytes(4), length=21), 0),
    Row("a length of 15", message(REQUEST, bytes(4), length=15), 0),
    Row("zero bytes alone", bytes(136), 0),
    Row("half a header", ASKS[:12], 0),
]


def lines(row: Row) -> str:
    note = f"# cut: {row.cut} zero bytes behind the last message\n" if row.cut else ""
    return f"{note}{row.data[:len(row.data) - row.cut].hex()}\n"


def rows_of(data: bytes) -> Iterator[str]:
    """The rows that strace prints of a datagram."""
    for at in range(0, len(data), 16):
        part = data[at:at + 16]
        pairs = f"{part[:8].hex(' '):<23}  {part[8:].hex(' ')}"
        text = "".join(chr(it) if 32 <= it < 127 else "." for it in part)
        yield f" | {at:05x}  {pairs:<48}  {text:<16} |"


def cases() -> Iterator[Case]:
    for row in ROWS:
        size, rows = len(row.data), [*rows_of(row.data)]
        sent = f"sendto(3, [...], {size}, 0, NULL, 0) = {size}"
        yield trace(f"a request, {row.name}", [OPENED, sent, *rows], 0, f"# sent\n{lines(row)}")
        received = f"recv(3, [...], 65536, 0) = {size}"
        yield trace(f"received, {row.name}", [OPENED, received, *rows], 0,
                    f"# received\n{row.data.hex()}\n")
        yield Case(f"pcap: a request, {row.name}", ["pcap", "-"], pcap(cooked(row.data)), 0,
                   f"{AT}{lines(row)}")
