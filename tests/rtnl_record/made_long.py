"""Lines of nearly 16 MiB, the longest that are taken: each is read in ten times as much memory."""
from typing import Iterator

from case import Case, said
from made_traces import OPENED, RECEIVED, ROWS, trace
from source import LONGEST_LINE

MOST = "a datagram above 1048576 bytes"
NO_ROW = "no row of a hexadecimal dump"


def filled(front: str, piece: str, back: str = "") -> str:
    """As many pieces as a line has room for between a front and a back."""
    return front + piece * ((LONGEST_LINE - len(front) - len(back) - 1) // len(piece)) + back


def dump(name: str, line: str, status: int, error: str = "") -> Case:
    return Case(f"xxd: 16 MiB of {name}", ["xxd"], f"{line}\n".encode(), status, "",
                said(f"line 1: {error}") if error else "")


def dumps() -> Iterator[Case]:
    five = 5 << 20
    yield dump("pairs", filled("00000000:", " 00"), 1, MOST)
    yield dump("digits", filled("00000000: ", "00"), 1, MOST)
    yield dump("pairs, and a letter", filled("00000000:", " 00", " z"), 1, NO_ROW)
    yield dump("numbers of hexdump", filled("0000000", " 0000"), 1, MOST)
    yield dump("numbers of hexdump, and a digit", filled("0000000", " 0000", "0"), 1, NO_ROW)
    yield dump("bytes and their text", f"0000: {'41' * five}  {'A' * five}", 1, MOST)
    yield dump("bytes and another text", f"0000: {'41' * five}  {'A' * (five - 1)}B", 1, NO_ROW)
    # A sign of another alphabet, with which Python keeps four bytes for each sign of the line.
    yield dump("bytes and signs", f"0000: {'00' * five}  {'.' * (five - 4)}\U0001f600...", 1, MOST)
    yield dump("blanks", filled("0000: 00", " "), 0)._replace(output="00\n")
    wide = filled("# ", ".", "\U0001f600")[:LONGEST_LINE - 4]
    yield dump("signs in comments, twice", f"{wide}\n{wide}", 0)


def traces() -> Iterator[Case]:
    marked = filled('sendmsg(3, {msg_iov=[{iov_base="', r"\x00", '", iov_len=9}]}, 0) = 4194304')
    yield trace("16 MiB of bytes in quotes", [OPENED, marked], 1, "", said(f"line 2: {MOST}"))
    place = ROWS[0].replace("00000", f"{'0' * 1000000}20")
    yield trace("a place of many digits", [OPENED, "recv(3, 0x1, 20, 0) = 20", place], 1, "",
                said(f"line 3: a row is missing before the one of place {'0' * 40}.."))
    for name, line in (("flags", filled("recvmsg(3, {msg_flags=", "A|", "}, 0) = 20")),
                       ("bars", filled("recvmsg(3, {msg_flags=", "|", "}, 0) = 20")),
                       ("rooms", filled("recv(3, 0x1", ", 12, 0)", ", 65536, 0) = 20")),
                       ("buffers", filled("recvmsg(3, {", 'iov_base=""', "}, 0) = 20"))):
        yield trace(f"16 MiB of {name}", [OPENED, line, *ROWS], 0, RECEIVED)


def cases() -> Iterator[Case]:
    yield from dumps()
    yield from traces()
