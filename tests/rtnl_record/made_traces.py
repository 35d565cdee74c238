"""Traces of strace, whose lines are put together by hand after those beside this file."""
from typing import Iterator, List

from case import ANY, ONE, TWO, Case, said

OPENED = "socket(AF_NETLINK, SOCK_RAW|SOCK_CLOEXEC, NETLINK_ROUTE) = 3"
OTHER = "socket(AF_NETLINK, SOCK_RAW|SOCK_CLOEXEC, NETLINK_GENERIC) = 3"
# The rows of the two datagrams.
ROWS = [
    " | 00000  14 00 00 00 03 00 02 00  01 00 00 00 39 30 00 00  ............90.. |",
    " | 00010  00 00 00 00                                       ....             |",
]
SHORT = [" | 00000  10 00 00 00 01 00 00 00  02 00 00 00 00 00 00 00  ................ |"]
RECEIVED, SENT = f"# received\n{ONE.hex()}\n", f"# sent\n{TWO.hex()}\n"
NOTHING = said("no datagram of a socket for rtnetlink")


def trace(name: str, lines: List[str], status: int, output: str, errors: str = "") -> Case:
    text = "".join(f"{it}\n" for it in lines).encode()
    return Case(f"strace: {name}", ["strace"], text, status, output, errors)


def whole() -> Iterator[Case]:
    recv, send = "recv(3, [...], 65536, 0) = 20", "send(3, [...], 16, 0) = 16"
    for receive in (recv, "recvfrom(3, [...], 65536, 0, NULL, NULL) = 20",
                    "read(3, 0x1, 999) = 20", "readv(3, [{iov_base=[...], iov_len=99}], 1) = 20",
                    "recvmsg(3, {msg_iov=[{iov_base=[...], iov_len=99}], msg_flags=0}, 0) = 20"):
        yield trace(receive, [OPENED, receive, *ROWS], 0, RECEIVED)
    for sent in (send, "sendto(3, [...], 16, 0, NULL, 0) = 16", "write(3, 0x1, 16) = 16",
                 "writev(3, [{iov_base=[...], iov_len=16}], 1) = 16",
                 "sendmsg(3, {msg_iov=[{iov_base=[...], iov_len=99}], msg_flags=0}, 0) = 16"):
        yield trace(sent, [OPENED, sent, *SHORT], 0, SENT)
    yield trace("both ways", [OPENED, send, *SHORT, recv, *ROWS, recv, *ROWS], 0,
                SENT + RECEIVED + RECEIVED)
    yield trace("a buffer is named", [OPENED, recv, " * 20 bytes in buffer 0", *ROWS], 0, RECEIVED)
    yield trace("a request of which no bytes are there", [OPENED, send, recv, *ROWS], 0, RECEIVED,
                said("left out: 1 sent datagrams, of which strace printed no bytes; run it with "
                     "-e write=all"))
    yield trace("a peek, a failure and an end",
                [OPENED, "recv(3, [...], 20, MSG_PEEK) = 20", *ROWS, "recv(3, 0x1, 20, 0) = -1 "
                 "EAGAIN (Resource temporarily unavailable)", "recv(3, \"\", 20, 0) = 0",
                 "recv(3, 0x1, 20, 0) = ? ERESTARTSYS (To be restarted)", recv, *ROWS],
                0, RECEIVED)
    yield trace("what looks like an answer, in a name",
                [OPENED, "recvmsg(3, {msg_name=\"a) = 5\", msg_flags=0}, 0) = 20", *ROWS], 0,
                RECEIVED)
    yield trace("times and answers with their files, and how long a call took",
                ["12:00:01.5 socket(AF_NETLINK, SOCK_RAW, NETLINK_ROUTE) = 3<NETLINK:[77]> <0.1>",
                 "7  12:00:02.5 recv(3<NETLINK:[ROUTE:7]>, [...], 65536, 0)  = 20 <0.000012>",
                 *ROWS], 0, RECEIVED)
    yield from timed()
    yield from dropping()
    yield trace("another socket", [OTHER, recv, *ROWS], 1, "", NOTHING)
    yield trace("a file of the same number",
                [OPENED, "close(3) = 0", "read(3, \"...\", 99) = 20", *ROWS], 1, "", NOTHING)
    yield trace("a file that isn't known", ["read(3, \"...\", 99) = 20", *ROWS], 1, "", NOTHING)
    yield trace("a close that fails", [OPENED, "close(3) = -1 EIO (Input/output error)",
                                       "read(3, \"...\", 99) = 20", *ROWS], 0, RECEIVED)
    yield trace("a number with 5000 digits", [OPENED, f"recv(3, 0x1, 1, 0) = {'1' * 5000}"], 1, "",
                NOTHING)
    yield trace("nothing", [], 1, "", NOTHING)


def timed() -> Iterator[Case]:
    """Times since 1970, as -ttt has them, and others."""
    recv, time = "recv(3, [...], 65536, 0) = 20", "1700000000.000042"
    line = f"# 2023-11-14T22:13:20.000042Z received\n{ONE.hex()}\n"
    for name, front in (("a time", time), ("a process and a time", f"7  {time}"),
                        ("a process in brackets and a time", f"[pid   7] {time}"),
                        ("a time of nanoseconds", f"{time}999")):
        yield trace(name, [OPENED, f"{front} {recv}", *ROWS], 0, line)
    yield trace("a time of milliseconds", [OPENED, f"1700000000.042 {recv}", *ROWS], 0,
                f"# 2023-11-14T22:13:20.042000Z received\n{ONE.hex()}\n")
    yield trace("the time of a request",
                [OPENED, f"{time} send(3, [...], 16, 0) = 16", *SHORT, recv, *ROWS], 0,
                f"# 2023-11-14T22:13:20.000042Z sent\n{TWO.hex()}\n{RECEIVED}")
    yield trace("the time at which a call ends",
                [OPENED, f"7 1600000000.000001 {recv[:20]} <unfinished ...>",
                 f"7 {time} <... recv resumed>{recv[20:]}", *ROWS], 0, line)
    for name, front in (("of a day", "22:13:20.000042"),
                        ("since the call before", "     0.000042"),
                        ("behind the year 9999", "999999999999.000042")):
        yield trace(f"a time {name}", [OPENED, f"{front} {recv}", *ROWS], 0, RECEIVED)


def dropping() -> Iterator[Case]:
    """Messages that the kernel dropped: it says so in front of those that wait, and what is behind
    them is missing."""
    recv = ["recv(3, [...], 65536, 0) = 20", *ROWS]
    full = "recvmsg(3, {msg_namelen=12}, 0) = -1 ENOBUFS (No buffer space available)"
    none = "recv(3, 0x1, 20, 0) = -1 EAGAIN (Resource temporarily unavailable)"
    line, loss = "# dropped: the kernel had no room for messages here\n", (
        "line 2: the kernel dropped messages for the program")
    for name, lines, output, losses in (
            ("up to where none waits", [full, *recv, none, *recv], RECEIVED + line + RECEIVED, 1),
            ("up to a close", [full, *recv, "close(3) = 0"], RECEIVED + line, 1),
            ("up to the end", [full, *recv], RECEIVED + line, 1),
            ("of another file", [full.replace("(3", "(4"), *recv, none], RECEIVED, 0),
            ("in two lines", [f"7 {full[:30]} <unfinished ...>",
                              f"7 <... recvmsg resumed>{full[30:]}", *recv, none],
             RECEIVED + line, 2)):
        errors = loss.replace("line 2", f"line {losses + 1}")
        yield trace(f"dropped, {name}", [OPENED, *lines], int(losses > 0), output,
                    said(errors) if losses else "")
    yield trace("dropped twice", [OPENED, full, *recv, full, none], 1, RECEIVED + line + line,
                said(loss, loss.replace("line 2", "line 6")))


def damaged() -> Iterator[Case]:
    recv, front = "recv(3, [...], 65536, 0) = 20", [OPENED, "send(3, [...], 16, 0) = 16", *SHORT]
    for name, row in (
            ("a row without pairs", " | 00010  "), ("a bare row", " | "),
            ("a pair of other letters", ROWS[1].replace("00 00 00 00", "00 0g 00 00")),
            ("an odd row", ROWS[1].replace("00 00 00 00", "00 00 00 0 ")),
            ("a place of other letters", ROWS[1].replace("00010", "0001x")),
            ("a row that was cut", ROWS[1][:24]),
            ("another text", ROWS[1].replace("....", "abcd").replace("00 00 00 00", "61 62 63 65"))
    ):
        yield trace(name, [*front, recv, ROWS[0], row, "close(3) = 0"], 1, SENT,
                    said("line 6: no row of bytes"))
    for place in ("0x10", "-0", "+0", "1_0", "0\f", "\f0", "0\t", "0 0", ""):
        yield trace(f"a place {place!r}", [*front, recv, ROWS[0].replace("00000", place)], 1, SENT,
                    said("line 5: no row of bytes"))
    yield trace("a form feed between pairs",
                [*front, recv, ROWS[0].replace("14 00", "14\f00")], 1, SENT,
                said("line 5: no row of bytes"))
    yield trace("a row that was left out", [*front, recv, ROWS[1]], 1, SENT,
                said("line 5: a row is missing before the one of place 00010"))
    yield trace("a last row that was left out", [*front, recv, ROWS[0]], 1, SENT,
                said("line 4: 20 bytes were received, and 16 of them are here"))
    yield trace("too few bytes that were sent", [*front, recv.replace("recv", "send"), ROWS[0]], 1,
                SENT, said("line 4: 20 bytes were sent, and 16 of them are here"))
    yield trace("no bytes", [*front, recv, "close(3) = 0"], 1, SENT,
                said("line 4: strace printed no bytes; run it with -e read=all"))
    yield trace("a call without its end", [*front, "recv(3, [{nlmsg_len=20"], 1, SENT,
                said("line 4: the end of this recv is missing"))
    yield trace("a call without its beginning", [*front, "<... recv resumed>[...], 9, 0) = 20"], 1,
                SENT, said("line 4: the beginning of this recv isn't known"))
    yield trace("many datagrams", [*front, "recvmmsg(3, [{msg_hdr={...}}], 1, 0, NULL) = 1"], 1,
                SENT, said("line 4: datagrams of recvmmsg are not taken"))
    yield trace("a datagram that was cut, and one behind it",
                [OPENED, "recv(3, [...], 4, MSG_TRUNC) = 20", *ROWS, recv, *ROWS], 1,
                f"# received\n# cut: 4 of 20 bytes\n{ONE.hex()[:8]}\n{RECEIVED}",
                said("line 2: the datagram was cut: 4 of 20 bytes are recorded"))
    yield trace("a datagram that was cut in a vector",
                [OPENED, "recvmsg(3, {msg_iov=[{iov_base=[...], iov_len=16}], "
                 "msg_flags=MSG_CTRUNC|MSG_TRUNC}, 0) = 16", *SHORT], 1,
                f"# received\n# cut: 16 bytes of a longer one\n{TWO.hex()}\n",
                said("line 2: the datagram was cut: 16 bytes of a longer one are recorded"))


def long_lines() -> Iterator[Case]:
    """Lines of 4 MiB, each of which could take time of its square."""
    size = 1 << 22
    for name, piece in (("blanks", " "), ("digits", "1"), ("numbers", "1 "), ("times", "1:1."),
                        ("results", ") = "), ("ends", ")  "), ("rooms", ", 1, MSG_A"),
                        ("brackets", "(1<"), ("buffers", 'iov_base="'), ("signs", 'iov_base="\\'),
                        ("flags", "msg_flags=A|"), ("attached", "strace: Process 1 ")):
        text = piece * (size // len(piece))
        for line in (text, f"recv(3, {text}", f"recv(3, {text}, 1, 0) = 20", f"[pid {text}"):
            lines = [OPENED, line, "recv(3, [...], 65536, 0) = 20", *ROWS]
            yield Case(f"strace: 4 MiB of {name} in {line[:8]}", ["strace"],
                       "".join(f"{it}\n" for it in lines).encode(), ANY, "", "")


def cases() -> Iterator[Case]:
    yield from whole()
    yield from damaged()
    yield from long_lines()
