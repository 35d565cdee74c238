"""What strace -o FILE -e read=all -e write=all wrote of a program: each datagram that it received
from a socket for rtnetlink, or sent to one, behind a comment line that says which, and when, where
strace was run with -ttt. The file is written with -o: into a pipe the program's own output comes
between the lines of strace, and can forge them.

The bytes are those that strace prints behind a call; or those of a buffer in quotes, which must be
whole and in hexadecimal (-xx -s 65536). Calls that only peek and calls that fail are left out."""
import re
from typing import BinaryIO, Dict, Iterator, List, NamedTuple, Optional, Tuple

import netlink
import strace_line
from hexdump import bytes_of, is_text_of
from output import LONGEST, RECEIVED, SENT, Damaged, Item, Loss, Note, cut, dropped, short, when
from source import lines
from strace_line import Part

# The calls that are looked at, and what is done with a datagram by them.
WAYS = {name: RECEIVED for name in "recvmsg recvfrom recv read readv recvmmsg".split()}
WAYS.update((name, SENT) for name in "sendmsg sendto send write writev sendmmsg".split())
MANY = ("recvmmsg", "sendmmsg")
# Calls of any file, which is known for a socket only by the call that opened it.
PLAIN = ("read", "readv", "write", "writev")
NAMES = (*WAYS, "socket", "close")
# What a call answers where no datagram waits, and where the kernel has dropped some.
NONE_WAITS, NO_ROOM = "EAGAIN", "ENOBUFS"
BUFFER, ROW = " * ", " | "
# The place of a row; and where behind it its pairs of digits end, and where its text begins.
PLACE, PAIRS, TEXT = re.compile(" *[0-9A-Fa-f]+"), 48, 50


class Call(NamedTuple):
    """A call that sent or received a datagram, its time in microseconds, and its bytes as strace
    printed them behind it."""

    number: int
    time: Optional[int]
    name: str
    text: str
    size: int
    data: bytearray

    def has_bytes(self) -> bool:
        return bool(self.data) or strace_line.has_quoted(self.text)

    def items(self) -> Iterator[Item]:
        """The datagram, behind a comment."""
        way, place = WAYS[self.name], f"line {self.number}: "
        if not self.has_bytes():
            raise Damaged(f"{place}strace printed no bytes; run it with -e read=all")
        data = bytes(self.data) or strace_line.quoted(self.text, self.number)
        if len(data) > LONGEST:
            raise Damaged(f"{place}a datagram above {LONGEST} bytes")
        room = strace_line.room_of(self.text) if self.name in ("recvfrom", "recv") else None
        said = when(self.time, way)
        if room is not None and room < self.size:
            # strace prints as many bytes as the datagram has; the program has got the first.
            yield from said
            yield from cut(place, data[:room], self.size)
        elif way == RECEIVED and strace_line.CUT.search(self.text):
            yield from said
            yield from cut(place, data, self.size if len(data) < self.size else None)
        elif len(data) != self.size:
            raise Damaged(f"{place}{self.size} bytes were {way}, and {len(data)} of them are here")
        else:
            yield from said
            yield from netlink.sent(data) if way == SENT else [data]


class Sockets:
    """Which files are sockets for rtnetlink, as far as the trace says."""

    def __init__(self) -> None:
        self.known: Dict[Tuple[Optional[str], str], bool] = {}

    def opened(self, part: Part, file: str) -> None:
        """Keeps it by the process, and by the file's number alone, since a thread or a child may
        have it from another process."""
        found = strace_line.SOCKET.match(part.text)
        domain, protocol = found.groups() if found else (None, None)
        is_route = domain in ("AF_NETLINK", "PF_NETLINK") and protocol in ("NETLINK_ROUTE", "0")
        self.known[part.process, file] = self.known[None, file] = is_route

    def closed(self, part: Part) -> None:
        found = strace_line.DESCRIPTOR.match(part.text)
        if found:
            self.known.pop((part.process, found[1]), None)
            self.known.pop((None, found[1]), None)

    def has(self, part: Part) -> bool:
        """Whether a call is of such a socket."""
        found = strace_line.DESCRIPTOR.match(part.text)
        file, protocol = (found[1], found[2]) if found else ("", None)
        if protocol and not protocol.isdecimal():
            return bool(protocol == "ROUTE")
        known = self.known.get((part.process, file), self.known.get((None, file)))
        if known is None and part.name not in PLAIN:
            return "AF_NETLINK" in part.text or "nlmsg_len=" in part.text
        return bool(known)


class Trace:
    """The calls of a trace, line by line."""

    def __init__(self) -> None:
        self.begun: Dict[str, Dict[Optional[str], List[str]]] = {}
        self.sockets = Sockets()
        self.last: Optional[Call] = None
        self.begin = self.count = self.silent = 0
        # The sockets of which the kernel dropped messages, and the lines that say so.
        self.drops: Dict[Optional[str], int] = {}

    def line(self, number: int, text: str) -> Iterator[Item]:
        """Takes a line, which ends the datagram before it where it is no row of it."""
        if text.startswith(BUFFER):
            return
        if text.startswith(ROW):
            self.row(number, text)
            return
        yield from self.end()
        part = strace_line.part_of(text)
        if part and part.name in NAMES:
            yield from self.take(number, part)

    def row(self, number: int, text: str) -> None:
        """The bytes of a row, which go behind those before it. Each buffer begins at place 0."""
        if not self.last:
            return
        place, _, rest = text[len(ROW):].partition("  ")
        # There may be two blanks behind the first eight bytes.
        data = bytes_of(rest[:PAIRS].strip(" ").replace("  ", " ", 1))
        is_row = bool(PLACE.fullmatch(place)) and rest[PAIRS:TEXT] == "  "
        if not data or not is_row or not is_text_of(rest[TEXT:-2], data):
            raise Damaged(f"line {number}: no row of bytes")
        begin = int(place, 16)
        if begin == 0:
            self.begin = len(self.last.data)
        if self.begin + begin != len(self.last.data):
            raise Damaged(f"line {number}: a row is missing before the one of place "
                          f"{short(place)}")
        self.last.data.extend(data)
        if len(self.last.data) > LONGEST:
            raise Damaged(f"line {number}: a datagram above {LONGEST} bytes")

    def take(self, number: int, part: Part) -> Iterator[Item]:
        """A call, the beginning of one, or the rest of one."""
        parts: Optional[List[str]] = self.beginning(part) if part.is_rest else []
        if parts is None:
            if part.name in PLAIN or part.name not in WAYS:
                return
            raise Damaged(f"line {number}: the beginning of this {part.name} isn't known")
        text = strace_line.unfinished(part.text)
        result = strace_line.result_of(part.text) if text is None else None
        parts.append(part.text if text is None else text)
        if result is not None:
            yield from self.ended(number, part._replace(text="".join(parts)), result)
        elif text is None:
            raise Damaged(f"line {number}: the end of this {part.name} is missing")
        else:
            self.begun.setdefault(part.name, {})[part.process] = parts

    def beginning(self, part: Part) -> Optional[List[str]]:
        """The parts before this one. strace names no process where only one is left."""
        waiting = self.begun.get(part.name, {})
        for process in (part.process, None):
            if process in waiting:
                return waiting.pop(process)
        return waiting.popitem()[1] if part.process is None and len(waiting) == 1 else None

    def ended(self, number: int, part: Part, result: str) -> Iterator[Item]:
        """A whole call, which answered this."""
        if not strace_line.NUMBER.fullmatch(result):
            yield from self.failed(number, part)
        elif part.name == "socket":
            self.sockets.opened(part, result)
        elif part.name == "close":
            yield from self.dropped(strace_line.file_of(part.text))
            self.sockets.closed(part)
        elif result != "0" and "MSG_PEEK" not in part.text and self.sockets.has(part):
            if part.name in MANY:
                raise Damaged(f"line {number}: datagrams of {part.name} are not taken")
            self.last = Call(number, part.time, part.name, part.text, int(result), bytearray())

    def failed(self, number: int, part: Part) -> Iterator[Item]:
        """A call that failed. The kernel says that it drops messages in front of those that wait,
        and drops until all of them are received."""
        error, file = strace_line.error_of(part.text), strace_line.file_of(part.text)
        if WAYS.get(part.name) == RECEIVED and self.sockets.has(part):
            if error in (NONE_WAITS, NO_ROOM):
                yield from self.dropped(file)
            if error == NO_ROOM:
                self.drops[file] = number

    def dropped(self, file: Optional[str]) -> Iterator[Item]:
        """The line for what was dropped of a socket, if some was."""
        number = self.drops.pop(file, None)
        if number is not None:
            yield dropped("the kernel had no room for messages here")
            yield Loss(f"line {number}: the kernel dropped messages for the program")

    def end(self) -> Iterator[Item]:
        """The datagram of the last call."""
        last, self.last = self.last, None
        if not last:
            return
        self.count += 1
        if WAYS[last.name] == SENT and not last.has_bytes():
            self.silent += 1
        else:
            yield from last.items()


def items(file: BinaryIO) -> Iterator[Item]:
    """Each datagram, sent or received."""
    trace = Trace()
    for number, text in lines(file, "latin-1"):
        yield from trace.line(number, text)
    yield from trace.end()
    for it in [*trace.drops]:
        yield from trace.dropped(it)
    if trace.silent:
        yield Note(f"left out: {trace.silent} sent datagrams, of which strace printed no bytes; "
                   "run it with -e write=all")
    if not trace.count:
        yield Loss("no datagram of a socket for rtnetlink")
