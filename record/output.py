"""What a source says, item by item, and how that is written: datagrams and comments as the lines
of a recording on standard output, all else on standard error."""
import datetime
import os
import select
import sys
from typing import Iterator, Optional, Union

# The greatest datagram that is taken, in bytes.
LONGEST = 1 << 20
SECOND = 1000000
# The year 10000, which has no such form.
END_OF_TIME = 253402300800 * SECOND
SENT, RECEIVED = "sent", "received"
# How much of a part of a capture an error names, in characters.
MOST_NAMED = 40


class Comment(str):
    """A comment line of the recording."""


class Note(str):
    """A line for standard error."""


class Loss(Note):
    """A note that something is missing from the recording, so that the status is 1."""


Item = Union[bytes, Comment, Note]


class Stop(Exception):
    """Ends the program with a line on standard error."""

    status = 3


class Damaged(Stop):
    """A capture that can't be read further, with the place. What came before it is written."""

    status = 1


class Usage(Stop):
    """Arguments that can't be taken."""

    status = 2


def when(microseconds: Optional[int], way: str = "") -> Iterator[Item]:
    """A comment in front of a datagram: when it went, since 1970, and which way, as far as either
    is known."""
    words = [way] if way else []
    if microseconds is not None and 0 <= microseconds < END_OF_TIME:
        seconds, rest = divmod(microseconds, SECOND)
        moment = datetime.datetime.fromtimestamp(seconds, datetime.timezone.utc)
        words.insert(0, f"{moment:%Y-%m-%dT%H:%M:%S}.{rest:06}Z")
    if words:
        yield Comment(" ".join(words))


def dropped(why: str) -> Comment:
    """What stands where datagrams are missing."""
    return Comment(f"dropped: {why}")


def cut(place: str, data: bytes, size: Optional[int]) -> Iterator[Item]:
    """A datagram of which only the front is there, and its size, where that is known."""
    part = f"{len(data)} of {size} bytes" if size else f"{len(data)} bytes of a longer one"
    yield Comment(f"cut: {part}")
    yield data
    yield Loss(f"{place}the datagram was cut: {part} are recorded")


def in_line(item: Union[bytes, Comment]) -> str:
    """The line of a recording. One for no byte would be none."""
    if isinstance(item, Comment):
        return f"# {item}"
    return item.hex() or "# a datagram of 0 bytes"


def write(items: Iterator[Item]) -> int:
    """Writes each item as it comes, and says the status."""
    status = 0
    for item in items:
        if isinstance(item, Note):
            report(item)
            status = 1 if isinstance(item, Loss) else status
            continue
        put(f"{in_line(item)}\n")
    return status


def put(text: str) -> None:
    """Writes all of a text at once to standard output."""
    try:
        write_all(1, text.encode())
    except OSError as error:
        raise Stop(f"standard output: {error.strerror}") from None


def write_all(file: int, data: bytes) -> None:
    """Writes all of these bytes, whether a signal comes or not, and where the file doesn't wait
    for room: another program may have left a pipe or a terminal so."""
    left = memoryview(data)
    while left:
        try:
            left = left[os.write(file, left):]
        except BlockingIOError:
            waiting = select.poll()
            waiting.register(file, select.POLLOUT)
            waiting.poll()


def shown(name: str) -> str:
    """The name of a file, without control characters."""
    return "".join(it if it.isprintable() else it.encode("unicode_escape").decode() for it in name)


def short(text: str) -> str:
    """A part of a capture, as far as an error names it."""
    return text if len(text) <= MOST_NAMED else f"{text[:MOST_NAMED]}.."


def report(text: object) -> None:
    """Writes a line on standard error, where there is one."""
    if sys.stderr is None:
        return
    try:
        write_all(2, f"rtnl-record: {text}\n".encode(sys.stderr.encoding, "backslashreplace"))
    except OSError:
        pass
