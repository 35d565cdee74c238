"""The dumps that a socket asks for while it listens. In a file a reader names those that it wants
again."""
import errno
import os
import socket
import time
from typing import Iterator, List, Optional

from dump import SLOW, WAIT, Dump
from kinds import KINDS, OF_DEVICE, Asked
from output import Item, Loss, Stop, short, shown

# How many seconds none may answer where the end may have been lost.
LULL = 1.0
PIECE = 1 << 12
# A longer line is no kind, so that no more of it is kept.
LONGEST_LINE = 64


class Dumps:
    """Dumps of these kinds, one after another, since the kernel runs one at a time for a socket.
    An end may be lost where messages were dropped and nothing answers for a second. That kind is
    dumped again. So it is where the kernel answers that the dump before still runs. Kinds of one
    device are asked for of the one with this index, if any."""

    def __init__(self, link: socket.socket, kinds: List[str], dev: int) -> None:
        self.link, self.waiting, self.dev = link, [*dict.fromkeys(kinds)], dev
        self.running: Optional[Dump] = None
        self.seq, self.is_in_doubt, self.until = 0, False, 0.0

    def add(self, kind: str) -> None:
        if kind not in self.waiting:
            self.waiting.append(kind)

    def ask(self) -> Iterator[Item]:
        """Asks for the next one, where none runs."""
        if self.waiting and not self.running:
            self.seq += 1
            kind = self.waiting.pop(0)
            self.running = Dump(self.link, Asked(kind, dev=self.dev), self.seq)
            self.is_in_doubt = False
            yield from self.running.ask(kind)
            self.have_patience()

    def have_patience(self) -> None:
        self.until = time.monotonic() + (LULL if self.is_in_doubt else WAIT)

    def doubt(self) -> None:
        """The kernel dropped messages, which may have been answers."""
        self.is_in_doubt = True
        self.have_patience()

    def take(self, data: bytes) -> bool:
        """Looks at a datagram, and answers whether it has answers."""
        if not self.running or not self.running.take(data):
            return False
        if self.running.end == errno.EBUSY:
            self.running.end, self.is_in_doubt = None, True
        self.have_patience()
        return True

    def seconds(self) -> Optional[float]:
        """How long an answer may still take, where a dump runs."""
        return max(self.until - time.monotonic(), 0) if self.running else None

    def end(self) -> Iterator[Item]:
        """Ends the dump that runs, where its end came. Where no datagram waits, it ends one whose
        time is over, too."""
        dump = self.running
        if not dump or dump.end is None and self.seconds():
            return
        self.running = None
        if dump.end is None and self.is_in_doubt:
            kind = dump.asked.kind
            self.waiting = [kind, *(it for it in self.waiting if it != kind)]
            return
        losses = [*dump.losses()] if dump.end is not None else [SLOW]
        yield from (Loss(f"dump of kind {dump.asked.kind}: {it}") for it in losses)

    def unfinished(self) -> Iterator[Item]:
        """What is missing where all ends."""
        kinds = [self.running.asked.kind] if self.running else []
        kinds += [it for it in self.waiting if it not in kinds]
        if kinds:
            yield Loss(f"no whole dump of kind {', '.join(kinds)} at the end")


class Again:
    """A file whose lines are kinds, as a reader writes them that wants them dumped again."""

    def __init__(self, path: str) -> None:
        self.name, self.rest, self.is_open = shown(path), b"", True
        # To read and to write: so a named pipe is open at once, with or without a writer. One that
        # is open to read alone is at its end where the writer closes it, and ready from then on.
        # This one has no end, and hears who opens it later. Another may read it: no read waits.
        try:
            self.file = os.open(path, os.O_RDWR | os.O_NONBLOCK)
        except (OSError, ValueError) as error:
            reason = error.strerror if isinstance(error, OSError) else error
            raise Stop(f"{self.name}: {reason}") from None

    def fileno(self) -> int:
        return self.file

    def read(self, dumps: Dumps) -> Iterator[Item]:
        """Takes the lines that are there. Behind the end of another file none is waited for."""
        try:
            data = os.read(self.file, PIECE)
        except BlockingIOError:
            return
        except OSError as error:
            yield Loss(f"{self.name}: {error.strerror}")
            data = b""
        *lines, rest = (self.rest + data).split(b"\n")
        if not data:
            self.is_open = False
            os.close(self.file)
            lines, rest = [rest] if rest else [], b""
        self.rest = rest[:LONGEST_LINE]
        for line in lines:
            kind = line.decode(errors="replace")
            if kind in OF_DEVICE and not dumps.dev:
                yield Loss(f"{self.name}: {kind} needs --dev")
            elif kind in KINDS:
                dumps.add(kind)
            else:
                yield Loss(f"{self.name}: '{shown(short(kind))}' is no kind; there are "
                           f"{', '.join(KINDS)}")
