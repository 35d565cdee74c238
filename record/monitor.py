"""Records what the kernel notifies of, until an interrupt: each datagram at once. A group is one
of linux/rtnetlink.h, by its name in lower case without RTNLGRP_; address, route and rule are those
of all address families; all, the default, is each one that the kernel has and this user may listen
to. What --dump and --again ask for comes on the same socket, in order with the notifications."""
import os
import select
import signal
import socket
import time
from typing import Generator, Iterator, List, Optional, Union

import groups
import netlink
from again import Again, Dumps
from output import LONGEST, RECEIVED, Comment, Item, Loss, Note, Stop, cut, dropped, when

SOL_NETLINK, ADD_MEMBERSHIP = 270, 1  # of linux/socket.h and linux/netlink.h
# What is asked for, of which the kernel gives twice as much.
ROOM = 1 << 20
Readable = Union[socket.socket, Again]


class Interrupt:
    """What ends the program cleanly: SIGINT or SIGTERM. A second one ends it at once."""

    def __init__(self) -> None:
        self.reader, writer = os.pipe()
        os.set_blocking(writer, False)
        signal.set_wakeup_fd(writer)
        for number in (signal.SIGINT, signal.SIGTERM):
            signal.signal(number, self.come)

    def come(self, number: int, _: object) -> None:
        signal.signal(number, signal.SIG_DFL)

    def ready(self, files: List[Readable], seconds: Optional[float]) -> Optional[List[Readable]]:
        """Which of the files can be read, once one can or the time is over. It is none of them
        where an interrupt comes. Unlike epoll(7), select takes a file on a disk, too."""
        ready, _, _ = select.select([self.reader, *files], [], [], seconds)
        return None if self.reader in ready else ready


class Drops:
    """Where the kernel dropped messages. It says so in front of those that wait, and drops until
    all of them are received. A dump that runs goes on meanwhile, and is received, too."""

    def __init__(self) -> None:
        self.waiting = 0  # at most so many bytes are in front of the place

    def begin(self) -> Iterator[Item]:
        """The kernel says so. It says so again only behind the place of the last time."""
        yield from self.end()
        self.waiting = 2 * ROOM + LONGEST

    def received(self, size: int) -> Iterator[Item]:
        """A datagram of this size came, which may be the last that can have waited. It is none of
        a dump: those come behind the place while the kernel drops all others."""
        if 0 < self.waiting <= size:
            yield from self.end()
        self.waiting = max(self.waiting - size, 0)

    def end(self) -> Iterator[Item]:
        """None waits."""
        if self.waiting:
            yield dropped("the kernel had no room for messages here")
            yield Loss("the kernel dropped messages, since they were not received soon enough")
        self.waiting = 0


def join(link: socket.socket, words: List[str]) -> Iterator[Item]:
    """Joins the groups. One of all that can't be joined is named, or not there in this kernel."""
    for name in groups.named(words):
        try:
            link.setsockopt(SOL_NETLINK, ADD_MEMBERSHIP, groups.NUMBERS[name])
        except OSError as error:
            if groups.ALL not in words:
                raise Stop(f"group {name}: {error.strerror}") from None
            if isinstance(error, PermissionError):
                yield Note(f"group {name}: {error.strerror}; it is left out")


def waited(interrupt: Interrupt, link: socket.socket, dumps: Dumps, again: Optional[Again]
           ) -> Generator[Item, None, bool]:
    """Waits until a datagram is there, and asks for dumps meanwhile. It returns whether an
    interrupt came instead."""
    while True:
        yield from dumps.ask()
        files: List[Readable] = [link, again] if again and again.is_open else [link]
        ready = interrupt.ready(files, dumps.seconds())
        if ready is None:
            return True
        if again and again in ready:
            yield from again.read(dumps)
        if link in ready:
            return False
        yield from dumps.end()


def items(link: socket.socket, words: List[str], is_timed: bool, kinds: List[str], dev: int,
          again: Optional[Again]) -> Iterator[Item]:
    """The notifications of the groups until an interrupt. Dumps of these kinds are asked for, and
    of those that the file names; where they are of one device, of the one with this index."""
    interrupt, room = Interrupt(), bytearray(LONGEST)
    link.setblocking(False)
    link.setsockopt(socket.SOL_SOCKET, socket.SO_RCVBUF, ROOM)
    yield from join(link, words)
    yield Comment(f"groups {' '.join(words)} port {link.getsockname()[0]}")
    drops, dumps = Drops(), Dumps(link, kinds, dev)
    while drops.waiting or not (yield from waited(interrupt, link, dumps, again)):
        try:
            found = netlink.received(link, room)
        except BlockingIOError:
            yield from drops.end()
            continue
        except OSError as error:
            if not netlink.is_full(error):
                raise
            yield from drops.begin()
            dumps.doubt()
            continue
        if not found:
            continue
        if is_timed:
            yield from when(time.time_ns() // 1000, RECEIVED)
        data, size = found
        if len(data) < size:
            yield from cut("", data, size)
        else:
            yield data
        if dumps.take(data):
            yield from dumps.end()
        else:
            yield from drops.received(size)
    yield from dumps.unfinished()
