"""What the programs of this folder share: a socket, a dump over it, the lines that they print, and
how they end."""
import errno
import os
import signal
import socket
import sys
from contextlib import closing
from typing import Callable, Iterable, Optional

import rtnl

SIZE = 65536
AGAIN = 10
# How a byte of a name is printed: one that a terminal doesn't just print is written as \x1b is.
SHOWN = [chr(it) if 0x20 < it < 0x7F and it != 0x5C else f"\\x{it:02x}" for it in range(256)]


class Failed(Exception):
    """Why a program ends, and the status that it ends with."""

    def __init__(self, text: str, status: int = 2) -> None:
        super().__init__(text, status)
        self.text, self.status = text, status


class Source:
    """A netlink socket that joins groups; or a unix socket at whose other end a program plays the
    kernel, where a path is given."""

    def __init__(self, path: Optional[str], groups: Iterable[int]) -> None:
        self.seq = self.port = 0
        self._buffer = memoryview(bytearray(SIZE))
        self._is_kernel = path is None
        if path is None:
            kind = socket.SOCK_RAW | socket.SOCK_CLOEXEC
            self.socket = socket.socket(socket.AF_NETLINK, kind, socket.NETLINK_ROUTE)
        else:
            self.socket = socket.socket(socket.AF_UNIX, socket.SOCK_SEQPACKET)
        try:
            self._open(path, groups)
        except OSError:
            self.close()
            raise

    def _open(self, path: Optional[str], groups: Iterable[int]) -> None:
        if path is None:
            self.socket.bind((0, sum(1 << (group - 1) for group in groups)))
            self.port = self.socket.getsockname()[0]
        else:
            self.socket.connect(path)

    def close(self) -> None:
        self.socket.close()

    def receive(self) -> Optional[memoryview]:
        """A datagram that the kernel sent, and no other process; None where the socket has ended.
        It is good until the next one."""
        while True:
            size, _, flags, sender = self.socket.recvmsg_into([self._buffer])
            if self._is_kernel and sender[0] != 0:
                continue
            if flags & socket.MSG_TRUNC:
                raise Failed("cut datagram", 4)
            return self._buffer[:size] if size or self._is_kernel else None

    def dump(self, stream: rtnl.Stream, kind: int, family: int = 0) -> rtnl.MessageList:
        """The entries of a dump, which is taken again where the kernel's table has changed."""
        entries = rtnl.MessageList()
        for _ in range(1 + AGAIN):
            self.seq += 1
            self.socket.send(stream.begin(kind, family, seq=self.seq, port=self.port))
            while stream.waiting:
                datagram = self.receive()
                if datagram is None:
                    raise Failed("the answer ended early")
                entries.extend(stream.feed(datagram))
            status = stream.status()
            if status.error:
                raise Failed(f"refused: {os.strerror(status.error)}", 3)
            if status.state == rtnl.State.OVERRUN:
                raise Failed("lost datagrams", 5)
            if status.complete:
                return entries
            entries.clear()
        raise Failed("interrupted")


def say(*fields: object) -> None:
    """Prints a line of these fields, with a dash for a missing one."""
    texts = ("" if it is None else str(it) for it in fields)
    data = (it.encode("utf-8", "surrogateescape") for it in texts)
    print(*("".join(SHOWN[byte] for byte in it) or "-" for it in data))


def why(error: Exception) -> Failed:
    """What an error is to the user."""
    if isinstance(error, rtnl.Error) and error.place is not None:
        return Failed(f"broken datagram: {error}", 1)
    if isinstance(error, OSError):
        is_lost = error.errno == errno.ENOBUFS
        return Failed("lost datagrams", 5) if is_lost else Failed(error.strerror or f"{error}")
    return error if isinstance(error, Failed) else Failed(f"{error}")


def run(
    name: str, program: Callable[[Source], None], groups: Iterable[int] = (), at: int = 1
) -> None:
    """Runs a program over the socket that its argument of this number names, or the kernel's, and
    ends with its status."""
    signal.signal(signal.SIGINT, signal.SIG_DFL)
    signal.signal(signal.SIGPIPE, signal.SIG_DFL)
    sys.stdout = open(1, "w", encoding="ascii", buffering=1, closefd=False)
    try:
        with closing(Source(sys.argv[at] if sys.argv[at:] else None, groups)) as source:
            program(source)
    except (Failed, OSError, rtnl.Error) as error:
        failed = why(error)
        print(f"{name}: {failed.text}", file=sys.stderr)
        sys.exit(failed.status)
