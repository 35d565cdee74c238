"""Asks the kernel for a dump and records its answers, behind a line with the sequence number of
the request, the port id of the socket, and what was asked for. Nothing is changed."""
import errno
import os
import socket
import struct
from typing import Iterator, Optional

import netlink
from kinds import KINDS, Asked, request
from output import Comment, Item, Loss, cut

INTERRUPTED = 0x10  # NLM_F_DUMP_INTR
ERROR, DONE, OVERRUN = 2, 3, 4  # NLMSG_ERROR, NLMSG_DONE, NLMSG_OVERRUN
SEQ = 1
# How many seconds a datagram may take, and one behind a datagram that was cut, which may have been
# the last: the kernel makes the next one before it hands one out.
WAIT, WAIT_BEHIND_CUT = 5.0, 0.5
SLOW = Loss(f"no datagram came within {WAIT:g} seconds")


class Dump:
    """A dump that a socket asks for, and what its answers say. Its end is the error that ended it,
    or 0 for none."""

    def __init__(self, link: socket.socket, asked: Asked, seq: int) -> None:
        self.link, self.asked, self.seq = link, asked, seq
        self.port: int = link.getsockname()[0]
        self.end: Optional[int] = None
        self.is_interrupted = False

    def ask(self, name: str) -> Iterator[Item]:
        """Asks for it, behind a line that calls the kind so."""
        yield Comment(f"seq {self.seq} port {self.port} kind {name}")
        self.link.sendto(request(self.asked, self.seq), (0, 0))

    def take(self, data: bytes) -> bool:
        """Looks at a datagram. It answers whether the socket was meant, be it by this dump or by
        one before."""
        is_answer = False
        for message in netlink.messages(data):
            if message.port != self.port:
                continue
            is_answer = True
            if message.seq != self.seq:
                continue
            self.is_interrupted |= bool(message.flags & INTERRUPTED)
            if message.kind == OVERRUN:
                self.end = errno.EOVERFLOW
            elif message.kind in (ERROR, DONE):
                code = data[message.body:message.body + 4]
                self.end = max(-struct.unpack("=i", code)[0], 0) if len(code) == 4 else 0
        return is_answer

    def losses(self) -> Iterator[Loss]:
        """What is missing of the answers, by what they say."""
        if self.end:
            yield Loss(f"the kernel answered with error {self.end}, {os.strerror(self.end)}")
        if self.is_interrupted:
            yield Loss("the kernel interrupted the dump: entries may be missing, or not agree")


def items(link: socket.socket, asked: Asked, size: int) -> Iterator[Item]:
    """The answers, in a buffer of this size, and what is missing of them."""
    dump, room, is_cut = Dump(link, asked, SEQ), bytearray(size), False
    link.settimeout(WAIT)
    yield from dump.ask(KINDS[asked.kind].read_as or asked.kind)
    while dump.end is None:
        try:
            found = netlink.received(link, room)
        except socket.timeout:
            if not is_cut:
                yield SLOW
            break
        if not found:
            continue
        data, whole = found
        if len(data) < whole:
            is_cut = True
            link.settimeout(WAIT_BEHIND_CUT)
            yield from cut("", data, whole)
        else:
            yield data
        dump.take(data)
    yield from dump.losses()
