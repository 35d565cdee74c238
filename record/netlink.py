"""Sockets for rtnetlink, and the headers of the messages that come from them."""
import ctypes
import errno
import os
import socket
import struct
from typing import Iterator, NamedTuple, Optional, Tuple

from output import Comment, Item, Stop, shown

HEADER = struct.Struct("=IHHII")
REQUEST = 1  # NLM_F_REQUEST
CLONE_NEWNET = 0x40000000  # of linux/sched.h
NAMESPACES = "/run/netns"


class Message(NamedTuple):
    """The header of a message, and where its body begins in the datagram."""

    kind: int
    flags: int
    seq: int
    port: int
    body: int


def messages(data: bytes) -> Iterator[Message]:
    """The headers of a datagram, as far as its lengths go."""
    place = 0
    while place + HEADER.size <= len(data):
        length, kind, flags, seq, port = HEADER.unpack_from(data, place)
        yield Message(kind, flags, seq, port, place + HEADER.size)
        place += max(length + 3 & ~3, HEADER.size)


def end_of_requests(data: bytes, order: str) -> int:
    """Where the whole messages end that a datagram begins with, if all are requests; or else 0."""
    place = 0
    while place + HEADER.size <= len(data):
        length, _, flags = struct.unpack_from(f"{order}IHH", data, place)
        if length < HEADER.size or place + length > len(data):
            break
        if not flags & REQUEST:
            return 0
        place += length + 3 & ~3
    return place


def sent(data: bytes) -> Iterator[Item]:
    """A datagram that may have been sent. Some programs send all of a buffer, and the kernel
    passes over what stands behind the last request: zero bytes are left out there."""
    for end in (end_of_requests(data, "<"), end_of_requests(data, ">")):
        if 0 < end < len(data) and not any(data[end:]):
            yield Comment(f"cut: {len(data) - end} zero bytes behind the last message")
            yield data[:end]
            return
    yield data


def enter(name: str) -> None:
    """Goes into the network namespace of this name."""
    library = ctypes.CDLL(None, use_errno=True)
    try:
        file = os.open(f"{NAMESPACES}/{name}", os.O_RDONLY | os.O_CLOEXEC)
        entered = library.setns(file, CLONE_NEWNET)
        number = ctypes.get_errno()
        os.close(file)
        if entered:
            raise OSError(number, os.strerror(number))
    except (OSError, ValueError) as error:
        reason = error.strerror if isinstance(error, OSError) else error
        raise Stop(f"network namespace {shown(name)}: {reason}") from None


def opened(namespace: Optional[str]) -> socket.socket:
    """A socket for rtnetlink, in this network namespace or in that of the program."""
    if namespace is not None:
        enter(namespace)
    link = socket.socket(socket.AF_NETLINK, socket.SOCK_RAW, socket.NETLINK_ROUTE)
    link.bind((0, 0))
    return link


def received(link: socket.socket, room: bytearray) -> Optional[Tuple[bytes, int]]:
    """A datagram of the kernel, as far as there is room for it, and its size; nothing where it
    comes from somebody else."""
    size, _, _, sender = link.recvmsg_into([room], 0, socket.MSG_TRUNC)
    return (bytes(memoryview(room)[:size]), size) if sender[0] == 0 else None


def is_full(error: OSError) -> bool:
    """Whether the kernel had no room for a message, and dropped it."""
    return error.errno == errno.ENOBUFS
