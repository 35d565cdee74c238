"""A request that changes something, and the kernel's answer."""
import os
import socket
import sys
from typing import NoReturn

import source

import rtnl


def misused(usage: str) -> NoReturn:
    """Ends a program that was called wrongly."""
    print(f"usage: {usage}", file=sys.stderr)
    sys.exit(2)


def index_of(name: str) -> int:
    """The index of an interface of this name."""
    try:
        return socket.if_nametoindex(name)
    except OSError:
        raise source.Failed(f"no interface {name}") from None


def change(kernel: source.Source, request: rtnl.Request, operation: rtnl.Operation) -> None:
    """Sends a request, and waits until the kernel says that it was done."""
    kernel.seq += 1
    kernel.socket.send(request.packed(operation, kernel.seq))
    error = None
    while error is None:
        datagram = kernel.receive()
        if datagram is None:
            raise source.Failed("the answer ended early")
        own = (it.error for it in rtnl.Datagram(datagram) if it.seq == kernel.seq)
        error = next((it for it in own if it is not None), None)
    if error:
        raise source.Failed(f"refused: {os.strerror(error)}", 3)
