"""A kernel that is played: a unix SOCK_SEQPACKET socket on which a program asks, and is answered by
what a test has for it.
"""
import os
import socket
import subprocess
import tempfile
import threading
from typing import Callable, List, NamedTuple, Optional

# How long a program may take, in seconds.
PATIENCE = 60
Command = List[str]


class Ended(NamedTuple):
    """What a program printed, how it ended, and what it had asked."""

    output: str
    errors: str
    status: int
    requests: List[bytes]


# What is sent on a request, of its number from 0 on: datagrams; where None stands the socket ends.
Sent = List[Optional[bytes]]
Answer = Callable[[int, bytes], Sent]


def serve(served: socket.socket, greeting: Optional[List[bytes]], answer: Answer,
          requests: List[bytes]) -> None:
    """Sends the greeting to the first that comes, and answers its requests until it goes."""
    with served:
        to, _ = served.accept()
    with to:
        to.setsockopt(socket.SOL_SOCKET, socket.SO_SNDBUF, 1 << 20)
        try:
            for datagram in greeting or []:
                to.send(datagram)
            while greeting is None:
                request = to.recv(65536)
                if not request:
                    return
                requests.append(request)
                for sent in answer(len(requests) - 1, request):
                    if sent is None:
                        return
                    to.send(sent)
        except (BrokenPipeError, ConnectionResetError):
            return


def run(command: Command) -> Ended:
    """Runs a program to its end."""
    try:
        ran = subprocess.run(command, stdin=subprocess.DEVNULL, capture_output=True, text=True,
                             errors="replace", timeout=PATIENCE, check=False)
    except subprocess.TimeoutExpired:
        return Ended("", "it did not end", -1, [])
    return Ended(ran.stdout, ran.stderr, ran.returncode, [])


def play(command: Command, answer: Answer, greeting: Optional[List[bytes]] = None) -> Ended:
    """Runs a program against a played kernel. With a greeting, that one only notifies, and ends."""
    with tempfile.TemporaryDirectory() as folder:
        path, requests = f"{folder}/kernel", []  # type: str, List[bytes]
        served = socket.socket(socket.AF_UNIX, socket.SOCK_SEQPACKET)
        served.settimeout(PATIENCE)
        served.bind(path)
        served.listen(1)
        playing = threading.Thread(target=serve, args=(served, greeting, answer, requests))
        playing.daemon = True
        playing.start()
        ended = run([*command, path])
        if playing.is_alive() and not requests:
            # It never came; nobody is waited for.
            socket.socket(socket.AF_UNIX, socket.SOCK_SEQPACKET).connect_ex(path)
        playing.join(PATIENCE)
        return ended._replace(requests=requests)


def nowhere() -> str:
    """The path of a socket that isn't there."""
    return os.path.join(tempfile.gettempdir(), "no", "kernel")
