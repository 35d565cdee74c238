"""What the tests share: where the repository, the program and the headers are, and recordings."""
import json
import os
import re
import struct
import subprocess
from typing import Any, Dict, Iterator, List, Sequence
from unittest import SkipTest

HERE = os.path.dirname(os.path.abspath(__file__))
PACKAGE = os.path.dirname(HERE)
ROOT = os.path.dirname(os.path.dirname(PACKAGE))

# The recordings of the repository, and the family of which each is a dump.
DUMPS = {
    "examples/links": "link",
    "examples/addresses": "addr",
    "examples/routes": "route",
    "examples/neighbours": "neigh",
    "examples/rules": "rule",
    "tests/data/recordings/loopback_addresses": "addr",
    "tests/data/recordings/loopback_routes": "route",
    "tests/data/recordings/loopback_routes_ipv6": "route",
    "tests/data/recordings/no_neighbours": "neigh",
    "tests/data/recordings/default_rules": "rule",
}
NEW = {"link": 16, "addr": 20, "route": 24, "neigh": 28, "rule": 32}


def recording(name: str) -> List[bytes]:
    """The datagrams of a recording of the repository. Where there is none the test is skipped."""
    path = f"{ROOT}/{name}.hex"
    if not os.path.exists(path):
        raise SkipTest("the recordings of the repository are not here")
    with open(path, encoding="ascii") as lines:
        return [bytes.fromhex(it) for it in lines if it.strip() and not it.startswith("#")]


def printed(*arguments: str, lines: Sequence[bytes] = (), statuses: Sequence[int] = (0,)) -> str:
    """What the program `rtnl` prints of these datagrams. Without it the test is skipped."""
    program = os.environ.get("RTNL")
    if not program:
        raise SkipTest("RTNL names no program")
    text = "".join(f"{it.hex()}\n" for it in lines)
    ran = subprocess.run(
        [program, *arguments], input=text, stdout=subprocess.PIPE, text=True, check=False
    )
    if ran.returncode not in statuses:
        raise AssertionError(f"{program} {' '.join(arguments)} ended with {ran.returncode}")
    return ran.stdout


def objects(
    *arguments: str, lines: Sequence[bytes] = (), statuses: Sequence[int] = (0,)
) -> List[Dict[str, Any]]:
    """The same as the objects of its lines of JSON."""
    text = printed(*arguments, "--format", "json", lines=lines, statuses=statuses)
    return [json.loads(it) for it in text.splitlines()]


def include() -> str:
    """The folder of rtnlc.h."""
    prefix = os.environ.get("RTNLC_PREFIX")
    found = f"{prefix}/include" if prefix else f"{ROOT}/include"
    if not os.path.exists(f"{found}/rtnlc.h"):
        raise SkipTest("rtnlc.h is not here")
    return found


def false_in_c(front: Sequence[str], claims: Sequence[str]) -> List[str]:
    """Which of these claims the C compiler does not find so, behind these lines."""
    text = [*front, *(f'_Static_assert({it}, "");' for it in claims)]
    command = ["cc", "-x", "c", "-fsyntax-only", "-fmax-errors=0", f"-I{include()}", "-"]
    try:
        ran = subprocess.run(
            command,
            input="\n".join(text) + "\n",
            stdout=subprocess.PIPE,
            stderr=subprocess.PIPE,
            text=True,
            check=False,
        )
    except FileNotFoundError:
        raise SkipTest("there is no C compiler") from None
    wrong = {int(line) - 1 for line in re.findall(r"<stdin>:(\d+):\d+: error: ", ran.stderr)}
    if ran.returncode and not wrong or any(line < len(front) for line in wrong):
        raise AssertionError(ran.stderr)
    return [text[line] for line in sorted(wrong)]


# Datagrams that are made by hand. Numbers have their lowest byte first.


def message(
    kind: int, body: bytes = b"", flags: int = 2, seq: int = 1, port: int = 12345
) -> bytes:
    """A message, without padding behind it."""
    return struct.pack("<IHHII", 16 + len(body), kind, flags, seq, port) + body


def attr(number: int, payload: bytes = b"") -> bytes:
    """An attribute with its padding."""
    return struct.pack("<HH", 4 + len(payload), number) + payload + bytes(-len(payload) % 4)


def link(index: int, *attrs: bytes) -> bytes:
    """The body of a link."""
    return struct.pack("<BxHiII", 0, 1, index, 0x1003, 0) + b"".join(attrs)


def route(family: int, length: int, *attrs: bytes) -> bytes:
    """The body of a route of table 254."""
    return struct.pack("<BBBBBBBBI", family, length, 0, 0, 254, 2, 0, 1, 0) + b"".join(attrs)


def done(status: int = 0, **header: int) -> bytes:
    """The end of a dump."""
    return message(3, struct.pack("<i", status), **header)


def error(code: int, **header: int) -> bytes:
    """A refusal of a request."""
    return message(2, struct.pack("<i", code) + bytes(16), flags=0, **header)


def loads(texts: Sequence[str]) -> Iterator[bytes]:
    """Datagrams of hexadecimal."""
    return map(bytes.fromhex, texts)
