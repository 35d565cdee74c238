"""What the page is held against: the program, rtnl-record, and the recordings that both read."""
import glob
import os
import re
import subprocess
import sys
from typing import Iterator, List, NamedTuple, Tuple

ROOT = os.path.dirname(os.path.dirname(os.path.dirname(os.path.realpath(__file__))))
PROGRAM = os.environ["RTNL_PROGRAM"]
KERNEL_ERROR = re.compile(r"rtnl: datagram \d+: (\w+ refused|type \d+ refused|dump failed): ")
FOLDERS = ("examples", "tests/data/recordings", "measure", "../shared/recordings",
           "../shared/broken")


def run(*words: str, data: str = "") -> Tuple[str, str]:
    """What the program writes, and what it says beside that."""
    ran = subprocess.run([PROGRAM, *words], input=data, capture_output=True, text=True,
                         check=False)
    return ran.stdout, ran.stderr


def shown(lines: str, order: str = "little", form: str = "text") -> str:
    return run("show", "--order", order, "--format", form, data=lines)[0]


def explained(lines: str, order: str = "little") -> List[str]:
    """What --explain says of each refused datagram, without the bytes at its end. What it says
    of a kernel's error stands in an accepted datagram, which the page doesn't go to.
    """
    said = run("check", "--explain", "--order", order, data=lines)[1].splitlines()
    found = [line.removeprefix("rtnl: ") for line in said if line.startswith("rtnl: datagram ")
             and not KERNEL_ERROR.match(line)]
    return [line.rpartition(": ")[0] if "[" in line else line for line in found]


class Recorded(NamedTuple):
    """What rtnl-record writes: its status, the lines of datagrams, and what it says beside."""

    status: int
    lines: str
    notes: List[str]


def recorded(words: List[str], capture: bytes) -> Recorded:
    ran = subprocess.run([sys.executable, f"{ROOT}/rtnl-record", *words], input=capture,
                         capture_output=True, check=False)
    lines = [it for it in ran.stdout.decode().splitlines(True) if not it.startswith("#")]
    front = "rtnl-record: standard input: "
    notes = [it.removeprefix(front) for it in ran.stderr.decode().splitlines()]
    return Recorded(ran.returncode, "".join(lines), notes)


def recordings() -> Iterator[Tuple[str, str]]:
    """The name and the text of every recording; of those in shared/ where that lies beside."""
    for folder in FOLDERS:
        for path in sorted(glob.glob(f"{ROOT}/{folder}/*.hex")):
            with open(path, encoding="ascii") as file:
                yield os.path.relpath(path, ROOT), file.read()


def datagrams_of(lines: str) -> List[bytes]:
    return [bytes.fromhex(line) for line in lines.split("\n") if line and not line.startswith("#")]


def as_lines(found: List[bytes]) -> str:
    return "".join(f"{data.hex()}\n" for data in found)


def differ(wanted: str, found: str) -> List[str]:
    """Where two texts differ first, or nothing."""
    if wanted == found:
        return []
    place = max(0, len(os.path.commonprefix([wanted, found])) - 40)
    return [f"at {place}: {wanted[place:place + 120]!r}, but {found[place:place + 120]!r}"]
