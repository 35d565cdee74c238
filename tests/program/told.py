#!/usr/bin/env python3
"""Writes changes of one link into a pipe that `rtnl mirror --changes` reads, and says what is wrong
with what it prints of them; the status is 1 then.

  told.py soon PROGRAM    each change is told before the next line comes, and most within 50 ms; of
                          half of a line nothing is told
  told.py grows PROGRAM   behind a hundred thousand changes it has no more memory than behind a
                          thousand
"""
import os
import select
import struct
import subprocess
import sys
import time
from typing import Iterator, List

HEADING = "# seq 1 port 12345 kind link\n"
DONE = "1400000003000200010000003930000000000000\n"
# A link is up, and its MTU is what changes.
UP, IFLA_MTU = 1, 4
BODY = """  link family 0 type 1 index 2 flags 0x00000001 UP change 0x00000000
    attr 4 MTU - u32 {}
"""
CHANGES, SOON, PATIENCE = 40, 0.05, 20
FEW, MANY = 1_000, 100_000
# What the memory may vary by, in KiB, whatever is written: pages of the program itself.
ROOM = 256


def notification(mtu: int) -> str:
    body = struct.pack("<BxHiIIHHI", 0, 1, 2, UP, 0, 8, IFLA_MTU, mtu)
    return (struct.pack("<IHHII", 16 + len(body), 16, 0, 0, 0) + body).hex() + "\n"


def text_of(mtu: int) -> str:
    """What is told of this MTU, one above the one before; 0 is the first."""
    if mtu == 0:
        return "+ link 1\n" + BODY.format(mtu)
    return f"~ link 1\n{BODY.format(mtu)}was\n{BODY.format(mtu - 1)}"


class Mirror:
    """The program over a pipe that is written line by line."""

    def __init__(self, program: str, *options: str) -> None:
        self.run = subprocess.Popen([program, "mirror", "--kind", "link", *options], bufsize=0,
                                    stdin=subprocess.PIPE, stdout=subprocess.PIPE)
        self.feed(HEADING + DONE)

    def feed(self, text: str) -> None:
        data = text.encode()
        while data:
            data = data[os.write(self.run.stdin.fileno(), data) :]

    def is_there(self, seconds: float) -> bool:
        return bool(select.select([self.run.stdout], [], [], seconds)[0])

    def read(self, wanted: str) -> str:
        """As many bytes as are wanted, or those that come in time."""
        found, until = b"", time.monotonic() + PATIENCE
        while len(found) < len(wanted) and self.is_there(max(0, until - time.monotonic())):
            part = os.read(self.run.stdout.fileno(), len(wanted) - len(found))
            if not part:
                break
            found += part
        return found.decode()

    def peak(self) -> int:
        """The most memory that it has had, in KiB."""
        with open(f"/proc/{self.run.pid}/status", encoding="ascii") as status:
            return next(int(line.split()[1]) for line in status if line.startswith("VmHWM:"))

    def end(self) -> int:
        self.run.stdin.close()
        status = self.run.wait(PATIENCE)
        self.run.stdout.close()
        return status


def soon(program: str) -> Iterator[str]:
    mirror, delays = Mirror(program, "--changes"), []
    if mirror.read("= link 0\n") != "= link 0\n":
        yield "the end of the dump is not told"
    for mtu in range(CHANGES):
        line, wanted = notification(mtu), text_of(mtu)
        mirror.feed(line[:9])
        if mtu % 10 == 0 and mirror.is_there(0.02):
            yield f"something is told of half of line {mtu}"
        mirror.feed(line[9:])
        begun = time.monotonic()
        if mirror.read(wanted) != wanted:
            yield f"change {mtu} is not told"
        delays.append(time.monotonic() - begun)
    late = sum(it > SOON for it in delays)
    if late > CHANGES // 4:
        yield f"{late} of {CHANGES} changes are told late"
    if mirror.end() != 0:
        yield "its status is not 0"


class Watched(Mirror):
    """One whose bad lines are heard of, by which it shows how far it has read."""

    def __init__(self, program: str, *options: str) -> None:
        self.told, errors = os.pipe()
        self.run = subprocess.Popen([program, "mirror", "--kind", "link", *options], bufsize=0,
                                    stdin=subprocess.PIPE, stdout=subprocess.DEVNULL, stderr=errors)
        os.close(errors)
        self.feed(HEADING + DONE)

    def peak_behind(self, first: int, behind: int) -> int:
        """The most memory that it has had when it has taken these changes."""
        for at in range(first, behind, 500):
            self.feed("".join(map(notification, range(at, min(at + 500, behind)))))
        self.feed("0\n")
        if not select.select([self.told], [], [], PATIENCE)[0]:
            raise TimeoutError("it does not read")
        os.read(self.told, 4096)
        return self.peak()


def grows(program: str) -> Iterator[str]:
    for options in ([], ["--changes"]):
        mirror = Watched(program, *options)
        few, many = mirror.peak_behind(0, FEW), mirror.peak_behind(FEW, MANY)
        if many > few + ROOM:
            yield f"it grows from {few} to {many} KiB {options}"
        # The bad lines are all that is wrong.
        mirror.run.stdin.close()
        if mirror.run.wait(PATIENCE) != 1:
            yield "its status is not 1"


def main(words: List[str]) -> int:
    what, program = words
    wrong = [*{"soon": soon, "grows": grows}[what](program)]
    print("\n".join(wrong), end="\n" * bool(wrong), file=sys.stderr)
    return int(bool(wrong))


if __name__ == "__main__":
    sys.exit(main(sys.argv[1:]))
