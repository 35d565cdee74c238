#!/usr/bin/env python3
"""Holds `rtnl table` over neighbours whose keys collide under a fixed hash against as many others.

  colliding.py PROGRAM

The hash multiplies what it has by the last eight bytes of an address and by a constant: where they
are the same, what came before is forgotten. Each way is run some times in turn, and the least time
of the processor counts: the kernel's with it, since which of them a tick falls into is chance. The
status is 1 where the first takes more than 1.5 times the second.
"""
import os
import struct
import subprocess
import sys
import tempfile

COUNT, IN_ONE, ROUNDS, MOST = 65536, 1360, 5, 1.5
COLLIDING, OTHERS = 0x9E3779B97F4A7C15, 0x0123456789ABCDEF


def neighbour(index: int, end: int) -> bytes:
    """RTM_NEWNEIGH of AF_INET6 on link 1, whose NDA_DST is the two numbers."""
    head = struct.pack("<IHHII", 48, 28, 2, 1, 0)
    return head + struct.pack("<BBHiHBBHHQQ", 10, 0, 0, 1, 2, 0, 1, 20, 1, index, end)


def recording(end: int) -> str:
    messages = [neighbour(index, end) for index in range(COUNT)]
    datagrams = (b"".join(messages[at:at + IN_ONE]) for at in range(0, COUNT, IN_ONE))
    return "".join(f"{datagram.hex()}\n" for datagram in datagrams)


def seconds(program: str, path: str) -> float:
    """What the processor takes for the table, which has all of them."""
    command = [program, "table", "--kind", "neigh", "--seq", "1", "--port", "0",
               "--entries", str(COUNT), path]
    with subprocess.Popen(command, stdout=subprocess.PIPE, stderr=subprocess.DEVNULL) as ran:
        assert ran.stdout is not None
        entries = sum(line.startswith(b"entry ") for line in ran.stdout)
        ran.stdout.close()
        _, status, used = os.wait4(ran.pid, 0)
        ran.returncode = os.waitstatus_to_exitcode(status)
    if entries != COUNT:
        sys.exit(f"{entries} entries of {COUNT}")
    return used.ru_utime + used.ru_stime


def kept(folder: str, end: int) -> str:
    """The path of a recording."""
    path = f"{folder}/{end}"
    with open(path, "w", encoding="utf-8") as file:
        file.write(recording(end))
    return path


def main() -> int:
    with tempfile.TemporaryDirectory() as folder:
        paths = [kept(folder, end) for end in (COLLIDING, OTHERS)]
        rounds = [[seconds(sys.argv[1], path) for path in paths] for _ in range(ROUNDS)]
    colliding, others = map(min, zip(*rounds))
    print(f"{colliding / others:.2f} times the others")
    return int(colliding / others > MOST)


if __name__ == "__main__":
    sys.exit(main())
