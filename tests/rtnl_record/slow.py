#!/usr/bin/env python3
"""rtnl-record writes all into pipes that don't wait until they have room, whose reader begins late
and reads little at a time. The last line is 'N passed, M failed', and the status is 1 where a case
failed.
"""
import os
import subprocess
import sys
import threading
import time
from typing import Iterator, List, Tuple

sys.dont_write_bytecode = True
HERE = os.path.dirname(os.path.realpath(__file__))
sys.path[:0] = [HERE, f"{HERE}/../helpers"]
from case import ONE, ROOT
from counting import counted
from made_pcap import AT, cooked, pcap, record

# More packets than a pipe has room for lines of, each of which is cut: a line goes to each pipe.
COUNT, LATE, SECONDS = 3000, 0.5, 60
CUT = "4 of 20 bytes"


class Reader(threading.Thread):
    """A pipe that doesn't wait, and what comes out of it."""

    def __init__(self) -> None:
        super().__init__(daemon=True)
        self.end, self.into = os.pipe()
        os.set_blocking(self.into, False)
        self.lines: List[str] = []

    def run(self) -> None:
        time.sleep(LATE)
        data = bytearray()
        while True:
            piece = os.read(self.end, 5000)
            if not piece:
                break
            data += piece
        self.lines = data.decode().splitlines()


def judged(found: List[str], expected: List[str]) -> List[str]:
    """What is wrong with lines that should be these."""
    return [] if found == expected else [f"{len(found)} lines for {len(expected)}, {found[-1:]}"]


def cases() -> Iterator[Tuple[str, List[str]]]:
    packet = record(cooked(ONE)[:20], len(cooked(ONE)))
    output, errors = Reader(), Reader()
    command = [sys.executable, f"{ROOT}/rtnl-record", "pcap", "-"]
    with subprocess.Popen(command, stdin=subprocess.PIPE, stdout=output.into,
                          stderr=errors.into) as ran:
        for reader in (output, errors):
            os.close(reader.into)
            reader.start()
        ran.communicate(pcap() + packet * COUNT, timeout=SECONDS)
    for reader in (output, errors):
        reader.join(SECONDS)
    yield "standard output", judged(output.lines, [AT.strip(), f"# cut: {CUT}", ONE[:4].hex()] * COUNT)
    said = [f"rtnl-record: standard input: byte {24 + 36 * at}: the datagram was cut: {CUT} are "
            "recorded" for at in range(COUNT)]
    yield "standard error", judged(errors.lines, said)
    yield "the status", [] if ran.returncode == 1 else [str(ran.returncode)]


if __name__ == "__main__":
    sys.exit(counted(cases()))
