#!/usr/bin/env python3
"""Runs a command whose standard output, or whose standard error with --errors first, is a pipe or
one of a socket pair that doesn't wait where it is full, and that is read slowly: what comes through
it goes to standard output here, and the status is that of the command. As gone it is a pipe that is
closed when it is full.

  unwaited.py pipe|socket|gone [--errors] COMMAND..
"""
import os
import socket
import subprocess
import sys
import time
from typing import List, Tuple

# A read has so many bytes, and begins so many seconds behind the one before.
PIECE, PAUSE = 65_536, 0.001


def ends(sort: str) -> Tuple[int, int]:
    """The descriptors of the side that is read and of the one that is written."""
    if sort == "socket":
        mine, theirs = (it.detach() for it in socket.socketpair())
    else:
        mine, theirs = os.pipe()
    os.set_blocking(theirs, False)
    return mine, theirs


def main(sort: str, command: List[str]) -> int:
    mine, theirs = ends(sort)
    is_of_errors = command[0] == "--errors"
    output, errors = (None, theirs) if is_of_errors else (theirs, None)
    with subprocess.Popen(command[is_of_errors:], stdout=output, stderr=errors) as ran:
        os.close(theirs)
        # It is full before the first read.
        time.sleep(0.3)
        if sort == "gone":
            os.close(mine)
            return ran.wait()
        while text := os.read(mine, PIECE):
            sys.stdout.buffer.write(text)
            time.sleep(PAUSE)
    return ran.returncode


if __name__ == "__main__":
    sys.exit(main(sys.argv[1], sys.argv[2:]))
