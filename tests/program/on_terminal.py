#!/usr/bin/env python3
"""Runs a command whose standard error is a terminal, alone: what it writes there goes to standard
error here, as it stands, and its status is that of the script."""
import os
import subprocess
import sys
import tty
from typing import List


def written(terminal: int) -> bytes:
    """What comes through a terminal, up to the end of those that write to it."""
    text = b""
    while True:
        try:
            some = os.read(terminal, 8192)
        except OSError:
            # EIO: nobody has the other side any more.
            return text
        if not some:
            return text
        text += some


def main(command: List[str]) -> int:
    mine, theirs = os.openpty()
    # No newline becomes two characters.
    tty.setraw(theirs)
    with subprocess.Popen(command, stderr=theirs) as ran:
        os.close(theirs)
        text = written(mine)
    sys.stderr.buffer.write(text)
    return ran.returncode


if __name__ == "__main__":
    sys.exit(main(sys.argv[1:]))
