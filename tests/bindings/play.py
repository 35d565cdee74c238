#!/usr/bin/env python3
"""Runs a program over a kernel that is played: each request is answered by the next recording, a
file of lines of hexadecimal, with the request's numbers; behind the last one the socket ends. The
program is handed the socket's path as its last argument, and its status is that of this script.

  tests/bindings/play.py RECORDING.. -- PROGRAM [ARGUMENT..]
"""
import os
import sys
from typing import List

sys.dont_write_bytecode = True
sys.path.insert(0, os.path.dirname(os.path.realpath(__file__)))
import wire
from kernel import Sent, play


def main(words: List[str]) -> int:
    if "--" not in words[1:-1]:
        print(__doc__.rsplit("\n\n", 1)[1], end="", file=sys.stderr)
        return 2
    at = words.index("--")
    recordings = [wire.lines_of(path) for path in words[:at]]

    def answer(count: int, request: bytes) -> Sent:
        seq = int.from_bytes(request[8:12], sys.byteorder)
        sent: Sent = [b"".join(wire.packed(it, seq) for it in wire.messages(datagram))
                      for datagram in recordings[count]]
        return sent if count + 1 < len(recordings) else [*sent, None]
    ended = play(words[at + 1:], answer)
    print(ended.output, end="")
    print(ended.errors, end="", file=sys.stderr)
    return ended.status


if __name__ == "__main__":
    sys.exit(main(sys.argv[1:]))
