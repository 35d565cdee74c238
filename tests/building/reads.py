#!/usr/bin/env python3
"""Reads datagrams another way, and compares what they hold with what was meant.

  trees SEED COUNT little WANTED | tests/building/reads.py pyroute2
  trees SEED COUNT little|big WANTED | tests/building/reads.py second little|big

By `second` they are read by tests/helpers/reference.py. Each datagram is a line of hexadecimal
digits, and behind it a line of JSON: its messages, as [TYPE, FLAGS, SEQ, PORT, HEAD, [..]], where
those of no family have their body for a head; next hops as [FLAGS, HOPS, INDEX, [..]], attributes
as [TYPE, [..]] or [TYPE, HEX]. The last line is 'N passed, M failed', a case for each datagram.
"""
import json
import os
import struct
import sys
from typing import Any, Callable, Iterator, List, Tuple

sys.dont_write_bytecode = True
HERE = os.path.dirname(os.path.realpath(__file__))
sys.path[:0] = [HERE, f"{HERE}/../helpers"]
from counting import counted

ORDERS = {"little": "<", "big": ">"}
# Limits above those of all datagrams that are made.
DEPTH, LARGEST = 32, 1 << 20


def attributes(found: List[Any]) -> List[Any]:
    """Attributes of the second reading, in the form above."""
    parts: List[Any] = []
    for kind, _, holds, value in found:
        if holds == "bytes":
            parts.append([kind, value.hex()])
        elif holds == "hops":
            parts.append([kind, [[*head, attributes(inside)] for *head, inside in value]])
        else:
            parts.append([kind, attributes(value)])
    return parts


def by_second(order: str) -> Callable[[bytes], List[Any]]:
    """The messages of a datagram by the second reading."""
    from reference import HEADS, Reading
    prefix = ORDERS[order]

    def messages(data: bytes) -> List[Any]:
        found = []
        for fields, (sort, values, rest) in Reading(data, prefix, DEPTH, LARGEST).messages():
            head = struct.pack(prefix + HEADS[sort].form, *values) if values else b""
            is_body = isinstance(rest, bytes)
            found.append([*fields, (head + rest if is_body else head).hex(),
                          [] if is_body else attributes(rest)])
        return found

    return messages


def cases(messages: Callable[[bytes], List[Any]]) -> Iterator[Tuple[str, List[str]]]:
    while True:
        line, meant = sys.stdin.readline().strip(), sys.stdin.readline()
        if not line:
            return
        found = messages(bytes.fromhex(line))
        yield line[:200], [] if found == json.loads(meant) else [f"meant {meant}, found {found}"]


def main(words: List[str]) -> int:
    if words == ["pyroute2"]:
        import by_pyroute2
        return counted(cases(by_pyroute2.messages))
    if words[:1] == ["second"] and len(words) == 2 and words[1] in ORDERS:
        return counted(cases(by_second(words[1])))
    print("usage: tests/building/reads.py pyroute2 | second little|big", file=sys.stderr)
    return 2


if __name__ == "__main__":
    sys.exit(main(sys.argv[1:]))
