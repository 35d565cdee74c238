#!/usr/bin/env python3
"""Says where the instructions go of all that we do over recordings, and what each would take at
the least, as the tables of docs/PERFORMANCE.md.

usage: measure/where.py [--functions N] [FOLDER]

FOLDER holds recordings of dumps, NAME.hex, one kind of message each, as measure/record.sh makes
them; with none, examples/. It needs what measure.py needs, by the same names. valgrind's callgrind
counts by function: of reading, scanning and taping one pass, of the others the whole program over
the recording, less that over an empty one or less reading the same file, so that the start is in
none but `request`. With --functions the N functions that take most are listed of each, by which a
change begins. What is inlined into a function counts with it.

The causes, by the functions' names: the allocator (malloc and free of libc); moving (memcpy and
its kin, vectors that grow or are appended to); decoding (lines and their digits); comparing (what
was written with what was read); letting go; keys and tables; text (and JSON: names, numbers,
lines); walking, checking and keeping of heads; the start (the loader, the arguments); and what is
left.

At the least stands for what no program could leave out that does the same. It reads its input once
and writes its output once, 16 bytes by an instruction; it takes 8 instructions a head, in which it
loads a length, compares it with the head's and with the bytes left, goes by the type, and goes on;
and it takes 126 for each growth, a malloc and a free of glibc 2.36 by callgrind. Growths are those
that the contract of a tree needs, which has one vector for each datagram, message, list and next
hops, and one for each payload of more than 23 bytes; text and decoded datagrams grow once. What is
written is the text, the decoded datagrams, or 16 bytes a head, as a tape has it, and the payloads.
"""
import argparse
import os
import re
import subprocess
import tempfile
from collections import Counter
from typing import Dict, Iterator, List, NamedTuple, Optional, Tuple

from counting import CALLGRIND, Command, Count, Rows, kept, over, shown, table
from datagrams import (
    KINDS, PORT, SEQ, Datagrams, as_lines, datagrams_of, kind_of, names_in, of_one_dump, sized)
from measure import JSON, LINKS, PACKAGES
from programs import BENCH, PROGRAM, TOP, install, over_ours

# A function's instructions in the list of callgrind_annotate: FILE:FUNCTION [OBJECT].
FUNCTION = re.compile(r"^ *([\d,]+) (?:\([^)]*\) )? *(\S.*?)(?: \[([^\]]*)\])?$", re.M)
# Each cause, and what a function's file, name and object have of it; the first that does.
CAUSES = {
    "allocator": r"malloc/|rattle_(re|de)?alloc",
    "moving": r"string/|Vec::(extend|grow|push|resize|insert)|VecDeque|core::mem::",
    "decoding": r"recordings::|\bhex::|memchr::|core::slice::words|read_to_string",
    "comparing": r"comparing|canonical|core::slice::scan",
    "letting go": r"::drop(_run)?\b|Destruct|truncate|session_free",
    "keys and tables": r"nl_table::|nl_dump::|indexmap::|core::hash",
    "text": r"rtnl::|itoa::|json::|core::fmt",
    "walking": r"nl_attr::|nl_frame::|nl_route::|rtnl_bench::|rtnlc_|proved_",
    "start": r"elf/|ld-linux|clap::|rtnl_cli::|csu/|locale|_start",
}
OTHER = "other"
BLOCK, HEAD, GROWTH = 16, 8, 126

Costs = Counter
# Bytes read and written, growths and heads.
Least = Tuple[int, int, int, int]


class Run(NamedTuple):
    """A command with its standard input."""

    command: Command
    given: bytes = b""


class Way(NamedTuple):
    """Something that we do over a recording: the run, the one that is taken off, by how much the
    rest is divided; and what it would do at the least."""

    name: str
    run: Run
    base: Optional[Run]
    passes: int
    read: int
    written: int
    growths: int
    heads: int

    def least(self) -> Count:
        """The instructions of that; none where all is the start."""
        if self.base is None:
            return None
        blocks = (self.read + self.written) / BLOCK
        return blocks + self.heads * HEAD + self.growths * GROWTH


class Held(NamedTuple):
    """What a recording holds: bytes of datagrams, datagrams, heads, messages, heads behind which
    others stand, and long payloads."""

    size: int
    datagrams: int
    heads: int
    messages: int
    regions: int
    payloads: int

    def growths(self) -> int:
        return self.datagrams + self.regions + self.payloads

    def kept(self) -> int:
        """The bytes of a tree at the least."""
        return self.heads * BLOCK + self.size


def costs_of(run: Run) -> "Costs[str]":
    """The instructions of each function."""
    with tempfile.TemporaryDirectory() as folder:
        file = f"{folder}/out"
        ended = subprocess.run(
            [*CALLGRIND, f"--callgrind-out-file={file}", *run.command], input=run.given,
            stdout=subprocess.DEVNULL, stderr=subprocess.PIPE, check=False)
        if ended.returncode not in (0, 1):
            raise SystemExit(f"where.py: {' '.join(run.command)}: {ended.stderr.decode()}")
        listed = subprocess.run(
            ["callgrind_annotate", "--threshold=100", "--auto=no", "--show-percs=no", file],
            capture_output=True, text=True, check=True).stdout
    found: Costs[str] = Counter()
    for count, function, program in FUNCTION.findall(listed.partition("file:function")[2]):
        found[f"{function} [{os.path.basename(program)}]"] += int(count.replace(",", ""))
    return found


def costs(way: Way) -> "Costs[str]":
    """Those of a way alone."""
    found = costs_of(way.run)
    if way.base is not None:
        found.subtract(costs_of(way.base))
    return Counter({name: count // way.passes for name, count in found.items() if count > 0})


def cause_of(function: str) -> str:
    return next((it for it, what in CAUSES.items() if re.search(what, function)), OTHER)


def shares(found: "Costs[str]") -> Dict[str, int]:
    """The instructions of each cause."""
    by_cause = dict.fromkeys([*CAUSES, OTHER], 0)
    for function, count in found.items():
        by_cause[cause_of(function)] += count
    return by_cause


def held_by(ours: str, datagrams: Datagrams) -> Held:
    """What the datagrams hold, as a tape says."""
    printed = subprocess.run(
        [ours, "heads"], input=sized(datagrams), capture_output=True, check=True).stdout
    return Held(sum(map(len, datagrams)), len(datagrams), *map(int, printed.split()))


def by_passes(name: str, command: Command, given: bytes, least: Least) -> Way:
    """One pass of a program that takes the number of passes."""
    return Way(name, Run([*command, "3"], given), Run([*command, "1"], given), 2, *least)


def of_library(ours: str, dumps: str, datagrams: Datagrams, held: Held,
               file: str) -> Iterator[Way]:
    """What the libraries do over datagrams."""
    binary, lines = sized(datagrams), as_lines(datagrams)
    events = held.heads * BLOCK
    tree = held.size, held.kept(), held.growths(), held.heads
    yield by_passes("reading", [BENCH, "read"], lines, tree)
    yield Way("feeding a session", Run([dumps, "session", file]), Run([dumps, "read", file]), 1,
              *tree)
    yield by_passes("scan", [ours, "scan"], binary, (held.size, 0, 0, held.heads))
    yield by_passes("tape", [ours, "tape"], binary, (held.size, events, 0, held.heads))
    yield Way("stream", Run([dumps, "stream", file]), Run([dumps, "read", file]), 1,
              held.size, events, 0, held.heads)


def of_program(kind: str, lines: str, empty: str, held: Held) -> Iterator[Way]:
    """What the program does over lines."""
    dump = ["table", "--kind", kind, "--seq", str(SEQ), "--port", str(PORT),
            "--entries", str(LINKS)]
    runs = {
        "`show`": ["show"], "`show --format json`": ["show", *JSON], "`check`": ["check"],
        "`table`": dump}
    for name, words in runs.items():
        text = subprocess.run([PROGRAM, *words, lines], capture_output=True, check=False).stdout
        written = held.size + len(text)
        keeps = name == "`table`"
        yield Way(
            name, Run([PROGRAM, *words, lines]), Run([PROGRAM, *words, empty]), 1,
            os.path.getsize(lines), written + (held.kept() if keeps else 0),
            2 + (held.growths() if keeps else 0), held.heads)


def request() -> Way:
    """A request, which is a start with a line."""
    command = [PROGRAM, "request", "--kind", "link", "--seq", "1"]
    line = subprocess.run(command, capture_output=True, check=True).stdout
    return Way("`request`", Run(command), None, 1, 0, len(line), 0, 1)


def tables(name: str, held: Held, ways: List[Way], functions: int) -> None:
    """Prints where each way goes, and what it would take at the least."""
    print(f"{name}: {held.size:,} bytes, {held.messages:,} messages, {held.heads:,} heads\n")
    goes: Rows = [("", "millions", *CAUSES, OTHER)]
    heads = "bytes read", "bytes written", "growths", "at the least, millions", "of it"
    least: Rows = [("", *heads)]
    lists = []
    for way in ways:
        found = costs(way)
        total = sum(found.values())
        parts = (f"{100 * it / total:.0f} %" if it else "" for it in shares(found).values())
        goes.append((way.name, f"{total / 1e6:.2f}", *parts))
        counts = (f"{it:,}" for it in (way.read, way.written, way.growths))
        floor = way.least()
        ratio = shown(over(total, floor))
        least.append((way.name, *counts, shown(floor, 1e6, "{:.2f}"), ratio))
        lists += [(way.name, f"{100 * count / total:.1f} %", function, cause_of(function))
                  for function, count in found.most_common(functions)]
    table(*goes)
    table(*least)
    if lists:
        table(("", "share", "function", "cause"), *lists)


def main() -> None:
    options = argparse.ArgumentParser(
        description=__doc__, formatter_class=argparse.RawDescriptionHelpFormatter)
    options.add_argument("--functions", type=int, default=0, metavar="N")
    options.add_argument("folder", nargs="?", default=f"{TOP}/examples")
    chosen = options.parse_args()
    install(*PACKAGES)
    with tempfile.TemporaryDirectory() as room:
        ours, dumps = over_ours(room), over_ours(room, "dumps_rtnlc")
        if ours is None or dumps is None:
            raise SystemExit("where.py: the programs over the library for C could not be made")
        empty = kept(room, "empty", b"")
        for name in names_in(chosen.folder):
            datagrams = of_one_dump(datagrams_of(f"{chosen.folder}/{name}.hex"))
            kind = KINDS.get(kind_of(datagrams[0]))
            if kind is None:
                continue
            held = held_by(ours, datagrams)
            lines = kept(room, "lines", as_lines(datagrams))
            file = kept(room, "dump", sized(datagrams))
            ways = [*of_library(ours, dumps, datagrams, held, file),
                    *of_program(kind, lines, empty, held), request()]
            tables(name, held, ways, chosen.functions)


if __name__ == "__main__":
    main()
