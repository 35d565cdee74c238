#!/usr/bin/env python3
"""calls.py LIBRARY: refuses the growths of the program of rtnl_rows one by one, over each table
beside this script: the first in one run, the second in the next, up to a run that asks for no more.
The library is what refuse.c makes.

A table is one as in tests/data/rows. Behind a row's answer stands what is answered where a growth
is refused in the row, one refusal after another:

  # refused at 2         in place of line 2 of the answer
  # refused at 2 to 4    in place of these lines
  # refused from 2       in place of line 2 and all behind it
  # refused before 2     in front of line 2
  #= TEXT                such a line

`visits SOME` stands for a number that never falls from one such growth to the next, and is at most
that of the line in whose place it stands; `visits ALL` for the same, of which the last is that of
the line. All other lines of the table are printed as they stand. Each refusal is seen. Where a
growth is refused before a call, or while its answer is written, the program ends as out of memory,
and has answered the rows up to there. Where a growth was not needed, it answers all.

The last line is 'N passed, M failed', and the status is 1 where a case failed.
"""
import os
import re
import sys
import tempfile
from dataclasses import dataclass
from glob import glob
from itertools import takewhile
from typing import Iterator, List, Optional, Tuple

sys.dont_write_bytecode = True
HERE = os.path.dirname(os.path.realpath(__file__))
ROOT = os.path.dirname(os.path.dirname(HERE))
sys.path[:0] = [f"{HERE}/../helpers", f"{HERE}/../rows"]
from asking import Table
from counting import counted
from flat import Run, Wrong, run
from proved import is_proved

PROGRAM = f"{ROOT}/crates/rtnl_rows/out/rtnl_rows"
# The status of the program where memory runs out outside of the calls.
OUT_OF_MEMORY = 4
HEAD = re.compile(r"# refused (at|from|before) (\d+)(?: to (\d+))?$")
VISITS = re.compile(r"visits (\d+|SOME|ALL)\b")


@dataclass
class Refusal:
    """What is printed in place of the lines of a table from one place up to another; in how many
    runs it was, and with how many visits the last time."""

    name: str
    begin: int
    end: int
    lines: List[str]
    count: int = 0
    visits: int = 0


def visits_in(lines: List[str]) -> str:
    """The first visits that lines have, a number or its word."""
    found = VISITS.search("\n".join(lines))
    return found.group(1) if found else ""


def refusal_at(place: int, row: int, table: List[str]) -> Refusal:
    """The refusal whose head stands at a place of a table, of the row that begins at another."""
    found = HEAD.match(table[place])
    if not found:
        raise ValueError(f"line {place + 1} is no refusal: {table[place]}")
    how, first, last = found.groups()
    answers = [it for it in range(row, place) if table[it].startswith("=")]
    begin, end = answers[int(first) - 1], answers[int(last or first) - 1] + 1
    end = {"at": end, "from": answers[-1] + 1, "before": begin}[how]
    behind = place + 1
    while behind < len(table) and table[behind].startswith("#="):
        behind += 1
    lines = [it[1:] for it in table[place + 1:behind]]
    return Refusal(f"{table[row]}, line {row + 1}: {table[place][2:]}", begin, end, lines)


def refusals_in(table: List[str]) -> Iterator[Refusal]:
    row = 0
    for place, line in enumerate(table):
        if line[:1].isalpha():
            row = place
        elif line.startswith("# refused "):
            yield refusal_at(place, row, table)


def is_refused_so(refusal: Refusal, table: List[str], lines: List[str]) -> bool:
    """Whether these lines are printed where a growth is refused so, which is then counted."""
    begin, end, stead = refusal.begin, refusal.end, refusal.lines
    word, found = visits_in(stead), visits_in(lines[begin:begin + len(stead)])
    if word in ("SOME", "ALL"):
        most = int(visits_in(table[begin:end]))
        if not found.isdecimal() or not refusal.visits <= int(found) <= most:
            return False
        stead = [it.replace(f"visits {word}", f"visits {found}") for it in stead]
    if lines != [*table[:begin], *stead, *table[end:]]:
        return False
    refusal.count, refusal.visits = refusal.count + 1, int(found or 0)
    return True


def wrong_with(ran: Run, whole: Run, text: str, refusals: List[Refusal]) -> List[str]:
    """What is wrong with a run in which a growth was refused, beside one in which none was."""
    if ran.status == OUT_OF_MEMORY and not ran.errors:
        is_front = ran.output != whole.output and whole.output.startswith(ran.output)
        return [] if is_front else ["it is out of memory, and what it answered is no front"]
    if ran.status or ran.errors:
        return [f"status {ran.status}, {ran.errors.strip()}"]
    try:
        table, lines = text.splitlines(), Table(text).shown(ran.output)
    except Wrong as by:
        return [str(by)]
    if lines == table or any(is_refused_so(it, table, lines) for it in refusals):
        return []
    place = len([*takewhile(lambda it: it[0] == it[1], zip(table, lines))])
    return [f"line {place + 1}, expected {' '.join(table[place:place + 1])}",
            *(f"found {it}" for it in lines[place:place + 3])]


def wrong_of(refusal: Refusal, table: List[str]) -> List[str]:
    """What is wrong with a refusal, behind all runs."""
    if not refusal.count:
        return ["no growth is refused so"]
    most = visits_in(table[refusal.begin:refusal.end])
    if visits_in(refusal.lines) != "ALL" or str(refusal.visits) == most:
        return []
    return [f"visits {refusal.visits} were answered with the last refusal"]


def refused_run(text: str, library: str, number: int) -> Optional[Run]:
    """The run in which the growth of this number is refused, or none where it isn't reached."""
    with tempfile.TemporaryDirectory() as room:
        told = {"REFUSE": str(number), "REFUSED": f"{room}/refused", "LD_PRELOAD": library}
        ran = run(PROGRAM, Table(text).asked, told)
        if number and not os.path.exists(told["REFUSED"]):
            return None
    return ran


def tried(path: str, library: str) -> Iterator[Tuple[str, List[str]]]:
    """The cases of a table: none, each growth, and each refusal."""
    name, number = os.path.basename(path), 1
    with open(path, encoding="utf-8") as file:
        text = file.read()
    refusals = [*refusals_in(text.splitlines())]
    whole = run(PROGRAM, Table(text).asked)
    is_whole = not whole.status and Table(text).shown(whole.output) == text.splitlines()
    yield f"{name}, no growth refused", [] if is_whole else ["it isn't printed as it stands"]
    while ran := refused_run(text, library, number):
        yield f"{name}, growth {number}", wrong_with(ran, whole, text, refusals)
        number += 1
    for it in refusals:
        yield f"{name}, {it.name}", wrong_of(it, text.splitlines())
    count = sum(it.count for it in refusals)
    print(f"{name}: {number - 1} growths, {count} of them in {len(refusals)} places of its rows")


def main(library: str) -> int:
    if not os.path.isfile(PROGRAM) or not is_proved(PROGRAM):
        sys.exit(f"{PROGRAM} is missing or not proved: rt ci proves and builds it")
    tables = sorted(glob(f"{HERE}/*.rows"))
    return counted(case for path in tables for case in tried(path, library))


if __name__ == "__main__":
    sys.exit(main(*sys.argv[1:]))
