#!/usr/bin/env python3
"""Has the program of crates/rtnl_rows make the calls of each table of tests/data/rows: rows of
calls with their input and what they are to answer. A table is printed with what the calls do answer
(rows/asking.py), so a row holds where both are the same. A case is a row, once for each compiler
that built the program. The last line is 'N passed, M failed', and the status is 1 where a row
failed, a table has no row, or the program fails.

  tests/rows.py TABLE  prints this table with what the calls answer

With RTNL_ROWS it is the program of that name that makes them, which need not be proved.

A line of a table that begins with `#` is a comment, and one that begins with a letter a row: the
name of a call and its words. Lines behind it that begin with two blanks are its input, and those
that begin with `=` its answer. Input is hexadecimal text with blanks, in which `HEX*COUNT` stands
for bytes so many times, and a word with a capital letter for the bytes that a row `bytes NAME`
above has as its input, or as `NAME:FROM..END` for a part of them; that of a run is the lines of a
recording. What is wrong with a row is answered behind a question mark.
"""
import os
import sys
from glob import glob
from itertools import zip_longest
from typing import Iterator, List, Tuple

sys.dont_write_bytecode = True
HERE = os.path.dirname(os.path.realpath(__file__))
sys.path += [f"{HERE}/rows", f"{HERE}/helpers"]
from asking import Table, rows_of
from counting import counted
from flat import run
from proved import is_proved

PROGRAM = os.path.relpath(f"{HERE}/../crates/rtnl_rows/out/rtnl_rows")
# Another program, which need not be proved.
NAMED = os.environ.get("RTNL_ROWS")


def answered(program: str, text: str) -> Tuple[List[str], str]:
    """A table with what the calls of the program answer, and what is wrong with its run."""
    table = Table(text)
    ran = run(program, table.asked)
    wrong = f"status {ran.status}: {ran.errors}" if ran.status or ran.errors else ""
    return [] if wrong else table.shown(ran.output), wrong


def cases(program: str, path: str) -> Iterator[Tuple[str, List[str]]]:
    """The rows of a table, and whether all else of it is printed as it stands."""
    with open(path, encoding="utf-8") as table:
        text = table.read()
    found, wrong = answered(program, text)
    expected = text.splitlines()
    yield f"{path}: the program's end", [wrong] if wrong else []
    rows = [*rows_of(expected)]
    yield f"{path}: a row", [] if rows else ["there is none"]
    for (name, row), other in zip_longest(rows, rows_of(found), fillvalue=("no such row", [])):
        wrongs = [] if row == other[1] else ["expected", *row, "found", *other[1]]
        yield f"{path}: {name}", wrongs
    yield f"{path}: what else is printed", [] if found == expected else ["it differs"]


def main(words: List[str]) -> int:
    if words:
        with open(words[0], encoding="utf-8") as table:
            found, wrong = answered(NAMED or PROGRAM, table.read())
        print("\n".join([*found, *[wrong][:bool(wrong)]]))
        return int(bool(wrong))
    if not NAMED and not is_proved(PROGRAM):
        sys.exit(f"{PROGRAM} is not proved, and no test takes it: remove it")
    programs = [NAMED] if NAMED else [PROGRAM, *filter(os.path.exists, [f"{PROGRAM}.by-rattle"])]
    paths = sorted(glob(os.path.relpath(f"{HERE}/data/rows/*.rows")))
    return counted(case for path in paths for it in programs for case in cases(it, path))


if __name__ == "__main__":
    sys.exit(main(sys.argv[1:]))
