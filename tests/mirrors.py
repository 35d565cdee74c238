#!/usr/bin/env python3
"""Keeps mirrors of a live kernel, and compares them with it.

usage: tests/mirrors.py [FIRST [COUNT]]

Each run has a network namespace of its own, which random changes go over. One socket listens to
all groups and asks for dumps meanwhile (`rtnl-record monitor --dump --again`); in some runs it is
stopped until the kernel drops messages (mirrors/recording.py). The program of rtnl_rows feeds what
came to a mirror, in the order in which it came, and once more as one who reads dumps late. A table
that says that it is current must be what a dump of the quiet kernel has, but for what the kernel
tells nobody: after changes of all sorts, behind which each run has some that leave open in one way
which routes there are. At the end, after dumps amid changes that the kernel tells whole, each table
is current. A second mirror has the forwarding entries of a bridge, whose addresses move from port
to port while they are dumped (mirrors/replaying.py). `rtnl mirror` keeps the same tables of the
same recordings (mirrors/by_program.py).

measure/mirror_rules.py says how many runs fail where a rule of the mirror is broken. The last line
is 'N passed, M failed', and the status is 1 where a case failed.
"""
import os
import sys
import tempfile
from concurrent.futures import ThreadPoolExecutor
from typing import Iterator, List, Tuple

sys.dont_write_bytecode = True
HERE = os.path.dirname(os.path.realpath(__file__))
ROOT = os.path.dirname(HERE)
sys.path[:0] = [f"{HERE}/mirrors", f"{HERE}/helpers"]
import proved
from by_program import Programs, compare
from counting import counted
from proved import is_proved
from recording import RUNS, is_losing, recorded
from replaying import ORDERS, Keeper, compare_forwarding, compare_tables, early_of, steps

PROGRAM = f"{ROOT}/crates/rtnl_rows/out/rtnl_rows"
# How many runs there are at a time.
LANES = 5


def cases_of(seed: int, programs: Programs, folder: str) -> Iterator[Tuple[str, List[str]]]:
    """The cases of one run, each with what is wrong."""
    run, keeper = recorded(folder, seed), programs.keeper
    for order in ORDERS:
        tables = compare_tables(keeper, run, order)
        yield f"run {seed}: what is current amid changes{order}", tables.amid
        yield f"run {seed}: all at the end{order}", tables.end
        forwarding = compare_forwarding(keeper, run, order)
        yield f"run {seed}: forwarding entries amid changes{order}", forwarding.amid
        yield f"run {seed}: forwarding entries at the end{order}", forwarding.end
    yield f"run {seed}: by the program", compare(programs, run)
    if is_losing(seed):
        lost = "lost" in steps(early_of(run))
        yield f"run {seed}: something was lost", [] if lost else ["nothing was lost"]


def main() -> int:
    first = int(sys.argv[1]) if len(sys.argv) > 1 else 0
    count = int(sys.argv[2]) if len(sys.argv) > 2 else RUNS
    program = os.environ.get("RTNL_ROWS", PROGRAM)
    if program == PROGRAM and not is_proved(program):
        sys.exit(f"{program} is not proved, and no test takes it: remove it")
    programs, seeds = Programs(Keeper(program), proved.program()), range(first, first + count)
    with tempfile.TemporaryDirectory() as folder:
        with ThreadPoolExecutor(LANES) as lanes:
            found = lanes.map(lambda it: [*cases_of(it, programs, folder)], seeds)
            return counted(case for cases in found for case in cases)


if __name__ == "__main__":
    sys.exit(main())
