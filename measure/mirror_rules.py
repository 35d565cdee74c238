#!/usr/bin/env python3
"""Breaks each rule of a mirror in turn, and counts in how many runs over a live kernel that shows.
It prints the table of docs/THEOREMS.md. It is no part of the gate.

usage: measure/mirror_rules.py [--runs N] [FOLDER]

Runs are recorded as tests/mirrors.py records them, or are those of FOLDER, where it has them; what
is recorded stands there then. It needs root, unshare and iproute2. One program is compiled of the
text of rtnl_rows, without a proof: it keeps mirrors by nl_mirror as it is, and by copies of it in
each of which an edit breaks a rule. The edits are those of crates/nl_mirror/edits/ and of
measure/mirror_rules/, in one form. The same runs are fed to all.

A run is right amid changes where each table that says that it is current has what a dump of the
quiet kernel has, and at the end where each table says so, too: as tests/mirrors.py judges it, in
both orders, without what the kernel tells nobody (tests/mirrors/entries.py).
"""
import argparse
import os
import re
import shutil
import subprocess
import sys
import tempfile
from concurrent.futures import ThreadPoolExecutor
from typing import Dict, List, NamedTuple

sys.dont_write_bytecode = True
HERE = os.path.dirname(os.path.realpath(__file__))
sys.path += [f"{HERE}/../launch", f"{HERE}/../tests/mirrors"]
import unproved
from counting import Rows, table
from crates import ROOT, Crates, listed
from datagrams import HEADER, datagrams_of, messages
from recording import KINDS, recorded
from replaying import ORDERS, Compared, Keeper, compare_forwarding, compare_tables, early_of, steps
from standing import MIRROR

BROKEN, PROGRAM = "nl_mirror", "rtnl_rows"
EDITS = f"{ROOT}/crates/{BROKEN}/edits", f"{HERE}/mirror_rules"
# What is broken, and the edit that does it.
RULES = {
    "what waits is dropped at the dump's end": "waiting_dropped",
    "what is told amid a dump counts in order of arrival": "order_of_arrival",
    "APPEND is no doubt": "append_is_no_doubt",
    "REPLACE is no doubt": "replace_is_no_doubt",
    "a route of IPv6 that goes is no doubt": "gone_route_is_no_doubt",
    "a link that goes or is down is no doubt": "link_down_is_no_doubt",
    "an address of IPv4 that goes is no doubt": "gone_address_is_no_doubt",
    "a loss is passed over": "loss_passed_over",
    "a dump amid which something was lost is whole": "loss_passed_over_at_end",
    "an interrupted dump is whole": "interruption_passed_over",
    "a bridge's port counts as a link": "port_of_bridge_is_link",
    "a bridge's forwarding entry counts as a neighbour": "bridge_covered",
    "a forwarding entry is known by its port": "forwarding_by_port",
}
# The line of the program's main that hands a row to a module of this number.
ANSWERS = re.compile(r"^ *\d+ => (\w+)::answer\(row\),\n", re.M)
MULTI, INTERRUPTED = 2, 0x10
# How many runs are recorded at a time.
LANES = 5


def edited(folder: str, name: str) -> None:
    """Makes an edit in a folder that has a crate's text."""
    [path] = [it for it in (f"{at}/{name}.edit" for at in EDITS) if os.path.exists(it)]
    with open(path, encoding="utf-8") as edit:
        words = [it.partition(": ")[::2] for it in edit.read().splitlines()]
    for number, (word, text) in enumerate(words):
        if word == "file":
            file = f"{folder}/{text}"
        if word == "old":
            changed(file, text, words[number + 1][1])


def changed(path: str, old: str, new: str) -> None:
    """Puts a text in the place of another, which stands in the file once."""
    with open(path, encoding="utf-8") as file:
        text = file.read()
    if text.count(old) != 1:
        raise SystemExit(f"mirror_rules.py: {path} has not once: {old}")
    with open(path, "w", encoding="utf-8") as file:
        file.write(text.replace(old, new))


def copied(room: str, crates: Crates) -> Crates:
    """Copies the text of the program, and that of nl_mirror once for each edit, with a module for
    each: so one reading serves all. The modules that keep no mirror are not called."""
    top = f"{room}/crates/{PROGRAM}/src"
    shutil.copytree(f"{ROOT}/crates/{PROGRAM}/src", top)
    names = [*RULES.values()]
    for name in names:
        copy = f"{room}/crates/{BROKEN}_{name}"
        shutil.copytree(f"{ROOT}/crates/{BROKEN}/src", f"{copy}/src")
        edited(copy, name)
        shutil.copy(f"{top}/mirrors.rt", f"{top}/mirrors_{name}.rt")
        changed(f"{top}/mirrors_{name}.rt", f"use {BROKEN}::", f"use {BROKEN}_{name}::")
    with open(f"{top}/main.rt", encoding="utf-8") as file:
        text = file.read()
    arms = "".join(f"{MIRROR + at} => {it}::answer(row),\n" for at, it in enumerate(modules(names)))
    text = ANSWERS.sub(lambda it: arms if it[1] == "mirrors" else "", text)
    text = text.replace("mod mirrors;", "\n".join(f"mod {it};" for it in modules(names)), 1)
    with open(f"{top}/main.rt", "w", encoding="utf-8") as file:
        file.write(text)
    return with_copies(crates, [f"{BROKEN}_{it}" for it in names])


def modules(names: List[str]) -> List[str]:
    """The modules of the program that keep mirrors."""
    return ["mirrors", *(f"mirrors_{it}" for it in names)]


def with_copies(crates: Crates, copies: List[str]) -> Crates:
    """The crates, of which the program uses these copies of nl_mirror too."""
    program, broken = crates[PROGRAM], crates[BROKEN]
    found = {it: broken._replace(name=it) for it in copies}
    return {**crates, **found, PROGRAM: program._replace(uses=[*copies, *program.uses])}


def built(room: str) -> str:
    """The path of the program."""
    with open(f"{room}/log", "w", encoding="utf-8") as log:
        unproved.lower(copied(room, listed()), PROGRAM, log, room)
        [name] = unproved.program(log, room, room)
    return f"{room}/{name}"


def run_in(folder: str, seed: int) -> str:
    """The folder of a run, which is recorded if it isn't there."""
    run = f"{folder}/{seed}"
    return run if os.path.exists(run) else recorded(folder, seed)


class Judged(NamedTuple):
    """What a keeper's mirrors came to in a run: all tables, and forwarding entries, by the order in
    which they were fed."""

    tables: List[Compared]
    forwarding: List[Compared]

    def verdicts(self) -> List[bool]:
        """Whether it is right amid changes and at the end, in each order; its forwarding entries
        too, in both; and all."""
        found = [not wrong for it in self.tables for wrong in (it.amid, it.end)]
        found.append(not any(it.amid for it in self.forwarding))
        found.append(not any(it.end for it in self.forwarding))
        return [*found, all(found)]


def judged(keeper: Keeper, run: str) -> Judged:
    """Feeds a run to a keeper's mirrors."""
    compare = compare_tables, compare_forwarding
    return Judged(*([it(keeper, run, order) for order in ORDERS] for it in compare))


def row(what: str, found: List[Judged]) -> List[str]:
    """The row of what is broken: how many tables are current amid changes, and how many runs are
    right."""
    current = sum(len(it.tables[0].current) for it in found)
    counts = [sum(it) for it in zip(*(it.verdicts() for it in found))]
    return [what, str(current), *map(str, counts)]


def dumps_of(run: str) -> Dict[bytes, bool]:
    """The dumps of a run by their numbers, and whether each was interrupted."""
    found: Dict[bytes, bool] = {}
    for it in messages(datagrams_of(f"{run}/events")):
        flags = HEADER.unpack_from(it)[2]
        if flags & MULTI:
            found[it[8:16]] = found.get(it[8:16], False) or bool(flags & INTERRUPTED)
    return found


def print_setting(runs: List[str]) -> None:
    """Where this was measured, and what was recorded."""
    version = subprocess.run(["ip", "-V"], stdout=subprocess.PIPE, text=True, check=True).stdout
    dumps = [it for run in runs for it in dumps_of(run).values()]
    losing = sum("lost" in steps(early_of(it)) for it in runs)
    print(f"Linux {os.uname().release}, {version.strip()}; {len(runs)} runs, {losing} of which "
          f"lost something; {len(dumps)} dumps, {sum(dumps)} of them interrupted\n")


def main() -> None:
    options = argparse.ArgumentParser(
        description=__doc__, formatter_class=argparse.RawDescriptionHelpFormatter)
    options.add_argument("--runs", type=int, default=20, metavar="N")
    options.add_argument("folder", nargs="?")
    chosen = options.parse_args()
    with tempfile.TemporaryDirectory() as room, ThreadPoolExecutor(LANES) as lanes:
        folder = chosen.folder or f"{room}/runs"
        os.makedirs(folder, exist_ok=True)
        runs = [*lanes.map(lambda it: run_in(folder, it), range(chosen.runs))]
        print_setting(runs)
        program = built(room)
        rows: Rows = [("broken", f"tables current amid changes, of {len(KINDS) * len(runs)}",
                       "right amid changes", "at the end",
                       "dumps read late: amid changes", "at the end",
                       "forwarding entries: amid changes", "at the end", "all")]
        for what, name in {"nothing": "", **RULES}.items():
            keeper = Keeper(program, MIRROR + ["", *RULES.values()].index(name))
            rows.append(row(what, [*lanes.map(lambda it: judged(keeper, it), runs)]))
        table(*rows)


if __name__ == "__main__":
    main()
