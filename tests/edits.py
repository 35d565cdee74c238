#!/usr/bin/env python3
"""Tries the edits crates/NAME/edits/*.edit: each turns the meaning of a function, and the prover
must refuse it. A file has a line 'file: src/lib.rt' and pairs of lines 'old: TEXT' and 'new: TEXT',
each TEXT one line; the old one stands in that file once. Edits of different functions are tried in
one check (helpers/trials.py), and up to three crates side by side.

  tests/edits.py         tries the edits of each crate whose line in tests/edits.lock is another
  tests/edits.py NAME..  tries those of these crates, whatever the lock says
  --all                  tries those of every crate
  --update               writes into the lock the line of each crate whose edits this run all saw
                         refused
  --over-checks          has `rt check` say first that the crate is proved, and not `rt ci`
  --singly               tries each edit in a check of its own

The lock has a line for each crate: its name, how many edits it has, and a sum of what their refusal
depends on (docs/GATE.md says why): the kit; HANDLES; what crates.txt says of the crate and those
below; its text, definitions, proofs and edits; of each crate below it the types and contracts, as
the kit writes them into a built library, in the files that have a part in its interface; and the
definitions and lemmas that these name, or that one of them names. Lines of comments are left out.
So the libraries are built first, by rt ci or rt lib.

The last line is 'N passed, M failed'. The status is 1 where an edit was not refused or can't be
applied, or the lock is not one, and 2 where this is called wrongly.
"""
import argparse
import hashlib
import os
import re
import subprocess
import sys
import tempfile
from concurrent.futures import ThreadPoolExecutor
from typing import Dict, Iterator, List, NamedTuple, Optional, Set, Tuple

sys.dont_write_bytecode = True
HERE = os.path.dirname(os.path.realpath(__file__))
sys.path[:0] = [f"{HERE}/../launch", f"{HERE}/helpers"]
from crate_files import files
from crates import ROOT, Crates, NotBuilt, below, library, listed
from trials import Misplaced, Trials, applied, batches, edit_of

LOCK = "tests/edits.lock"
# A definition or a lemma where a text names it, in a file of the crate's folder specs/ or proofs/.
NAMED = re.compile(r"\b(\w+)(?:\.|::)(specs|proofs)((?:(?:\.|::)\w+)+)")
SUM = re.compile(r"[0-9a-f]{64}")
# How many crates are tried at once: a check of a large one takes four gigabytes.
MOST_AT_ONCE = 3
# What a line of a comment begins with, which no proof reads, by the end of a file's name.
COMMENT = {".rt": "//", ".antt": "--"}


class Row(NamedTuple):
    """A line of the lock, without the crate's name."""

    edits: int
    sum: str


Lock = Dict[str, Row]


def edits_of(name: str) -> List[str]:
    return [os.path.basename(it) for it in files(name, "edits")]


def misplaced(name: str, edit: str) -> Optional[str]:
    """Why an edit can't be applied, with its line, or nothing."""
    folder = f"{ROOT}/crates/{name}"
    try:
        applied([edit_of(folder, edit)], folder)
    except Misplaced as why:
        return str(why)
    return None


def contracts(name: str) -> Iterator[Tuple[str, str]]:
    """What a crate above reads of a built library: each file that has a part in the interface."""
    built = library(name)
    interface = f"{built}/interface/lang/src"
    for at, folders, names in os.walk(interface):
        folders.sort()
        for it in (os.path.relpath(f"{at}/{it}", interface) for it in sorted(names)):
            yield f"{name}/{it}", f"{built}/lang/src/{it}"


def cited(text: str) -> Iterator[str]:
    """The files of definitions and lemmas that a text names."""
    for crate, part, rest in NAMED.findall(text):
        words = re.split(r"\W+", rest)[1:]
        paths = ("/".join([crate, part, *words[:it]]) for it in range(len(words), 0, -1))
        yield from (it for it in paths if os.path.isfile(f"{ROOT}/crates/{it}.antt"))


def reached(texts: List[str]) -> List[str]:
    """The files of definitions and lemmas that these texts name, and those that such a file does."""
    found: Set[str] = set()
    waiting = [*texts]
    while waiting:
        for it in {*cited(waiting.pop())} - found:
            found.add(it)
            waiting.append(without_comments(f"{ROOT}/crates/{it}.antt"))
    return sorted(found)


def without_comments(file: str) -> str:
    """The text of a file but for its lines of comments."""
    comment = COMMENT.get(os.path.splitext(file)[1])
    with open(file, encoding="utf-8") as text:
        return "".join(it for it in text if not comment or not it.lstrip().startswith(comment))


def sum_of(crates: Crates, name: str) -> str:
    """The sum of all that the refusal of a crate's edits depends on."""
    kit = subprocess.run(["rt", "version"], stdout=subprocess.PIPE, check=True, text=True).stdout
    names = [name, *below(crates, name)]
    made = hashlib.sha256(repr((kit, [(it, crates[it].uses) for it in names])).encode())
    own = [it for part in ("src", "specs", "proofs", "edits") for it in files(name, part)]
    read = [("HANDLES", f"{ROOT}/HANDLES"), *((it, f"{ROOT}/{it}") for it in own)]
    for it in names[1:]:
        read += contracts(it)
    texts = []
    for path, file in read:
        texts.append(without_comments(file))
        made.update(repr((path, texts[-1])).encode())
    for it in reached(texts):
        made.update(repr((it, without_comments(f"{ROOT}/crates/{it}.antt"))).encode())
    return made.hexdigest()


def read_lock(having: List[str]) -> Tuple[Lock, List[str]]:
    """The lock, and what is wrong with it, a line each."""
    rows: Lock = {}
    wrong = []
    with open(f"{ROOT}/{LOCK}", encoding="utf-8") as text:
        lines = text.read().splitlines()
    for number, line in enumerate(lines, 1):
        name, count, made = [*line.split(), "", "", ""][:3]
        if name not in having:
            wrong.append(f"{LOCK}:{number}: {name or 'an empty line'} is no crate with edits")
        elif name in rows:
            wrong.append(f"{LOCK}:{number}: {name} has a line above")
        elif not count.isdecimal() or not SUM.fullmatch(made) or len(line.split()) != 3:
            wrong.append(f"{LOCK}:{number}: {name} has no count and sum")
        else:
            rows[name] = Row(int(count), made)
    named = {line.split()[0] for line in lines if line.strip()}
    end = len(lines) + 1
    wrong += [f"{LOCK}:{end}: the line of {it} is missing" for it in having if it not in named]
    return rows, wrong


def write_lock(rows: Lock) -> None:
    with open(f"{ROOT}/{LOCK}.new", "w", encoding="utf-8") as text:
        for name, row in sorted(rows.items()):
            print(name, row.edits, row.sum, file=text)
    os.replace(f"{ROOT}/{LOCK}.new", f"{ROOT}/{LOCK}")


def tried(crates: Crates, name: str, given: argparse.Namespace) -> List[str]:
    """Tries a crate's edits, and returns what failed."""
    print(f"trying the {len(edits_of(name))} edits of {name}", flush=True)
    command = ["rt", "check"] if given.over_checks else ["rt", "ci"]
    placed = [it for it in edits_of(name) if not misplaced(name, it)]
    edits = [edit_of(f"{ROOT}/crates/{name}", it) for it in placed]
    with tempfile.TemporaryDirectory(prefix="rtnl-edits-") as room:
        trials = Trials(crates, name, room)
        if not trials.proves(command):
            return [f"{' '.join(command)} does not prove {name}"]
        good = set()
        for part in [[it] for it in edits] if given.singly else batches(edits, trials.source):
            good |= trials.refused(part)
    print(f"{name}: {len(good)} are refused, in {trials.checks} checks", flush=True)
    return [f"crates/{name}/edits/{it} was not refused" for it in edits_of(name) if it not in good]


def judge(crates: Crates, given: argparse.Namespace,
          sums: Dict[str, str]) -> Tuple[Lock, List[str]]:
    """Tries the edits of the crates with these sums: lines for the lock, and what failed."""
    rows: Lock = {}
    failed = []
    # The upper crates take longest.
    names = [*sums][::-1]
    with ThreadPoolExecutor(min(len(os.sched_getaffinity(0)), MOST_AT_ONCE)) as lanes:
        answers = lanes.map(lambda it: tried(crates, it, given), names)
        for name, lost in zip(names, answers):
            failed += lost
            if sum_of(crates, name) != sums[name]:
                failed.append(f"{name} was changed while its edits were tried: run this again")
            elif not lost:
                rows[name] = Row(len(edits_of(name)), sums[name])
    return rows, failed


def arguments(having: List[str]) -> argparse.Namespace:
    as_it_is = argparse.RawTextHelpFormatter
    reader = argparse.ArgumentParser(description=__doc__, formatter_class=as_it_is)
    reader.add_argument("names", nargs="*", metavar="NAME")
    for flag in ("--all", "--update", "--over-checks", "--singly"):
        reader.add_argument(flag, action="store_true")
    given = reader.parse_args()
    for it in given.names:
        if it not in having:
            reader.error(f"{it} is no crate with edits")
    return given


def main() -> int:
    crates = listed()
    having = [it for it in crates if edits_of(it)]
    given = arguments(having)
    lock, failed = read_lock(having)
    found = ((name, it, misplaced(name, it)) for name in having for it in edits_of(name))
    failed += [f"crates/{name}/edits/{it}:{why}" for name, it, why in found if why]
    try:
        sums = {it: sum_of(crates, it) for it in given.names or having}
    except NotBuilt as error:
        print(f"edits.py: {error}\n0 passed, 1 failed")
        return 1
    is_as_locked = {it: lock.get(it) == Row(len(edits_of(it)), sums[it]) for it in sums}
    names = given.names or [it for it in having if given.all or not is_as_locked[it]]
    rows, lost = judge(crates, given, {it: sums[it] for it in names})
    if given.update:
        write_lock({**lock, **rows})
        failed = [it for it in failed if not it.startswith(LOCK)] + read_lock(having)[1]
    elif any(not is_as_locked[it] for it in rows):
        print(f"{LOCK} has other sums: tests/edits.py --update writes it")
    failed += lost
    for line in failed:
        print(f"FAILED {line}")
    stand = sum(len(edits_of(it)) for it in having if it not in names and not given.names)
    refused = sum(row.edits for row in rows.values())
    print(f"{refused} edits are refused; {stand} stand by {LOCK}")
    print(f"{refused + stand} passed, {len(failed)} failed")
    return 1 if failed else 0


if __name__ == "__main__":
    sys.exit(main())
