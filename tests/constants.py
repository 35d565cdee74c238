#!/usr/bin/env python3
"""Searches for a number of the standard, or a limit of this project, that a definition or a clause
takes from the code: a definition that imports a constant, and a clause of crates/*/src that has the
bare name of one, which there is always the code's. Such a number would move with the code, and a
wrong one would still be proved. Definitions have the number itself, and clauses cite it as
fixed.NAME. The search is tried on lines that have such a name. The last line is 'N passed, M
failed', and the status is 1 where one is found, or not found in a line that has it.
"""
import os
import re
import sys
from typing import Iterator, List

sys.dont_write_bytecode = True
HERE = os.path.dirname(os.path.realpath(__file__))
sys.path[:0] = [f"{HERE}/../launch", f"{HERE}/helpers"]
from counting import counted
from crate_files import files
from crates import ROOT

# The libraries whose contracts a caller reads; those of the other crates' functions are their own.
CRATES = "nl_attr nl_route nl_frame nl_request nl_table nl_dump nl_mirror rtnl rtnl_c".split()
NUMBER = re.compile(r"^(?:abbrev pub )?([A-Z][A-Z_]+) = \w+$", re.M)
# A clause ends with a line's last brace. In a ghost member of an impl an import decides, not the code.
CLAUSE = re.compile(r"^ *(?:requires|ensures)\b[^\n{]*\{.*?\}$", re.M | re.S)
# What a law says of a constant: it is the definition's number of the same name.
LAW = re.compile(r"\b([A-Z_]+) ≡ \w+\.\1\b")


def text_of(path: str) -> str:
    with open(f"{ROOT}/{path}", encoding="utf-8") as file:
        return file.read()


def fixed() -> List[str]:
    """The names under which definitions have a number."""
    found: List[str] = []
    for name in CRATES:
        for path in files(name, "specs"):
            found += NUMBER.findall(text_of(path))
    return found


def in_clauses(text: str, names: List[str]) -> Iterator[str]:
    """The clauses of a source that have a bare name."""
    bare = re.compile(rf"(?<![.\w])(?:{'|'.join(names)})\b")
    for clause in CLAUSE.findall(text):
        if bare.search(LAW.sub("", clause)):
            yield " ".join(clause.split())


def imported(text: str) -> Iterator[str]:
    """The constants of the code that a definition or a proof imports."""
    yield from re.findall(r"^.*\bTheConstants\b.*$", text, re.M)


def found_in(name: str, names: List[str]) -> Iterator[str]:
    """What a crate has of either sort, with its place."""
    for part in ("specs", "proofs"):
        for path in files(name, part):
            yield from (f"{path}: {it}" for it in imported(text_of(path)))
    for path in files(name, "src"):
        yield from (f"{path}: {it}" for it in in_clauses(text_of(path), names))


def tries() -> Iterator[bool]:
    """Whether the search finds what it must, and nothing else."""
    names = ["RTA_DST", "MOST_LEVELS"]
    yield list(in_clauses("    ensures { result ≡ bytes_view RTA_DST attrs }\n{\n", names)) != []
    yield list(in_clauses("    requires a { x ≤\n        MOST_LEVELS }\n    ensures { y }", names)) != []
    yield list(in_clauses("    ensures { result ≡ bytes_view fixed.RTA_DST attrs }\n{", names)) == []
    yield list(in_clauses("    ensures { y }\n{\n    RTA_DST\n}\n", names)) == []
    yield list(in_clauses("    ensures { RTA_DST ≡ route.RTA_DST }\n{", names)) == []
    yield list(in_clauses("    ensures { RTA_DST ≡ route.RTA_SRC }\n{", names)) != []
    yield list(imported("use Rattle.nl_attr.specs.declared.tree.TheConstants.{NUMBERS}\n")) != []
    yield list(imported("use Rattle.nl_attr.specs.Fixed.{NUMBERS}\n")) == []


def main() -> int:
    names = fixed()
    tried = enumerate([*tries(), len(names) > 40], 1)
    cases = [(f"the search, try {number}", [] if it else ["it fails"]) for number, it in tried]
    return counted([*cases, *((name, list(found_in(name, names))) for name in CRATES)])


if __name__ == "__main__":
    sys.exit(main())
