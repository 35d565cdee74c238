#!/usr/bin/env python3
"""Prints NOTICE: the libraries of the kit that are compiled into the program and into the library
for C, with the licence texts that lie beside each in the kit that `rt` comes with.

  packaging/notice.py >NOTICE

crates.txt names some of them, and the kit says what each of these stands on. A text that is that
of LICENSE-MIT or LICENSE-APACHE is named; any other is printed. The status is 3, with a line that
says why, where the kit can't be read.
"""
import os
import re
import subprocess
import sys
from typing import Dict, Iterator, List

sys.dont_write_bytecode = True
sys.path.insert(0, f"{os.path.dirname(os.path.realpath(__file__))}/../launch")
import unproved
from crates import ROOT, Crates, listed
from steps import Failed

# What is made of which crate, and the word for it.
MADE = {"rtnl_cli": "program", "rtnl_c": "library"}
FRONT = """\
rtnl
Copyright (c) 2026 the rtnl authors

It may be used under the terms of LICENSE-MIT or of LICENSE-APACHE, at your choice
(MIT OR Apache-2.0).

The program rtnl and the library librtnlc hold code of the libraries below, which come with
Rattle's kit ({kit}). Behind each stands what it is part of, the
Rust crate after which it was written, where the kit names one, and the licence texts that lie
beside it there: MIT is the text of LICENSE-MIT and Apache-2.0 that of LICENSE-APACHE, with the
lines of copyright that follow.
"""
BACK = """\

No licence text lies beside these in the kit:
"""
TEXTS = re.compile(r"(LICEN[CS]E|COPYING|COPYRIGHT|NOTICE|UNLICENSE)\b")
AFTER = re.compile(r"\bthe Rust crate `([\w-]+)`(?: (\d+(?:\.\w+)*))?")
COPYRIGHT = re.compile(r"^\s*(Copyright\b(?!.*[\[{]yyyy).*\S)", re.M)
# An Apache licence ends so, and what may come behind it.
END = re.compile("END OF TERMS AND CONDITIONS(?: APPENDIX: How to apply the Apache License .*"
                 " governing permissions and limitations under the License\\.)?$")


def read(path: str) -> str:
    try:
        with open(path, encoding="utf-8") as text:
            return text.read()
    except (OSError, UnicodeError) as error:
        raise Failed(f"{path} can't be read: {error}") from None


def in_one_line(text: str) -> str:
    return " ".join(text.split())


def permission(text: str) -> str:
    """What an MIT licence says, without its name and its lines of copyright."""
    lines = COPYRIGHT.sub("", text)
    return re.sub(r"^(The )?MIT License( \(MIT\))? ", "", in_one_line(lines))


def terms(text: str) -> str:
    """What an Apache licence says, without how one applies it."""
    return END.sub("", in_one_line(text))


def name_of(text: str) -> str:
    """The name of a licence by its text, or none of a text that isn't known."""
    if permission(text) == permission(read(f"{ROOT}/LICENSE-MIT")):
        return "MIT"
    return "Apache-2.0" if terms(text) == terms(read(f"{ROOT}/LICENSE-APACHE")) else ""


def kit_libraries(kit: str, crates: Crates, made: str) -> List[str]:
    """The kit's libraries of which something is made, by name."""
    words = unproved.libraries(kit, crates, made)
    return sorted({word.partition(":")[0] for word in words} - {*crates})


def licences(folder: str) -> Iterator[str]:
    """Lines on the licence texts of a library."""
    for name in sorted(filter(TEXTS.match, os.listdir(folder))):
        text = read(f"{folder}/{name}")
        known = name_of(text)
        yield f"    {name}: {known or 'as follows'}"
        for line in COPYRIGHT.findall(text) if known else text.splitlines():
            yield f"        {line}".rstrip()


def entry(folder: str, uses: List[str]) -> str:
    """What is said of a library that has licence texts."""
    page = f"{folder}/README.md"
    after = AFTER.search(read(page)) if os.path.exists(page) else None
    named = f", after {' '.join(filter(None, after.groups()))}" if after else ""
    head = f"{os.path.basename(folder)} ({', '.join(uses)}){named}"
    return "\n".join(["", head, *licences(folder), ""])


def notice(kit: str, identity: str) -> Iterator[str]:
    """The parts of the text."""
    crates = listed()
    uses: Dict[str, List[str]] = {}
    for made, word in MADE.items():
        for library in kit_libraries(kit, crates, made):
            uses.setdefault(library, []).append(word)
    folders = {it: f"{kit}/rattle/{it}" for it in sorted(uses)}
    bare = [it for it, folder in folders.items() if not [*licences(folder)]]
    yield FRONT.format(kit=identity)
    yield from (entry(folders[it], uses[it]) for it in folders if it not in bare)
    yield BACK
    yield from (f"    {it} ({', '.join(uses[it])})\n" for it in bare)


def identity() -> str:
    """What the kit calls itself."""
    said = subprocess.run(["rt", "version"], stdout=subprocess.PIPE, text=True, check=False)
    if said.returncode or not said.stdout.strip():
        raise Failed("rt version says nothing")
    return said.stdout.strip()


def main() -> int:
    try:
        text = "".join(notice(unproved.kit(), identity()))
        sys.stdout.write(text)
        sys.stdout.flush()
    except (Failed, OSError) as error:
        print(f"notice.py: {error}", file=sys.stderr)
        return 3
    return 0


if __name__ == "__main__":
    sys.exit(main())
