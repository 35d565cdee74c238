#!/usr/bin/env python3
"""Writes what the rows of format/ say: tables of docs/FORMAT.md, the constants of the packages for
Go, Python and Rust, numbers and names in crates/, include/ and share/, and the groups in record/.
What rows don't say stays as it stands in the file: comments, other names, and which constants
there are. A name without a row is an error, and then nothing is written. Prints the files that it
changed.
"""
import glob
import os
import re
import sys
from typing import Dict, List

sys.dont_write_bytecode = True
HERE = os.path.dirname(os.path.realpath(__file__))
sys.path[:0] = [HERE]
import definitions
import heads
import packages
import page
import rattle
import shared
import values
from named import Blocks, Writer, constants
from rows import read

ROOT = os.path.dirname(HERE)
PARTS = page, packages, rattle, heads, definitions, shared, values
# The files of crates/ that may have constants, and how these look.
CONSTANTS = {"src/**/*.rt": rattle.CONSTANT, "specs/*.antt": definitions.CONSTANT}


def text_of(path: str) -> str:
    with open(f"{ROOT}/{path}", encoding="utf-8") as file:
        return file.read()


def writers(blocks: Blocks) -> Dict[str, List[Writer]]:
    """The files that say what the rows do, and what writes each."""
    found = {path: [write] for part in PARTS for path, write in part.FILES.items()}
    fronts = tuple({it.said["prefix"] for it in blocks.values() if "prefix" in it.said})
    for files, pattern in CONSTANTS.items():
        constant = re.compile(pattern, re.M)
        for full in sorted(glob.glob(f"{ROOT}/crates/*/{files}", recursive=True)):
            path = os.path.relpath(full, ROOT)
            if any(it["name"].startswith(fronts) for it in constant.finditer(text_of(path))):
                found.setdefault(path, []).append(constants(constant, fronts))
    return found


def written(text: str, writes: List[Writer], blocks: Blocks) -> str:
    """What a file says that said this."""
    for write in writes:
        text = write(text, blocks)
    return text


def main() -> None:
    blocks, changed = read(), {}
    for path, writes in writers(blocks).items():
        text = text_of(path)
        if (new := written(text, writes, blocks)) != text:
            changed[path] = new
    for path, new in changed.items():
        with open(f"{ROOT}/{path}", "w", encoding="utf-8") as file:
            file.write(new)
        print(path)


if __name__ == "__main__":
    main()
