"""Reads the rows of format/. README.md there says what they mean."""
import glob
import os
from typing import Dict, List, NamedTuple, Optional

HERE = os.path.dirname(os.path.realpath(__file__))


class Row(NamedTuple):
    """A number, the kernel's name of it, and what is said of it; of a sub-message no number."""

    value: str
    name: str
    words: List[str]

    @property
    def number(self) -> int:
        return int(self.value, 0)

    def said(self, key: str) -> Optional[str]:
        """What stands behind `key=`."""
        return next((it[len(key) + 1 :] for it in self.words if it.startswith(f"{key}=")), None)


class Block(NamedTuple):
    """A set, a struct or the like: its sort, its name, what else its first line says, its rows."""

    sort: str
    name: str
    said: Dict[str, str]
    rows: List[Row]


def block_of(text: str) -> Block:
    head, *lines = (line.split() for line in text.splitlines())
    sort, name, *words = head
    cells = [["", *it] if sort == "sub-message" else it for it in lines]
    said = {key: value for key, _, value in (word.partition("=") for word in words)}
    return Block(sort, name, said, [Row(it[0], it[1], it[2:]) for it in cells])


def read() -> Dict[str, Block]:
    """All blocks by their names."""
    found: Dict[str, Block] = {}
    for path in sorted(glob.glob(f"{HERE}/**/*.rows", recursive=True)):
        with open(path, encoding="utf-8") as file:
            for block in map(block_of, file.read().rstrip("\n").split("\n\n")):
                if found.setdefault(block.name, block) is not block:
                    raise ValueError(f"{path}: {block.name} stands twice")
    return found
