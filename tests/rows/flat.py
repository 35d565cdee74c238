"""What the program of rtnl_rows is asked, and what it answers, as main.rt there says."""
import os
import re
import subprocess
import tempfile
from typing import Dict, Iterable, Iterator, List, NamedTuple, Optional, Union

# A number, bytes, a text, or none.
Item = Union[int, bytes, str, None]
ITEM = re.compile(rb'(\d+)([ :])|"([^"]*)" |- |([.?])\n')
# The number of each refusal for which memory ran out, and where numbers below 0 begin.
MEMORY, SIGNED = 13, 1 << 63


class Wrong(Exception):
    """A row that can't be asked, or is answered as no call answers."""


class Asked:
    """A row as it is asked: the numbers of its module and its call, and what the call takes."""

    def __init__(self, *numbers: int) -> None:
        self.parts: List[bytes] = []
        self.put(*numbers)

    def put(self, *numbers: int) -> "Asked":
        self.parts += [b"%d " % (it % (1 << 64)) for it in numbers]
        return self

    def data(self, *texts: bytes) -> "Asked":
        """Bytes behind how many they are."""
        for it in texts:
            self.parts += [b"%d " % len(it), it]
        return self

    def row(self) -> bytes:
        row = b"".join(self.parts)
        return b"%d %s" % (len(row), row)


class Answers:
    """What is answered to a row, read from the first item to the last."""

    def __init__(self, items: List[Item], is_wrong: bool) -> None:
        self.items, self.is_wrong, self.place = items, is_wrong, 0

    def item(self) -> Item:
        if self.place == len(self.items):
            raise Wrong("an answer that ends early")
        self.place += 1
        return self.items[self.place - 1]

    def number(self) -> int:
        found = self.item()
        if not isinstance(found, int):
            raise Wrong(f"no number: {found!r}")
        return found

    def signed(self) -> int:
        found = self.number()
        return found - 2 * SIGNED if found >= SIGNED else found

    def maybe(self) -> Optional[int]:
        found = self.item()
        if found is not None and not isinstance(found, int):
            raise Wrong(f"no number and not none: {found!r}")
        return found

    def data(self) -> bytes:
        found = self.item()
        if not isinstance(found, bytes):
            raise Wrong(f"no bytes: {found!r}")
        return found

    def found(self) -> Optional[bytes]:
        """Bytes, or none."""
        if self.is_none():
            return None
        return self.data()

    def text(self) -> str:
        found = self.item()
        if not isinstance(found, str):
            raise Wrong(f"no text: {found!r}")
        return found

    def is_none(self) -> bool:
        """Whether the next item is none, which is then behind."""
        is_none = self.place < len(self.items) and self.items[self.place] is None
        self.place += is_none
        return is_none

    def skip(self) -> None:
        """Passes over what is left."""
        self.place = len(self.items)

    def end(self) -> None:
        if self.is_wrong or self.place < len(self.items):
            raise Wrong("a row that is asked as none may be, or an answer that goes on")


def answers_in(output: bytes) -> Iterator[Answers]:
    """The answers to each row."""
    place, items = 0, []  # type: int, List[Item]
    while place < len(output):
        found = ITEM.match(output, place)
        if not found:
            raise Wrong(f"no item: {output[place:place + 20]!r}")
        place = found.end()
        if found[4]:
            yield Answers(items, found[4] == b"?")
            items = []
        elif found[2] == b":":
            items.append(output[place:place + int(found[1])])
            place += int(found[1]) + 1
        elif found[3] is not None:
            items.append(found[3].decode())
        else:
            items.append(int(found[1]) if found[1] else None)


class Run(NamedTuple):
    """How a run of the program ended, and what it wrote."""

    status: int
    errors: str
    output: bytes


def run(program: str, asked: Iterable[Asked], more: Optional[Dict[str, str]] = None) -> Run:
    """A run of the program, with more in its environment."""
    with tempfile.TemporaryFile() as rows:
        rows.writelines(it.row() for it in asked)
        rows.seek(0)
        ran = subprocess.run([program], stdin=rows, stdout=subprocess.PIPE, stderr=subprocess.PIPE,
                             env={**os.environ, **(more or {})}, check=False)
    return Run(ran.returncode, ran.stderr.decode(), ran.stdout)
