"""Asks the program of rtnl_rows for the rows of a table, and shows the table with its answers."""
from typing import Callable, Dict, Iterator, List, NamedTuple, Optional, Tuple

import others
import plain
import running
import standing
import stepping
import writing
from flat import Answers, Asked, Wrong, answers_in
from plain import Made
from words import Block, Bytes, Row, blocks, row_of

CALLS: Dict[str, Callable[[Row], Made]] = {
    **dict.fromkeys(plain.CALLS, plain.named), **others.CALLS, **writing.CALLS, **running.CALLS,
    "table": stepping.table, "session": standing.session, "fresh": standing.fresh,
    "stream": standing.stream, "mirror": standing.mirror,
}


class Tried(NamedTuple):
    """A block of a table, and where it is a row that can be asked, how it is answered; else what is
    wrong with it, if anything is."""

    block: Block
    made: Optional[Made]
    asked: List[Asked]
    wrong: str


def tried(block: Block, names: Bytes) -> Tried:
    try:
        row = row_of(block, names) if block.is_row else None
        if row is None:
            return Tried(block, None, [], "")
        if row.call not in CALLS:
            raise Wrong("no such call")
        made = CALLS[row.call](row)
        asked = next(made)
        row.words.end()
        return Tried(block, made, asked, "")
    except Wrong as by:
        return Tried(block, None, [], str(by))


def said(it: Tried, answers: List[Answers]) -> List[str]:
    """The lines of an answer."""
    if it.made is None:
        return [f"= ? {it.wrong}"] if it.wrong else []
    try:
        it.made.send(answers)
    except StopIteration as by:
        try:
            for found in answers:
                found.end()
        except Wrong as wrong:
            return [f"= ? {wrong}"]
        return [f"= {line}" for line in by.value]
    except (Wrong, IndexError) as by:
        return [f"= ? {by}"]
    return ["= ? it asks twice"]


class Table:
    """A table: what it asks, and what is printed of it."""

    def __init__(self, text: str) -> None:
        names = Bytes()
        self.tried = [tried(it, names) for it in blocks(text)]
        self.asked = [asked for it in self.tried for asked in it.asked]

    def shown(self, output: bytes) -> List[str]:
        """The table with what is answered, once."""
        answers = answers_in(output)
        found: List[str] = []
        for it in self.tried:
            found += it.block.lines
            found += said(it, [next(answers) for _ in it.asked])
        return found


def rows_of(lines: List[str]) -> Iterator[Tuple[str, List[str]]]:
    """Each row of a table with its input and its answers. Bytes that are named are no row."""
    row: List[str] = []
    for line in [*lines, "#"]:
        if line.startswith(("  ", "=")):
            row.append(line)
            continue
        if row and row[0][:1].isalpha() and not row[0].startswith("bytes "):
            yield row[0], row
        row = [line]
