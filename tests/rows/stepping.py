"""The calls whose rows have a step in each line: tables, sessions, streams and mirrors."""
from typing import Iterator, List, NamedTuple, Tuple

from flat import Answers, Asked, Wrong
from plain import Made
from shown import filled, yes_or_no
from words import FAMILIES, Row, Words, number_in

PUTS = "Replaced", "Added", "Missed"
OUT_OF_MEMORY = "out of memory"


def split(line: str) -> Tuple[str, str]:
    """The name of a step, and what stands behind it."""
    name, _, rest = line.partition(" ")
    return name, rest


def cuts_of(row: Row, line: str) -> List[bytes]:
    """The bytes of a line, or behind `cuts` all their first bytes, from none to all."""
    name, rest = split(line)
    if name != "cuts":
        return [row.names.line(line)]
    whole = row.names.line(rest)
    return [whole[:end] for end in range(len(whole) + 1)]


def cuts_shown(line: str, said: List[str]) -> Iterator[str]:
    """What is answered to bytes, or from one length to another to which the same is answered."""
    if not line.startswith("cuts "):
        yield from said
        return
    first = 0
    for end in range(1, len(said) + 1):
        if said[end:end + 1] != said[first:first + 1]:
            yield f"{first}..={end - 1} {said[first]}"
            first = end


# ---- tables


class Count(NamedTuple):
    """What is counted of a table."""

    order: str
    len: int
    limit: int
    missed: int
    is_empty: bool
    spare: int

    def line(self) -> str:
        counts = f"{self.order} entries {self.len} of {self.limit} missed {self.missed}"
        return f"{counts} empty {yes_or_no(self.is_empty)}"


def count_in(answers: Answers) -> Count:
    order, *counts = filled("{order}", answers), *(answers.number() for _ in range(5))
    count, limit, missed, is_empty, spare = counts
    return Count(order, count, limit, missed, bool(is_empty), spare)


def places_in(answers: Answers, count: Count) -> Iterator[str]:
    """The entries of a table that is counted so, and what stands behind the last."""
    for _ in range(count.len + 1):
        yield filled("?key {hex} at {maybe} body {hex}", answers)


def entries_in(answers: Answers) -> Iterator[str]:
    count = count_in(answers)
    yield count.line()
    yield from places_in(answers, count)


def keys_in(answers: Answers) -> Iterator[str]:
    for front in ("", "back "):
        while not answers.is_none():
            yield front + filled("{hex}", answers)


def numbered(row: Row, rest: str) -> List[bytes]:
    """So many bodies, whose bytes from 4 to 7 are their numbers, counted from 0."""
    count, body = split(rest)
    data = row.names.line(body)
    return [data[:4] + it.to_bytes(4, "little") + data[8:] for it in range(number_in(count))]


class TableStep(NamedTuple):
    """A step of a table: what is asked, of which each is followed by what is counted then."""

    name: str
    asked: List[Asked]

    def lines(self, answers: Answers) -> Iterator[str]:
        if self.name == "numbered":
            puts = [(answers.number(), count_in(answers))[0] for _ in self.asked]
            yield "added {1} replaced {0} missed {2}".format(*map(puts.count, range(3)))
            return
        said: List[str] = []
        is_refused = self.name == "reserve" and answers.number()
        if self.name == "put":
            put = answers.maybe()
            said = ["? absent" if put is None else PUTS[put]]
        elif self.name == "find":
            said = [filled("{maybe}", answers)]
        elif self.name == "at":
            said = [filled("?key {hex} at {maybe} body {hex}", answers)]
        elif self.name in ("entries", "keys"):
            said = [*(entries_in if self.name == "entries" else keys_in)(answers)]
        count = count_in(answers)
        yield from said
        if self.name in ("spare", "reserve"):
            yield f"{OUT_OF_MEMORY}, " * bool(is_refused) + f"spare {count.spare}"
        elif self.name in ("count", "clear"):
            yield count.line()


TABLE_STEPS = ("count", "reserve", "put", "clear", "find", "at", "entries", "keys", "spare")


def table_step(row: Row, line: str) -> TableStep:
    name, rest = split(line)
    if name == "numbered":
        return TableStep(name, [Asked(2).data(it) for it in numbered(row, rest)])
    asked = Asked(Words(name).one_of(TABLE_STEPS) % 8)
    if name in ("reserve", "at"):
        asked.put(number_in(rest))
    elif name in ("put", "find"):
        asked.data(row.names.line(rest))
    elif rest:
        raise Wrong(f"a word too many: {rest}")
    return TableStep(name, [asked])


def table(row: Row) -> Made:
    """`table FAMILY [ORDER] [entries COUNT]` and steps."""
    words, steps = row.words, [table_step(row, it) for it in row.lines]
    family, order, entries = words.one_of(FAMILIES), words.twin(), words.number_of("entries", 1)
    asked = Asked(10, family, order, entries, sum(len(it.asked) for it in steps))
    asked.parts += [part for step in steps for it in step.asked for part in it.parts]
    [answers] = yield [asked]
    if answers.is_none():
        return [OUT_OF_MEMORY]
    lines: List[str] = []
    for it in steps:
        lines += it.lines(answers)
        if lines[-1:] == ["? absent"]:
            answers.skip()
            break
    return lines
