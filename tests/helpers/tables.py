"""The tables of crates/nl_values, read as the program does: a name by its place and its length in
the text of all names, a row by the place of its block's first row. So this finds what a wrong
place or count would do.
"""
import re
from typing import Dict, Iterator, List, NamedTuple, Optional, Tuple

from named import SIZES, Blocks
from rows import Block, Row

# A block: the number and the name in the comment, what it says of itself, and its rows.
BLOCK = re.compile(
    r"^    (?:// (\d+) (.*)\n    )?\{ ([^;{}]*); ([^{}]*) \}(?: // (\d+) (.*))?$", re.M)
# What a row says that names a block, by what the rows of format/ say.
NAMING = {"nested-attributes": "Set", "struct": "Struct", "enum": "Names", "sub-message": "Choice"}
LABEL = re.compile(r'(\d+) "([^"]*)"')


class Cell(NamedTuple):
    """A row: its name, as its place says, and what else it says."""

    name: str
    says: str


class Entry(NamedTuple):
    """A block: its number and its name by the comment, what it says of itself, and its rows."""

    number: int
    name: str
    front: List[str]
    rows: List[Cell]
    prefix: str


class Table:
    """A table, which may stand in two files."""

    def __init__(self, folder: str, *names: str) -> None:
        self.text = ""
        self.cells: List[str] = []
        self.faults: List[str] = []
        found = [it for name in names for it in self.blocks(f"{folder}/{name}.rt")]
        for _, _, front, rows in found:
            self.text += "".join(it[2] for it in LABEL.finditer(f"{front}; {rows}"))
            self.cells += re.split(r',\s+(?=\d+ ")', rows)
        self.entries = {it.name: it for it in map(self.entry, found)}

    @staticmethod
    def blocks(path: str) -> Iterator[Tuple[int, str, str, str]]:
        with open(path, encoding="utf-8") as file:
            for it in BLOCK.finditer(file.read()):
                yield int(it[1] or it[5]), it[2] or it[6], it[3], it[4]

    def cut(self, label: str) -> str:
        """The part of the text that a label says."""
        it = LABEL.match(label)
        if it is None:
            return ""
        name = self.text[int(it[1]):int(it[1]) + len(it[2])]
        if name != it[2]:
            self.faults.append(f"{label} is {name}")
        return name

    def entry(self, block: Tuple[int, str, str, str]) -> Entry:
        number, name, front, _ = block
        *_, first, count = front.split()
        rows = self.cells[int(first):int(first) + int(count)]
        cells = [Cell(self.cut(it), LABEL.sub("", it, count=1).strip()) for it in rows]
        return Entry(number, name, front.split(), cells, self.cut(front))


class Tables:
    """All tables."""

    def __init__(self, folder: str) -> None:
        self.sets = Table(folder, "links", "traffic")
        self.structs, self.names, self.choices = (
            Table(folder, it) for it in ("structs", "names", "choices"))

    def faults(self) -> List[str]:
        """Names that don't stand at their places, and blocks at other numbers than they say."""
        every = (self.sets, self.structs, self.names, self.choices)
        found = [it for table in every for it in table.faults]
        for table in every:
            blocks = enumerate(table.entries.values())
            found += [f"{it.name} is at {at}" for at, it in blocks if at != it.number]
        return found

    def attribute(self, name: str, number: int) -> Optional[Cell]:
        """What `Set::attribute` says."""
        it = self.sets.entries[name]
        first = int(it.front[2])
        at = 0 if it.prefix == "" else number - first
        return it.rows[at] if 0 <= at < len(it.rows) else None

    def told(self, says: str) -> str:
        """What a row says, with the names of blocks for their numbers."""
        tables: Dict[str, Table] = {
            "Set": self.sets, "Struct": self.structs, "Names": self.names, "Choice": self.choices}

        def named(it: "re.Match[str]") -> str:
            return f"{it[1]}({list(tables[it[1]].entries.values())[int(it[2])].name})"

        return re.sub(r"\b(Set|Struct|Names|Choice)\((\d+)\)", named, says)


def number_of(row: Row) -> str:
    """How a number without names is called there."""
    network = "NETWORK_" if "byte-order=big-endian" in row.words else ""
    kind = row.words[0]
    return f"{network if SIZES[kind] > 1 else ''}{'I' if kind[0] == 's' else 'U'}{kind[1:]}"


def expected(row: Row, blocks: Blocks) -> List[str]:
    """What a table has to say of a row."""
    if row.words[0] == "indexed-array":
        return [f"each of {row.name})"]
    found = [(key, row.said(key) or "") for key in NAMING if row.said(key)]
    if not found and row.words[0] in SIZES and row.said("display-hint") != "ipv4":
        return [f"Bits(Number::U32, Names(bits of {row.said('bits')}))" if row.said("bits")
                else number_of(row)]
    hops = [name for _, name in found if name == "rtnexthop"]
    return [f"{'Names' if blocks[name].sort == 'array' else NAMING[key]}({name})"
            for key, name in found if name not in hops and row.words[0] != "bitfield32"]


def wrong(cell: Optional[Cell], name: str, words: List[str], tables: Tables) -> List[str]:
    told = tables.told(cell.says) if cell else ""
    is_so = cell is not None and cell.name == name and all(it in told for it in words)
    return [] if is_so else [f"{cell}, not {name} {words}"]


def of_block(block: Block, blocks: Blocks, tables: Tables) -> Iterator[Tuple[str, List[str]]]:
    """The rows of a set or a struct as they are looked up."""
    fields = [it for it in block.rows if it.words[0] != "pad"]
    for at, row in enumerate(block.rows if block.sort == "set" else fields):
        name, words = row.name[len(block.said.get("prefix", "")):], expected(row, blocks)
        if block.sort == "set":
            cell = tables.attribute(block.name, row.number)
        else:
            cell = tables.structs.entries[block.name].rows[at]
            words = [f"{row.value} ", *words]
        yield row.name, wrong(cell, name, words, tables)


def cases(folder: str, blocks: Blocks) -> Iterator[Tuple[str, List[str]]]:
    """That each row is found there by its number, with its name and what it says."""
    tables = Tables(folder)
    yield "places", tables.faults()
    for block in blocks.values():
        if block.sort in ("set", "struct"):
            yield from of_block(block, blocks, tables)
        elif block.name in tables.names.entries:
            entry = tables.names.entries[block.name]
            numbers = {int(it.says): entry.prefix + it.name for it in reversed(entry.rows)}
            first = block.rows[0].number if block.sort == "array" else 0
            known = {it.name for it in block.rows}
            for row in block.rows:
                name = numbers.get((row.number - first) % 2**32)
                is_so = name in known or "unnamed" in row.words
                yield row.name, [] if is_so else [f"{row.value} is {name}"]
        elif block.sort == "sub-message":
            entry = tables.choices.entries[block.name]
            yield block.name, [] if len(entry.rows) + (block.rows[-1].name == "*") == len(
                block.rows) else ["other rows"]
