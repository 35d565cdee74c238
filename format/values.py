"""Writes the tables of crates/nl_values: attributes by set, fields by struct, the names of values
and bits, and what a sub-message is by what chooses it. A block goes there by a number, its place
in its table. The tables are laid out here, and `rt fmt` leaves them so.
"""
import re
from typing import Callable, Dict, Iterator, List, NamedTuple, Optional

from named import CONTEXTS, SIZES, Blocks, Missing, Writer, numbered, put_lines
from rows import Block, Row

# The most characters of a line.
WIDTH = 98
TRAFFIC = "tc-", "tca-"
BIG = "byte-order=big-endian"
ADDRESSES = {"mac": "Mac", "ipv4": "Ip", "ipv6": "Ipv6"}
SIMPLE = {"string": "Text", "flag": "Flag", "uint": "Unsigned"}
LONGEST = 65535
# What the byte of the address family is called in heads.
FAMILIES = "ifi_family", "rtm_family"
BITS = "bits of "
# The table of a sort of blocks, where it isn't called as the sort is.
TABLES = {"each": "set", "flags": "names", "enum": "names", "array": "names"}
MESSAGES = "messages of families"
# The sets that have a constant beside those of `CONTEXTS`.
FURTHER = {"MESSAGES": MESSAGES, "EXTACK": "extack-attrs"}
# The values that have a constant. No row names them.
NAMED = {"ERRNO": "errno"}


class Known(NamedTuple):
    """All blocks, with those that are made here, and the numbers of those in the tables."""

    blocks: Blocks
    places: Dict[str, int]

    def table(self, *kinds: str, is_traffic: bool = False) -> Iterator[Block]:
        """The blocks of a table by their numbers."""
        for name in sorted(self.places, key=lambda it: self.places[it]):
            block = self.blocks[name]
            if block.sort in kinds and is_traffic == name.startswith(TRAFFIC):
                yield block


def each_of(row: Row) -> Block:
    """The set of an indexed array, whose attributes are all alike."""
    kind = row.said("sub-type") or ""
    words = [it for it in row.words[1:] if not it.startswith("sub-type=")]
    name = f"tc-each of {row.name}" if row.name.startswith("TCA_") else f"each of {row.name}"
    return Block("each", name, {"prefix": ""}, [Row("0", "", [kind, *words])])


def bits_of(block: Block) -> Block:
    """Bits, of which bit N has the name of row N."""
    rows = [Row(str(1 << row.number), row.name, []) for row in block.rows]
    return Block("flags", f"{BITS}{block.name}", block.said, rows)


def bitfield_of(block: Block, name: str) -> Block:
    """A struct of two numbers whose bits have names."""
    words = [f"enum={name}", "enum-as-flags"]
    rows = [Row(it.value, it.name, [*it.words, *words]) for it in block.rows]
    return block._replace(name=f"bitfield of {name}", rows=rows)


def struct_of(kind: str) -> Block:
    """A struct of one number, which is called by its type."""
    return Block("struct", kind, {"size": str(SIZES[kind])}, [Row("0", kind, [kind])])


def messages_of(block: Block) -> Block:
    """Message types as a set: what stands behind the header is a head and attributes."""
    rows = [Row(it.value, it.name, ["message", *it.words]) for it in block.rows]
    return Block("set", MESSAGES, block.said, rows)


def made(blocks: Blocks) -> Iterator[Block]:
    """The blocks that rows need beside those that they name."""
    yield messages_of(blocks["families"])
    for row in (it for block in blocks.values() for it in block.rows if it.words):
        kind, enum, bits = row.words[0], row.said("enum"), row.said("bits")
        if kind == "indexed-array":
            yield each_of(row)
        if kind == "binary" and row.said("sub-type") and row.said("nested-attributes"):
            yield struct_of(row.said("sub-type") or "")
        if kind == "bitfield32" and enum:
            yield bitfield_of(blocks["nla-bitfield32"], enum)
        if bits:
            yield bits_of(blocks[bits])


def known(blocks: Blocks) -> Known:
    every = {**blocks, **{it.name: it for it in made(blocks)}}
    rows = [it for block in every.values() if block.sort != "sub-message" for it in block.rows]
    used = {*NAMED.values(), *(row.said("enum") for row in rows)}
    tables: Dict[str, List[str]] = {"traffic": []}
    for it in every.values():
        sort = TABLES.get(it.sort, it.sort)
        if it.sort in ("enum", "flags") and it.name not in used and not it.name.startswith(BITS):
            continue
        is_traffic = sort == "set" and it.name.startswith(TRAFFIC)
        tables.setdefault("traffic" if is_traffic else sort, []).append(it.name)
    tables["set"] += tables.pop("traffic")
    places = {it: at for found in tables.values() for at, it in enumerate(found)}
    return Known(every, places)


class Speller(NamedTuple):
    """Spells what a payload is, as crates/nl_values does."""

    known: Known
    # The attributes of the set in which a row stands, by their names.
    beside: Dict[str, int]

    def block(self, kind: str, name: Optional[str]) -> str:
        return f"{kind}({self.known.places[name or '']})"

    def number(self, kind: str, row: Row) -> str:
        is_network = BIG in row.words and SIZES[kind] > 1
        return f"{'Network' if is_network else ''}{'I' if kind[0] == 's' else 'U'}{kind[1:]}"

    def plain(self, kind: str, row: Row) -> str:
        """A number."""
        number = self.number(kind, row)
        if row.said("display-hint") == "ipv4":
            return "Ipv4"
        if row.said("enum"):
            sort = "Bits" if "enum-as-flags" in row.words else "Value"
            return f"{sort}(Number::{number}, {self.block('Names', row.said('enum'))})"
        if row.said("bits"):
            name = f"{BITS}{row.said('bits')}"
            return f"Bits(Number::{number}, {self.block('Names', name)})"
        return number.replace("Network", "NETWORK_")

    def headed(self, struct: Optional[str], nested: Optional[str]) -> str:
        return f"Headed({self.block('Struct', struct)}, {self.block('Set', nested)})"

    def binary(self, row: Row) -> str:
        struct, nested, kind = (row.said(it) for it in ("struct", "nested-attributes", "sub-type"))
        if struct == "rtnexthop":
            return f"Hops({self.block('Set', nested)})"
        if nested:
            return self.headed(struct or kind, nested)
        if struct and self.known.blocks[struct].sort == "array":
            number = self.number(self.known.blocks[struct].said["type"], row)
            return f"Counters(Number::{number}, {self.block('Names', struct)})"
        if struct:
            sort = "Array" if "repeated" in row.words else "Fields"
            return f"{sort}({self.block('Struct', struct)})"
        if kind:
            return f"Series(Number::{self.number(kind, row)})"
        hint = ADDRESSES.get(row.said("display-hint") or "", "Bytes")
        return "Ipv4" if hint == "Ip" and row.said("len") == "4" else hint

    def selector(self, name: str) -> str:
        if name in FAMILIES:
            return "Selector::Family"
        if name in self.beside:
            return f"Selector::Beside({self.beside[name]})"
        sets = (it for it in self.known.blocks.values() if it.sort == "set")
        numbers = [it.number for block in sets for it in block.rows if it.name == name]
        if not numbers:
            raise Missing(f"{name} has no row")
        return f"Selector::Above({numbers[0]})"

    def format(self, row: Row) -> str:
        kind = row.words[0]
        if kind in SIZES:
            return self.plain(kind, row)
        if kind in ("nest", "indexed-array"):
            name = each_of(row).name if kind == "indexed-array" else row.said("nested-attributes")
            return f"List({self.block('Set', name)})"
        if kind == "message":
            return self.headed(row.said("head"), row.said("set"))
        if kind == "sub-message" and not row.said("struct"):
            choice = self.block("Choice", row.said("sub-message"))
            return f"Chosen({choice}, {self.selector(row.said('selector') or '')})"
        if kind == "bitfield32":
            enum = row.said("enum")
            name = f"bitfield of {enum}" if enum else "nla-bitfield32"
            return f"Fields({self.block('Struct', name)})"
        return SIMPLE.get(kind) or (self.binary(row) if kind == "binary" else "Bytes")

    def chosen(self, row: Row) -> str:
        """What a row of a sub-message says."""
        struct, of = row.said("struct"), row.said("set")
        if "binary" in row.words:
            return self.binary(row)
        if struct and of:
            return self.headed(struct, of)
        if struct:
            return f"Fields({self.block('Struct', struct)})"
        return f"List({self.block('Set', of)})" if of else "Flag"


class Text:
    """The names of a table, one behind the other, and where the next one begins."""

    def __init__(self) -> None:
        self.end = 0

    def put(self, name: str) -> str:
        """A name with its place."""
        at, self.end = self.end, self.end + len(name)
        return f'{at} "{name}"'


def laid_out(title: str, items: List[str]) -> str:
    """A block on as few lines as it has room on, with a comment."""
    lines = [""]
    for item in items:
        if lines[-1] and len(lines[-1]) + 1 + len(item) > WIDTH - 4:
            lines.append("")
        lines[-1] += f" {item}" if lines[-1] else item
    if len(lines) == 1 and len(lines[0]) + len(title) + 8 <= WIDTH:
        return f"    {lines[0]} // {title}\n"
    return f"    // {title}\n" + "".join(f"    {it}\n" for it in lines)


class Lines:
    """The lines of a table, block after block: each has a number, and the place of its rows."""

    def __init__(self, at: int, rows: int) -> None:
        self.text, self.at, self.rows, self.lines = Text(), at, rows, ""

    def put(self, block: Block, front: str, rows: List[str]) -> None:
        first, last = f"{{ {front} {self.rows} {len(rows)};", f"{rows[-1]} }}"
        items = [first, *(f"{it}," for it in rows[:-1]), last]
        self.lines += laid_out(f"{self.at} {block.name}", items)
        self.at, self.rows = self.at + 1, self.rows + len(rows)


def cut(row: Row, block: Block) -> str:
    return row.name[len(block.said.get("prefix", "")):]


def rows_of(block: Block, spell: Speller, text: Text) -> Iterator[str]:
    """The attributes of a set. A number without one has no name, and is bytes."""
    number = block.rows[0].number
    for row in block.rows:
        for _ in range(number, row.number):
            yield f'{text.put("")} Bytes'
        yield f"{text.put(cut(row, block))} {spell.format(row)}"
        number = row.number + 1


def size_of(row: Row) -> int:
    """How many bytes a field has. A last one may have all that are left, which is said by 0."""
    return int(row.said("len") or SIZES.get(row.words[0], 0))


def sets(blocks: Blocks) -> Dict[bool, str]:
    """The sets of links and the like, and those of traffic control behind them."""
    found, lines = known(blocks), Lines(0, 0)
    parts: Dict[bool, str] = {}
    for is_traffic in (False, True):
        lines.lines = ""
        for block in found.table("set", "each", is_traffic=is_traffic):
            spell = Speller(found, {row.name: row.number for row in block.rows})
            front = f"{lines.text.put(block.said['prefix'])} {block.rows[0].value}"
            lines.put(block, front, list(rows_of(block, spell, lines.text)))
        parts[is_traffic] = lines.lines
    return parts


def structs(blocks: Blocks) -> str:
    found, lines = known(blocks), Lines(0, 0)
    spell = Speller(found, {})
    for block in (it for it in found.blocks.values() if it.sort == "struct"):
        rows = [it for it in block.rows if it.words[0] != "pad"]
        fields = [f"{lines.text.put(it.name)} {it.value} {size_of(it)} {spell.format(it)}"
                  for it in rows]
        size = block.said["size"]
        lines.put(block, f"{size} {size if size_of(rows[-1]) else LONGEST}", fields)
    return lines.lines


def number_in(row: Row, block: Block) -> int:
    """The number of a name, as an unsigned one of 32 bits, or as a place in an array."""
    first = block.rows[0].number if block.sort == "array" else 0
    return (row.number - first) % 2**32


def names(blocks: Blocks) -> str:
    """The names of values and bits. The first name of a number counts."""
    found, lines = known(blocks), Lines(0, 0)
    every = (it for it in found.blocks.values() if it.sort in ("enum", "flags", "array"))
    for block in (it for it in every if it.name in found.places):
        front = lines.text.put(block.said.get("prefix", ""))
        kept: Dict[int, Row] = {}
        for row in (it for it in block.rows if "unnamed" not in it.words):
            kept.setdefault(number_in(row, block), row)
        lines.put(block, front, [
            f"{lines.text.put(cut(row, block))} {number}" for number, row in kept.items()])
    return lines.lines


def choices(blocks: Blocks) -> str:
    found, lines = known(blocks), Lines(0, 0)
    spell = Speller(found, {})
    for block in (it for it in blocks.values() if it.sort == "sub-message"):
        enums = [it for it in block.said.get("enum", "").split(",") if it]
        values = {row.name: row.value for it in enums for row in blocks[it].rows}
        other = next((spell.chosen(it) for it in block.rows if it.name == "*"), "Bytes")
        rows: List[str] = []
        for row in (it for it in block.rows if it.name != "*"):
            label = lines.text.put("" if enums else row.name)
            rows.append(f"{label} {values.get(row.name, 0)} {spell.chosen(row)}")
        lines.put(block, f"{'Number' if enums else 'Text'} {other},", rows)
    return lines.lines


def table(lines: Callable[[Blocks], str]) -> Writer:
    """Puts lines into the macro that holds a table."""
    return lambda text, blocks: put_lines(
        r"(?<= \$next! \{ \$\(\$rest\)\*\n).*?(?=^    \} \};$)", text, lines(blocks))


def counted(lines: str) -> List[int]:
    """How many blocks these lines have, and how many rows."""
    rows = [int(it) for it in re.findall(r"(\d+);", lines)]
    return [len(rows), sum(rows)]


def counts(text: str, blocks: Blocks) -> str:
    """How many blocks and rows the tables have, in their order there."""
    parts = sets(blocks)
    of = "".join(parts.values()), structs(blocks), names(blocks), choices(blocks)
    many = iter([it for lines in of for it in counted(lines)])
    table = re.compile(r"^pub\(crate\) static \w+: \[\w+; (?P<number>\d+)\]", re.M)
    return numbered(table, text, lambda _: next(many))


def constants(kind: str, of: Dict[str, str]) -> Writer:
    """The blocks of a kind that have a constant: their names by its name."""
    pattern = re.compile(rf"pub const (?P<name>\w+): {kind} = {kind}\((?P<number>\d+)\);")

    def write(text: str, blocks: Blocks) -> str:
        places = known(blocks).places
        return numbered(pattern, text, lambda it: places[of[it["name"]]])

    return write


SETS = {**{it.name.upper(): it.set for it in CONTEXTS}, **FURTHER}
FOLDER = "crates/nl_values/src"
FILES: Dict[str, Writer] = {
    f"{FOLDER}/set.rt": constants("Set", SETS),
    f"{FOLDER}/names.rt": constants("Names", NAMED),
    f"{FOLDER}/tables/mod.rt": counts,
    f"{FOLDER}/tables/links.rt": table(lambda blocks: sets(blocks)[False]),
    f"{FOLDER}/tables/traffic.rt": table(lambda blocks: sets(blocks)[True]),
    f"{FOLDER}/tables/structs.rt": table(structs),
    f"{FOLDER}/tables/names.rt": table(names),
    f"{FOLDER}/tables/choices.rt": table(choices),
}
