"""The tables of attributes and of bits in docs/FORMAT.md."""
import re
from typing import Dict, Iterator

from named import BEHIND, BITS, CONTEXTS, Blocks, Writer, named, put_lines
from rows import Row

FORMS = {"u8": "`u8`", "u16": "`u16`", "u32": "`u32`", "string": "`text`", "nest": "`list`"}


def form(row: Row) -> str:
    """How printed text shows the payload, or - where it has no name for the attribute."""
    if "text" not in row.words:
        return "-"
    if row.said("display-hint") == "ipv4":
        return "`ipv4` or `ipv6`"
    if row.said("struct") == "rtnexthop":
        return "`hops`"
    in_network_order = ", in network order" if "byte-order=big-endian" in row.words else ""
    return FORMS.get(row.words[0], "`hex`") + in_network_order


def attributes(blocks: Blocks) -> Iterator[str]:
    for it in CONTEXTS:
        front = f"| {it.where}, `{blocks[it.set].said['prefix']}` |"
        for row in named(blocks[it.set]):
            yield f"{front} {row.value} | `{row.name}` | {form(row)} |\n"


def bits(blocks: Blocks) -> Iterator[str]:
    for name, words in BITS.items():
        front = f"| {words} | {'message flags, and ' if name in BEHIND else ''}"
        yield f"{front}{', '.join(f'`{it.name}` {it.value}' for it in named(blocks[name]))} |\n"


TABLES = {"| where it stands | number | name | form |": attributes, "| number | its bits |": bits}


def page(text: str, blocks: Blocks) -> str:
    for head, lines in TABLES.items():
        table = rf"(?<=^{re.escape(head)}\n)\|[-|]+\n(?:\|[^\n]*\n)+"
        rule = f"|{'---|' * (head.count('|') - 1)}\n"
        text = put_lines(table, text, rule + "".join(lines(blocks)))
    return text


FILES: Dict[str, Writer] = {"docs/FORMAT.md": page}
