"""What the code and the definitions in crates/nl_route say of the heads of families: a field of a
head is a row. The names of fields and what they mean stand in the head's struct; what is read and
written of each, in the order of its rows, is written.
"""
import os
import re
from typing import Dict, List, Tuple

from named import Blocks, Missing, Writer, numbered, put_lines, size
from rows import Block, Row

CRATE = f"{os.path.dirname(os.path.dirname(os.path.realpath(__file__)))}/crates/nl_route"
# The families, and their structs.
HEADS = {
    "Link": "ifinfomsg",
    "Addr": "ifaddrmsg",
    "Route": "rtmsg",
    "Neigh": "ndmsg",
    "Rule": "fib_rule_hdr",
}
# How many bytes a head has.
SIZE = r"(?:const SIZE: usize = |ghost SIZE = \{ |\[(?:u8|0); |&bytes\[\.\.)(?P<number>\d+)"
TYPES = {"u8": "u8", "u16": "u16", "u32": "u32", "s32": "i32"}


def source(family: str) -> str:
    with open(f"{CRATE}/src/{HEADS[family]}.rt", encoding="utf-8") as file:
        return file.read()


def block_of(family: str, blocks: Blocks) -> Block:
    return blocks[HEADS[family].replace("_", "-")]


def fields(family: str, code: str, blocks: Blocks) -> List[Tuple[str, Row]]:
    """The fields by their names in the struct; a pad has none."""
    struct = re.search(rf"pub struct {family}Head \{{\n(.*?)^\}}", code, re.M | re.S)
    names = re.findall(r"^    pub (\w+):", struct[1] if struct else "", re.M)
    rows = block_of(family, blocks).rows
    if len(names) != sum(it.words[0] != "pad" for it in rows):
        raise Missing(f"the fields of {family}Head are not those of its rows")
    left = iter(names)
    return [("" if it.words[0] == "pad" else next(left), it) for it in rows]


def reading(row: Row) -> str:
    """What a field is read by."""
    of = TYPES[row.words[0]]
    return f"bytes[{row.value}]" if of == "u8" else f"order.read_{of}(&bytes[{row.value}..])"


def writing(name: str, row: Row, end: int) -> str:
    """The statement that writes a field of a head of so many bytes."""
    of, behind = TYPES[row.words[0]], row.number + size(row)
    if of == "u8":
        return f"bytes[{row.value}] = head.{name};"
    place = f"{row.value}..{behind if behind < end else ''}"
    return f"bytes[{place}].copy_from_slice(&order.{of}_bytes(head.{name}));"


def code(family: str) -> Writer:
    """The types of the fields, what is read and what is written, and how many bytes there are."""

    def write(text: str, blocks: Blocks) -> str:
        kept = [it for it in fields(family, text, blocks) if it[0]]
        for name, row in kept:
            text = put_lines(rf"(?<=^    pub {name}: )\w+", text, TYPES[row.words[0]])
        read = "".join(f"            {name}: {reading(row)},\n" for name, row in kept)
        text = put_lines(rf"(?<=^        {family}Head \{{\n).*?(?=^        \}})", text, read)
        end = int(block_of(family, blocks).said["size"])
        written = "".join(f"        {writing(*it, end)}\n" for it in kept)
        text = numbered(re.compile(SIZE), text, lambda _: end)
        return put_lines(r"(?:^        bytes\[[^\n]+\n)+", text, written)

    return write


def definition(family: str) -> Writer:
    """The fields of a head, and the head of such fields."""

    def write(text: str, blocks: Blocks) -> str:
        low, parts, values = family.lower(), [], []
        for at, (name, row) in enumerate(fields(family, source(family), blocks)):
            of = TYPES.get(row.words[0], "")
            sort = {"": "pad", "u8": "byte", "i32": "signed"}.get(of, "number")
            width = f" {size(row)}" if sort in ("pad", "number") else ""
            parts.append(f"{sort}{width}" + (f" h.{name}" if name else ""))
            if name:
                values.append(f"{name} = {'signed' if sort == 'signed' else 'value'}_at fs {at}")
        text = put_lines(
            rf"(?<=^{low}_fields h =)\s.*?(?= ∷ \[\]$)", text, f" {' ∷ '.join(parts)}")
        return put_lines(
            rf"(?<=^{low}_with fs = record \{{ ).*?(?= \}}$)", text, "; ".join(values))

    return write


FILES: Dict[str, Writer] = {
    **{f"crates/nl_route/src/{struct}.rt": code(it) for it, struct in HEADS.items()},
    **{f"crates/nl_route/specs/{it}.antt": definition(it) for it in HEADS},
}
