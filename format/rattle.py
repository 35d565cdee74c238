"""What the code in crates/ says of rows, as `rt fmt` lays it out: constants, whose comments stay;
the tables of names; and message types. A table has the constant of a number where the file has it.
"""
import re
from typing import Dict, List, Match, Tuple

from named import BEHIND, BITS, CONTEXTS, Blocks, Context, Writer
from named import controls, families, first_types, named, numbered, put_in, put_lines, size
from rows import Row

# A constant, which may have a name of the kernel's.
CONSTANT = r"^(?:pub(?:\(crate\))? )?const (?P<name>[A-Z][A-Z0-9_]*): u\d+ = (?P<number>\w+);"
# The most characters of a list on one line.
SHORT = 60
STYLES = {"u8": "U8", "u16": "U16", "u32": "U32", "string": "Text"}


def style(row: Row) -> str:
    """How printed text shows the payload. One that holds others is read as bytes."""
    if row.said("display-hint") == "ipv4":
        return "Address"
    in_network_order = "Network" if "byte-order=big-endian" in row.words else ""
    return in_network_order + STYLES.get(row.words[0], "Hex")


def listed(items: List[str], end: str = "") -> str:
    """Items on one line where they have room, with this behind the last, or each on its own."""
    line = ", ".join(items) + end
    return line if len(line) <= SHORT else "\n" + "".join(f"    {it},\n" for it in items)


def rows_of(it: Context, is_text: bool, text: str, blocks: Blocks) -> List[Tuple[str, Row]]:
    """The attributes whose payload is read, or the others, by what stands for their numbers."""
    prefix, known = blocks[it.set].said["prefix"], set(re.findall(r"\w+", text))
    rows = [row for row in named(blocks[it.set]) if ("text" in row.words) == is_text]
    names = [prefix + row.name for row in rows]
    return [(name if name in known else row.value, row) for name, row in zip(names, rows)]


def attributes(text: str, blocks: Blocks) -> str:
    """The tables of attributes whose payload is read."""
    for it in CONTEXTS:
        rows = rows_of(it, True, text, blocks)
        items = [f'({number}, "{row.name}", Style::{style(row)})' for number, row in rows]
        table = rf"(?<=const {it.name.upper()}: &\[Named<Style>\] = &\[).*?(?=\];$)"
        text = put_lines(table, text, listed(items))
    return text


def further(text: str, blocks: Blocks) -> str:
    """The tables of attributes whose payload is not read. None is empty."""
    for it in CONTEXTS:
        rows = rows_of(it, False, text, blocks)
        items = [f'({number}, "{row.name}", ())' for number, row in rows]
        front = rf"(?<=const {it.name.upper()}: &\[Named<\(\)>\] = &\[)"
        if items or re.search(front, text):
            text = put_lines(rf"{front}.*?(?=\];$)", text, listed(items))
    return text


def bits(text: str, blocks: Blocks) -> str:
    """The tables of bits. A macro puts the flags of all messages before others."""
    for name, words in BITS.items():
        items = [f"{it.name} = {it.value}" for it in named(blocks[name])]
        if name == "message-flags":
            lines = "".join(f"{'':12}{it},\n" for it in items)
            text = put_lines(r"(?<= {8}named_bits!\(\n).*?(?= +\$\(\$name)", text, lines)
            continue
        table = words.replace(" ", "_").upper()
        macro = "message" if name in BEHIND else "named"
        front = rf"(?<=const {table}: &\[BitName\] = {macro}_bits!\()"
        text = put_lines(rf"{front}.*?(?=\);$)", text, listed(items, ","))
    return text


def kernel(text: str, blocks: Blocks) -> str:
    """What the kernel's names begin with, and those of the types of netlink itself."""
    for it in CONTEXTS:
        prefix = blocks[it.set].said["prefix"]
        text = put_lines(rf'(?<= Ctx::{it.variant} => ")\w+(?=")', text, prefix)
    front = blocks["control"].said["prefix"]
    rows = (f'{row.value} => Some(("{front}", "{row.name}"))' for row in named(blocks["control"]))
    lines = "".join(f"{'':8}{row},\n" for row in rows)
    return put_lines(r'(?:^ {8}\d+ => Some\(\("\w+", "\w+"\)\),\n)+', text, lines)


def types(text: str, blocks: Blocks) -> str:
    """The numbers of the types of netlink itself. Which flags these have is not in the rows."""
    known = {it.of.lower(): it.row.number for it in controls(blocks)}
    row = re.compile(r'\((?P<number>\d+), (?:codes )?"(?P<name>[a-z]+)", ')
    return numbered(row, text, lambda it: known[it["name"]])


def family(text: str, blocks: Blocks) -> str:
    """The first message type of each family, a fourth of it, and whether it has a SET."""
    first = first_types(blocks)
    fourths = "".join(
        f"{'':12}{row.number // 4} => Some(Family::{of}),\n" for of, row in first.items())
    text = put_lines(r"(?:^ {12}\d+ => Some\(Family::\w+\),\n)+", text, fourths)
    setting = {it.of for it in families(blocks) if it.verb == "Set"}
    row = re.compile(r'(Family::(?P<of>\w+) => Row::of::<\w+>\()\d+, \w+, "\w+"')

    def arguments(found: Match[str]) -> str:
        of = found["of"]
        return f'{found[1]}{first[of].value}, {str(of in setting).lower()}, "{of.lower()}"'

    return put_in(row, text, arguments)


def form(text: str, blocks: Blocks) -> str:
    """An arm for each message type."""
    arms = [(it.row.value, it.of) for it in controls(blocks)]
    for it in families(blocks):
        arms.append((it.row.value, "Get" if it.verb == "Get" else f"Object(Family::{it.of})"))
    lines = "".join(f"{'':12}{number} => Form::{of},\n" for number, of in arms)
    return put_lines(r"(?:^ {12}\d+ => Form::[^\n]+,\n)+", text, lines)


def structs(text: str, blocks: Blocks) -> str:
    """How many bytes each field has of the structs whose bytes are shown."""
    parts = re.split(r"((?:const|fn|pub) \w+)", text)
    for at in range(1, len(parts), 2):
        struct = blocks.get(parts[at].split()[1].lower().replace("_", "-"))
        if struct and struct.sort == "struct":
            parts[at + 1] = sized(parts[at + 1], {it.name: size(it) for it in struct.rows})
    return "".join(parts)


def sized(text: str, sizes: Dict[str, int]) -> str:
    field = re.compile(r'\((?:codes )?"(?P<name>\w+)", (?P<number>\d+), ')
    return numbered(field, text, lambda it: sizes[it["name"]])


FILES: Dict[str, Writer] = {
    "crates/nl_route/src/family.rt": family,
    "crates/nl_frame/src/form.rt": form,
    "crates/rtnl/src/names/families.rt": attributes,
    "crates/rtnl/src/names/further.rt": further,
    "crates/rtnl/src/names/flags.rt": bits,
    "crates/rtnl/src/names/kernel.rt": kernel,
    "crates/rtnl/src/names/types.rt": types,
    "crates/rtnl/src/bytes/structs.rt": structs,
}
