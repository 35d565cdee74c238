"""What the definitions in crates/ say of rows. They have numbers and names of their own, as the
code has, so that a proof refuses one that was changed in the code alone.
"""
import re
from typing import Dict, Iterable, Set

import rattle
from named import BEHIND, BITS, CONTEXTS, Blocks, Writer
from named import controls, families, first_types, named, numbered, put_in, put_lines

# A number with a name, which may be the kernel's.
CONSTANT = r"^(?P<name>[A-Z][A-Z0-9_]*) = (?P<number>\w+)$"
# The styles, as their type lists them.
ORDER = "U8", "U16", "U32", "NetworkU16", "Text", "Address", "Hex"
# The lines that choose by a number.
CHOICE = r"(?:^    if n == [^\n]+\n)+"


def table(name: str, items: Iterable[str], text: str, front: str = "") -> str:
    """A text with these items in a list, behind another list."""
    lines = f"    {front}" + "\n    ∷ ".join(items)
    place = rf"(?<=^{name} =\n)    (?:[^\n]+\n)*?[^\n]+(?= ∷ \[\]$)"
    return put_lines(place, text, lines)


def choice(items: Dict[str, str], otherwise: str) -> str:
    """What stands under each number, or something else."""
    lines = " (\n".join(f"    if n == {number} then {it} else" for number, it in items.items())
    return f"{lines} {otherwise}{')' * (len(items) - 1)}\n"


def attributes(*contexts: str) -> Writer:
    """The lists of attributes of these contexts whose payload is read, and the styles in them."""

    def write(text: str, blocks: Blocks) -> str:
        styles: Set[str] = set()
        for it in (it for it in CONTEXTS if it.name in contexts):
            rows = rattle.rows_of(it, True, text, blocks)
            items = (
                f'({number}, codes "{row.name}", {rattle.style(row)})' for number, row in rows)
            text = table(f"{it.name}_rows", items, text)
            styles |= {rattle.style(row) for _, row in rows}
        words = ", ".join(sorted(styles, key=ORDER.index))
        return put_lines(r"(?<=Style\.TheVariants\.\{)[^}]+", text, words)

    return write


def further(text: str, blocks: Blocks) -> str:
    """The lists of attributes whose payload is not read. None is empty."""
    for it in CONTEXTS:
        name, rows = f"further_{it.name}", rattle.rows_of(it, False, text, blocks)
        if rows or f"{name} =" in text:
            items = (f'({number}, codes "{row.name}", tt)' for number, row in rows)
            text = table(name, items, text)
    return text


def bits(text: str, blocks: Blocks) -> str:
    for name, words in BITS.items():
        items = (f'(codes "{it.name}", {it.value})' for it in named(blocks[name]))
        front = "message_flags ++ " if name in BEHIND else ""
        text = table(words.replace(" ", "_"), items, text, front)
    return text


def form(text: str, blocks: Blocks) -> str:
    """What the types of netlink itself say of a body."""
    forms = {it.row.value: it.of for it in controls(blocks)}
    return put_lines(CHOICE, text, choice(forms, "Other"))


def kernel(text: str, blocks: Blocks) -> str:
    """What the kernel's names begin with, and those of the types of netlink itself."""
    for it in CONTEXTS:
        prefix = blocks[it.set].said["prefix"]
        text = put_lines(rf'(?<=^prefix_of {it.variant} = codes ")\w+', text, prefix)
    names = {it.value: f'Some (codes "{it.name}")' for it in blocks["control"].rows}
    return put_lines(CHOICE, text, choice(names, "None"))


def types(text: str, blocks: Blocks) -> str:
    """The message types of all families, a line for each family."""
    lines: Dict[str, str] = {}
    for it in families(blocks):
        front = f"{lines[it.of]} ∷ " if it.of in lines else ""
        lines[it.of] = f"{front}({it.row.value}, says {it.verb} {it.of})"
    return table("types", lines.values(), text)


def family(text: str, blocks: Blocks) -> str:
    """The size of the head of each family, its first message type, and its name."""
    first = first_types(blocks)
    sizes = {of: int(blocks[row.said("head") or ""].said["size"]) for of, row in first.items()}
    place = r"^row (?P<of>\w+) = .*; {} = (?P<number>\d+);"
    text = numbered(re.compile(place.format("size"), re.M), text, lambda it: sizes[it["of"]])
    text = numbered(re.compile(place.format("new"), re.M), text, lambda it: first[it["of"]].number)
    name = re.compile(r'(^row (?P<of>\w+) = .*; name = codes ")\w+', re.M)
    return put_in(name, text, lambda it: it[1] + it["of"].lower())


FILES: Dict[str, Writer] = {
    "crates/nl_route/specs/Types.antt": types,
    "crates/nl_route/specs/Families.antt": family,
    "crates/nl_frame/specs/Form.antt": form,
    "crates/rtnl/specs/Link.antt": attributes("link", "link_info"),
    "crates/rtnl/specs/Addr.antt": attributes("addr"),
    "crates/rtnl/specs/Route.antt": attributes("route", "metrics"),
    "crates/rtnl/specs/Neigh.antt": attributes("neigh"),
    "crates/rtnl/specs/Rule.antt": attributes("rule"),
    "crates/rtnl/specs/Further.antt": further,
    "crates/rtnl/specs/NamedBits.antt": bits,
    "crates/rtnl/specs/Kernel.antt": kernel,
    "crates/rtnl/specs/Structs.antt": rattle.structs,
    "crates/rtnl/specs/Types.antt": rattle.types,
}
