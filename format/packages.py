"""The constants of the packages for Go, Python and Rust, whose groups, comments and other names
stay: a group of attributes gets each row of its set, and else a name gets its number.
"""
import re
import textwrap
from typing import Callable, Dict, Match

from named import CONTEXTS, Blocks, Writer, named, numbered, numbers


def go(names: Dict[str, str]) -> str:
    width = max(map(len, names))
    return "".join(f"\t{name:<{width}} = {number}\n" for name, number in names.items())


def python(names: Dict[str, str]) -> str:
    return "".join(f"{name}: Final = {number}\n" for name, number in names.items())


def rust(names: Dict[str, str]) -> str:
    """Lines that part no name from its number."""
    text = "  ".join(f"{name}~{number}" for name, number in names.items())
    return textwrap.indent(textwrap.fill(text, 88), " " * 8).replace("~", " ") + "\n"


class Package:
    """A language: what a group of decimal constants is, what a constant, and how to write one."""

    def __init__(self, group: str, constant: str, lines: Callable[[Dict[str, str]], str]) -> None:
        self.group, self.constant = re.compile(group, re.M), re.compile(constant, re.M)
        self.lines = lines

    def __call__(self, text: str, blocks: Blocks) -> str:
        sets: Dict[str, Dict[str, str]] = {}
        for block in (blocks[it.set] for it in CONTEXTS):
            names = {block.said["prefix"] + it.name: it.value for it in named(block)}
            sets.update(dict.fromkeys(names, names))

        def group(found: Match[str]) -> str:
            first = found[0].split()[0].rstrip(":")
            return self.lines(sets[first]) if first in sets else found[0]

        number, text = numbers(blocks), self.group.sub(group, text)
        return numbered(self.constant, text, lambda found: number(found["name"]))


NAME, NUMBER = r"(?P<name>[A-Z]\w+)", r"(?P<number>\w+)"
GO = Package(r"(?<=^const \(\n)(?:\t\w+ += \d+\n)+", rf"^\t{NAME} +(?:\w+ )?= {NUMBER}$", go)
PYTHON = Package(r"(?:^\w+: Final = \d+\n)+", rf"^{NAME}: Final = {NUMBER}$", python)
RUST = Package(r"(?:^ {8}[A-Z][A-Z0-9_ ]+\n)+", rf"(?<=  ){NAME} {NUMBER}(?=  |$)", rust)
FILES: Dict[str, Writer] = {
    "bindings/go/attributes.go": GO,
    "bindings/go/numbers.go": GO,
    "bindings/python/src/rtnl/constants.py": PYTHON,
    "bindings/rust/rtnl/src/constants.rs": RUST,
}
