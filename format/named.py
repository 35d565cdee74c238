"""What rtnl has a name for, of the rows: attributes, bits and message types, which stand in
crates/, in packages and on pages. And how a number or lines are put into a text.
"""
import re
from typing import Callable, Dict, List, Match, NamedTuple, Pattern, Tuple

from rows import Block, Row

Blocks = Dict[str, Block]
# Takes the text of a file, and gives it with what the rows say.
Writer = Callable[[str, Blocks], str]
SIZES = {f"{sign}{8 * size}": size for sign in "us" for size in (1, 2, 4, 8)}


class Missing(LookupError):
    """A name that has no row, or a file that lacks a table."""


class Context(NamedTuple):
    """Where attributes stand: their set, the words of docs/FORMAT.md, and the name in crates/."""

    set: str
    where: str
    name: str

    @property
    def variant(self) -> str:
        return self.name.title().replace("_", "")


CONTEXTS = [
    Context("link-attrs", "a link", "link"),
    Context("linkinfo-attrs", "`LINKINFO` of a link", "link_info"),
    Context("addr-attrs", "an address", "addr"),
    Context("route-attrs", "a route", "route"),
    Context("rta-metrics", "`METRICS` of a route", "metrics"),
    Context("neighbour-attrs", "a neighbour", "neigh"),
    Context("fib-rule-attrs", "a rule", "rule"),
]
# The flags whose bits have names, and the words for them; with a _ between these in crates/.
BITS = {
    **{"message-flags": "message flags", "get-flags": "get flags", "new-flags": "new flags"},
    **{"error-flags": "error flags", "ifinfo-flags": "link flags"},
    **{"neighbour-states": "neigh states", "neighbour-flags": "neigh flags"},
    **{"next-hop-flags": "hop flags"},
}
# Those that stand behind the flags of all messages.
BEHIND = "get-flags", "new-flags", "error-flags"


class Message(NamedTuple):
    """A message type: its row, its verb, as New, and of what, as Link. One of netlink itself has
    no verb."""

    row: Row
    verb: str
    of: str


def named(block: Block) -> List[Row]:
    """The rows that rtnl has a name for, whose prefix is left out."""
    cut = len(block.said["prefix"])
    kept = (it for it in block.rows if "unnamed" not in it.words)
    return [Row(it.value, it.name[cut:], it.words) for it in kept]


def controls(blocks: Blocks) -> List[Message]:
    """The message types of netlink itself."""
    return [Message(it, "", it.name.title()) for it in named(blocks["control"])]


def families(blocks: Blocks) -> List[Message]:
    """The message types of the families that have a name and a head in crates/."""
    kept = [it for it in named(blocks["families"]) if "text" in it.words]
    return [Message(it, it.name[:3].title(), it.name[3:].title()) for it in kept]


def first_types(blocks: Blocks) -> Dict[str, Row]:
    """The row of the first message type of each family, as Link."""
    return {it.of: it.row for it in families(blocks) if it.verb == "New"}


def size(row: Row) -> int:
    """How many bytes a field has."""
    return int(row.said("len") or SIZES[row.words[0]])


def numbers(blocks: Blocks) -> Callable[[str], int]:
    """What gives the number of a name of the kernel's."""
    blocks_of_names = (block for block in blocks.values() if block.sort != "struct")
    known = {it.name: it for block in blocks_of_names for it in block.rows if it.value}

    def number(name: str) -> int:
        if name not in known:
            raise Missing(f"{name} has no row")
        return known[name].number

    return number


def like(old: str, number: int) -> str:
    """A number in the notation of another: in hexadecimal, or with underscores."""
    if old.startswith("0x"):
        return f"0x{number:0{len(old) - 2 if old.startswith('0x0') else 0}x}"
    return f"{number:_}" if "_" in old else str(number)


def numbered(pattern: Pattern[str], text: str, number: Callable[[Match[str]], int]) -> str:
    """A text in which each match has the number that belongs there, at its group `number`."""

    def put(found: Match[str]) -> str:
        begin, end = (it - found.start() for it in found.span("number"))
        return found[0][:begin] + like(found["number"], number(found)) + found[0][end:]

    return put_in(pattern, text, put)


def constants(pattern: Pattern[str], fronts: Tuple[str, ...]) -> Writer:
    """Constants, of which those with the kernel's names begin with one of these."""

    def write(text: str, blocks: Blocks) -> str:
        number = numbers(blocks)
        return numbered(pattern, text, lambda it: (
            number(it["name"]) if it["name"].startswith(fronts) else int(it["number"], 0)))

    return write


def put_in(pattern: Pattern[str], text: str, put: Callable[[Match[str]], str]) -> str:
    """A text with something else for each match, of which there is one or more."""
    text, count = pattern.subn(put, text)
    if not count:
        raise Missing(f"nothing is found by {pattern.pattern}")
    return text


def put_lines(pattern: str, text: str, lines: str) -> str:
    """A text with other lines for those that a pattern finds."""
    return put_in(re.compile(pattern, re.M | re.S), text, lambda found: lines)
