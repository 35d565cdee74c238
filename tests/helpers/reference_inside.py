"""A second reading of how `--bytes` goes into payloads, as docs/FORMAT.md says it, from the rows of
format/: what a payload means is the say of reference_data.py, and here its bytes are cut by that.

A depth is the level of attributes in which bytes lie, or BODY for those of a message itself.
"""
from typing import Dict, Iterator, List, NamedTuple, Optional, Tuple

import reference
import reference_data
from reference import ATTRIBUTE, NESTED, NET
from reference_data import (
    BLOCKS, LEVELS, MESSAGES, NAMES, SETS, SIZES, Attributes, Block, Kinds, Reader, Row,
)

BODY = -1
ATTRIBUTE_FLAGS = {"NESTED": NESTED, "NET_BYTEORDER": NET}

# A value as text and in JSON.
Said = Tuple[Optional[str], object]
NOTHING_SAID: Said = (None, None)


class Piece(NamedTuple):
    """The next bytes, so many: how deep they lie, their name and their value; padding has none."""

    size: int
    depth: int
    name: str
    said: Said = NOTHING_SAID
    is_padding: bool = False


def kernel_name(of: Attributes, number: int) -> Optional[str]:
    """What the kernel's headers call an attribute of a set."""
    return of.row(number).name or None


def type_said(of: Attributes, kind: int) -> Said:
    """The type of an attribute of a set, with its flags."""
    number = kind & 0x3FFF
    name = kernel_name(of, number)
    flags = [word for word, bit in ATTRIBUTE_FLAGS.items() if kind & bit]
    return " ".join(filter(None, [str(number), name, *flags])), name or number


def message_type_said(kind: int) -> Said:
    name = reference.TYPES.get(kind) or kernel_name(MESSAGES, kind)
    return (f"{kind} {name}", name) if name else (str(kind), kind)


def said_of(word: str, value: object) -> Said:
    """What has no parts, by the word of its meaning."""
    if isinstance(value, dict):
        number, names = value.values()
        names = ",".join(names) or "-" if word == "bits" else names
        return f"{number} {names}" if names else str(number), value
    if word == "text" and not is_printed(str(value)):
        return None, value
    return f"{word} {value}" if word in ("text", "ipv4", "ipv6") else str(value), value


def is_printed(text: str) -> bool:
    """Whether a text is printed as one: what else stands in it could mean something to a terminal."""
    return bool(text) and all(" " <= it <= "~" for it in text)


def padding(depth: int, size: int) -> Iterator[Piece]:
    yield Piece(size, depth, "padding", is_padding=True)


def pair_of(row: Row) -> Block:
    """A bitfield, as a struct: its value and which bits of it count."""
    words = [it for it in row.words[1:] if it.startswith("enum=")]
    words = ["u32", *words, *["enum-as-flags"] * len(words)]
    rows = [Row("0", "value", words), Row("4", "selector", words)]
    return Block("struct", "bitfield32", {"size": "8"}, rows)


class Divider:
    """What stands in payloads of a message of this byte order and this address family."""

    def __init__(self, order: str, family: bytes):
        self.order, self.reader = order, Reader(order, family)

    def payload(
        self, depth: int, name: str, row: Row, payload: bytes, kind: bytes = b"", beside=(),
        levels: int = LEVELS, plain: Said = NOTHING_SAID, is_plain: bool = False,
    ) -> Iterator[Piece]:
        """A payload under a name, by its row and its kind, in a list of these attributes, where so
        many levels may be shown. What has no known meaning is said in a plain way."""
        meaning = self.reader.meaning(row, payload, kind, beside, levels)
        if is_plain or meaning is None:
            yield Piece(len(payload), depth, name, plain)
            return
        row, (word, value) = reference_data.chosen(row, kind, self.order), meaning
        if word == "list":
            yield from self.list(depth + 1, self.set_of(row), payload, beside, levels)
        elif word == "headed":
            yield from self.headed(depth, row, payload, beside, levels)
        elif word == "array":
            yield from self.array(depth, BLOCKS[row.said("struct") or ""], payload, levels)
        elif word == "fields":
            is_pair = row.words[0] == "bitfield32"
            block = pair_of(row) if is_pair else BLOCKS[row.said("struct") or ""]
            yield from self.fields(depth, block, payload, levels)
        elif isinstance(value, list):
            size = SIZES[row.said("sub-type") or ""]
            yield from (Piece(size, depth, name, (str(it), it)) for it in value)
        elif word == "counters" and isinstance(value, dict):
            yield from self.counters(depth, name, BLOCKS[row.said("struct") or ""], value)
        else:
            yield Piece(len(payload), depth, name, said_of(word, value))

    def set_of(self, row: Row) -> Attributes:
        if row.words[0] == "indexed-array":
            return reference_data.alike(row)
        return SETS[row.said("nested-attributes") or ""]

    def counters(
        self, depth: int, name: str, block: Block, found: Dict[str, object]
    ) -> Iterator[Piece]:
        """Numbers by the names of their places; one that has none is called as all of them."""
        known = NAMES[block.name].values()
        for place, number in found.items():
            called = place if place in known else name
            yield Piece(SIZES[block.said["type"]], depth, called, (str(number), number))

    def fields(self, depth: int, block: Block, payload: bytes, levels: int) -> Iterator[Piece]:
        """The fields of a struct whose bytes are there, and padding between."""
        place = 0
        for field in (it for it in block.rows if it.words[0] != "pad"):
            size = reference_data.size_of(field)
            end = field.number + size if size else len(payload)
            if field.number <= end <= len(payload):
                part = payload[field.number : end]
                yield from padding(depth, field.number - place)
                yield from self.payload(depth, field.name, field, part, levels=levels - 1)
                place = end
        yield from padding(depth, len(payload) - place)

    def array(self, depth: int, block: Block, payload: bytes, levels: int) -> Iterator[Piece]:
        size = int(block.said["size"])
        for place in range(0, len(payload), size):
            yield from self.fields(depth, block, payload[place : place + size], levels)

    def headed(self, depth: int, row: Row, payload: bytes, beside, levels: int) -> Iterator[Piece]:
        """A struct, and attributes behind it."""
        name = row.said("struct")
        block = BLOCKS[name] if name else reference_data.struct_of(row.said("sub-type") or "")
        front = reference.aligned(int(block.said["size"]))
        yield from self.fields(depth, block, payload[:front], levels)
        inside = SETS[row.said("nested-attributes") or ""]
        yield from self.list(depth + 1, inside, payload[front:], beside, levels)

    def list(
        self, depth: int, inside: Attributes, payload: bytes, outer, levels: int
    ) -> Iterator[Piece]:
        """The attributes of a list, with their headers and the padding between."""
        reading = reference.Reading(payload, self.order)
        found = [*reading.visited(0, len(payload), ATTRIBUTE)]
        parts = [(kind & 0x3FFF, payload[at + 4 : end]) for at, end, (kind,) in found]
        kinds, place = Kinds(self.reader.family, inside, parts, outer), 0
        for (at, end, (kind,)), (number, value) in zip(found, parts):
            row = inside.row(number)
            yield from padding(depth, at - place)
            yield Piece(2, depth, "rta_len", (str(end - at), end - at))
            yield Piece(2, depth, "rta_type", type_said(inside, kind))
            name = kernel_name(inside, number) or "payload"
            chooses = kinds.following(row)
            yield from self.payload(depth, name, row, value, chooses, parts, levels - 1)
            place = end
        yield from padding(depth, len(payload) - place)


def of_message(kind: int, payload: bytes, order: str) -> Iterator[Piece]:
    """The body of a message of a type that isn't typed, or what comes back of a request."""
    row = MESSAGES.row(kind)
    words = [f"struct={row.said('head')}", f"nested-attributes={row.said('set')}"]
    of = Row("", "", ["binary", *words]) if row.name else reference_data.UNKNOWN
    return Divider(order, payload[:1]).payload(BODY, "payload", of, payload)


def of_tail(flags: int, tail: bytes, order: str) -> Iterator[Piece]:
    """What stands at the end of an answer: attributes where its flags say so."""
    is_list = bool(flags & reference_data.ACK_TLVS)
    row = reference_data.EXTACK if is_list else reference_data.UNKNOWN
    return Divider(order, b"").payload(BODY, "tail", row, tail)


def of_answer(flags: int, code: int, length: int, kind: int, tail: bytes, order: str):
    """What stands behind the header of a request that is answered: its payload, where it comes
    back, and the end."""
    has_none = not code or flags & reference_data.CAPPED
    size = 0 if has_none else max(0, length - 16)
    echo, behind = tail[:size], tail[: reference.aligned(size)]
    yield from of_message(kind, echo, order)
    yield from padding(BODY, len(behind) - len(echo))
    yield from of_tail(flags, tail[len(behind) :], order)
