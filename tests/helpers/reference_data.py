"""A second reading of what payloads mean: from the rows of format/, as its README.md says what
they are, and by what docs/FORMAT.md says of `data` in JSON.

A meaning is a word for what a payload is, and the value of JSON. None is known where the bytes
don't fit what the rows say.
"""
import importlib.util
import sys
from types import ModuleType
from typing import Dict, List, NamedTuple, Optional, Tuple

import reference
from reference import ATTRIBUTE, ENDS, ROOT


def rows_of_format() -> ModuleType:
    """The module that reads the rows; in tests/ another one has its name."""
    spec = importlib.util.spec_from_file_location("rows_of_format", f"{ROOT}/format/rows.py")
    if not spec or not spec.loader:
        raise ImportError("format/rows.py is missing")
    found = sys.modules[spec.name] = importlib.util.module_from_spec(spec)
    spec.loader.exec_module(found)
    return found


ROWS = rows_of_format()
Block, Row, BLOCKS = ROWS.Block, ROWS.Row, ROWS.read()
SIZES = {f"{sign}{8 * size}": size for sign in "us" for size in (1, 2, 4, 8)}
# So many levels are shown in a payload, and so many attributes of a list have a kind.
LEVELS, CHOSEN = 8, 4
BIG = "byte-order=big-endian"
# The byte of the address family, as heads call it.
FAMILIES = "ifi_family", "rtm_family"
# The words of meanings that the value of another form says already.
PLAIN = "integer", "text", "ipv4", "ipv6"
SETS_OF_FAMILIES = {
    **{"link": "link-attrs", "addr": "addr-attrs", "route": "route-attrs"},
    **{"neigh": "neighbour-attrs", "rule": "fib-rule-attrs"},
}

# An attribute's number and its payload, and a meaning.
Part = Tuple[int, bytes]
Meaning = Optional[Tuple[str, object]]


class Attributes(NamedTuple):
    """A set: its name, what its names begin with, its rows by number, or the row of each."""

    name: str
    prefix: str
    rows: Dict[int, Row]
    each: Optional[Row]

    def row(self, number: int) -> Row:
        return self.each or self.rows.get(number) or UNKNOWN

    def called(self, number: int) -> Optional[str]:
        """What an attribute of this number is called."""
        return self.row(number).name[len(self.prefix) :] or None


UNKNOWN = Row("", "", ["binary"])
SETS = {
    name: Attributes(name, block.said["prefix"], {it.number: it for it in block.rows}, None)
    for name, block in BLOCKS.items()
    if block.sort in ("set", "messages")
}
MESSAGES, EXTACK = SETS["families"], Row("", "", ["nest", "nested-attributes=extack-attrs"])
NOTHING = Attributes("", "", {}, None)
# Flags of an answer: the request's payload isn't there, and attributes stand behind it.
CAPPED, ACK_TLVS = 0x100, 0x200


def alike(row: Row) -> Attributes:
    """The set of an indexed array."""
    words = [it for it in row.words[1:] if not it.startswith("sub-type=")]
    return Attributes("", "", {}, Row("", "", [row.said("sub-type") or "", *words]))


def of_family(sort: str) -> Attributes:
    return SETS[SETS_OF_FAMILIES[sort]]


# What a kind chooses.


def is_chosen(row: Row) -> bool:
    return row.words[0] == "sub-message" and not row.said("struct")


def as_payload(row: Row) -> Row:
    """What a row of a sub-message says, as that of an attribute."""
    if "binary" in row.words:
        return row
    of = {"struct": row.said("struct"), "nested-attributes": row.said("set")}
    words = [f"{key}={name}" for key, name in of.items() if name]
    if not words:
        return Row("", "", ["flag"])
    return Row("", "", ["binary" if of["struct"] else "nest", *words])


def chosen(row: Row, kind: bytes, order: str) -> Row:
    """What an attribute is by its kind."""
    if not is_chosen(row):
        return row
    block = BLOCKS[row.said("sub-message") or ""]
    enums = block.said["enum"].split(",") if "enum" in block.said else []
    values = {it.name: it.number for enum in enums for it in BLOCKS[enum].rows}
    cases = {values[it.name] if enums else it.name.encode(): it
             for it in block.rows if it.name != "*"}
    other = next((it for it in block.rows if it.name == "*"), None)
    key: object = kind.split(b"\0")[0]
    if enums:
        key = int.from_bytes(kind, ENDS[order]) if len(kind) in (1, 2, 4) else None
    found = cases.get(key, other)
    return as_payload(found) if found else UNKNOWN


def number_of(name: str) -> int:
    """The number of the attribute of this name."""
    return next(it.number for of in SETS.values() for it in of.rows.values() if it.name == name)


def only(parts: List[Part], number: int) -> bytes:
    """The payload of the only attribute of this number."""
    found = [payload for other, payload in parts if other == number]
    return found[0] if len(found) == 1 else b""


class Kinds:
    """The kinds of the attributes of a list of a set, one after another."""

    def __init__(self, family: bytes, of: Attributes, parts: List[Part], outer: List[Part]):
        self.family, self.of, self.parts, self.outer, self.left = family, of, parts, outer, CHOSEN

    def following(self, row: Row) -> bytes:
        """The kind of the next attribute, which has this row."""
        if not is_chosen(row) or not self.left:
            return b""
        self.left -= 1
        selector = row.said("selector") or ""
        if selector in FAMILIES:
            return self.family
        number = number_of(selector)
        is_beside = self.of.row(number).name == selector
        return only(self.parts if is_beside else self.outer, number)


# Numbers, their names, and bytes.


def named(block: Block) -> Dict[int, str]:
    """The names of numbers; the first of each."""
    found: Dict[int, str] = {}
    for row in block.rows:
        if "unnamed" not in row.words:
            found.setdefault(row.number % 2**32, row.name[len(block.said.get("prefix", "")) :])
    return found


NAMES = {
    name: named(block)
    for name, block in BLOCKS.items()
    if block.sort not in ("struct", "sub-message")
}


def bits_object(number: int, bits: Dict[int, str]) -> Dict[str, object]:
    return {"number": number, "names": [it for bit, it in bits.items() if number & bit == bit]}


def text_of(payload: bytes) -> Optional[str]:
    """A text without controls, with zero bytes behind it at most."""
    front, _, behind = payload.partition(b"\0")
    try:
        text = front.decode()
    except UnicodeDecodeError:
        return None
    is_plain = not any(ord(it) < 32 or 127 <= ord(it) < 160 for it in text)
    return text if is_plain and not behind.strip(b"\0") else None


def address_of(payload: bytes) -> Meaning:
    if len(payload) == 4:
        return "ipv4", ".".join(map(str, payload))
    if len(payload) == 16:
        return "ipv6", ":".join(payload[at : at + 2].hex() for at in range(0, 16, 2))
    return None


def pieces(payload: bytes, size: int) -> Optional[List[bytes]]:
    """Bytes as pieces of this size."""
    if len(payload) % size:
        return None
    return [payload[at : at + size] for at in range(0, len(payload), size)]


def attributes_in(region: bytes, order: str, level: int) -> Optional[List[Part]]:
    """The attributes of a list of this level, where it and all flagged ones in it are whole."""
    if level > LEVELS:
        return None
    reading = reference.Reading(region, order, LEVELS)
    try:
        reading.attributes(0, len(region), level, "plain")
    except reference.Fault:
        return None
    found = reading.visited(0, len(region), ATTRIBUTE)
    return [(kind & 0x3FFF, region[at + 4 : end]) for at, end, (kind,) in found]


# Payloads.


def size_of(field: Row) -> int:
    """How many bytes a field has; 0 of one that has all the rest."""
    return int(field.said("len") or SIZES.get(field.words[0], 0))


class Reader:
    """What payloads of a message of this byte order and this address family mean."""

    def __init__(self, order: str, family: bytes):
        self.order, self.family = order, family

    def meaning(self, row: Row, payload: bytes, kind=b"", beside=(), levels=LEVELS) -> Meaning:
        """What a payload means by its row and its kind, in a list of these attributes, where so
        many levels may be shown."""
        if not levels:
            return None
        row = chosen(row, kind, self.order)
        sort = row.words[0]
        if sort in SIZES:
            return self.of_number(row, payload)
        of = {"uint": self.of_uint, "string": self.of_string, "flag": self.of_flag}.get(sort)
        if of:
            return of(payload)
        if sort == "bitfield32":
            return self.of_bitfield(row, payload)
        if sort == "nest":
            of_set = SETS[row.said("nested-attributes") or ""]
            return self.of_list(of_set, payload, beside, levels)
        if sort == "indexed-array":
            return self.of_list(alike(row), payload, beside, levels)
        return self.of_binary(row, payload, beside, levels) if sort == "binary" else None

    def integer(self, row: Row, payload: bytes, sort: str) -> int:
        end = "big" if BIG in row.words else ENDS[self.order]
        return int.from_bytes(payload, end, signed=sort[0] == "s")

    def of_number(self, row: Row, payload: bytes) -> Meaning:
        sort = row.words[0]
        enum, bits = row.said("enum"), row.said("bits")
        if len(payload) != SIZES[sort]:
            return None
        if row.said("display-hint") == "ipv4":
            return address_of(payload)
        number = self.integer(row, payload, sort)
        size = 256 ** len(payload)
        if enum and "enum-as-flags" in row.words:
            return "bits", bits_object(number % size, NAMES[enum])
        if enum:
            return "value", {"number": number, "name": NAMES[enum].get(number % size)}
        if bits:
            return "bits", bits_object(number, {1 << at: it for at, it in NAMES[bits].items()})
        return "integer", number

    def of_uint(self, payload: bytes) -> Meaning:
        if len(payload) not in (4, 8):
            return None
        return "integer", int.from_bytes(payload, ENDS[self.order])

    def of_string(self, payload: bytes) -> Meaning:
        text = text_of(payload)
        return None if text is None else ("text", text)

    def of_flag(self, payload: bytes) -> Meaning:
        return None if payload else ("flag", True)

    def of_bitfield(self, row: Row, payload: bytes) -> Meaning:
        """A value and a selector, both of the same bits."""
        words = [it for it in row.words[1:] if it.startswith("enum=")]
        words += ["enum-as-flags"] * len(words)
        of = Row("", "", ["u32", *words])
        parts = [self.of_number(of, it) for it in (payload[:4], payload[4:])]
        if not all(parts):
            return None
        return "fields", {it: part[1] for it, part in zip(("value", "selector"), parts) if part}

    def of_binary(self, row: Row, payload: bytes, beside, levels: int) -> Meaning:
        struct_name, inside, sort = map(row.said, ("struct", "nested-attributes", "sub-type"))
        if struct_name == "rtnexthop":
            return None
        if inside:
            fields = BLOCKS[struct_name] if struct_name else struct_of(sort or "")
            return self.of_headed(fields, SETS[inside], payload, beside, levels)
        if struct_name and BLOCKS[struct_name].sort == "array":
            return self.of_counters(row, BLOCKS[struct_name], payload)
        if struct_name and "repeated" in row.words:
            found = pieces(payload, int(BLOCKS[struct_name].said["size"]))
            fields = BLOCKS[struct_name]
            if found is None:
                return None
            return "array", [self.fields(fields, it, levels) for it in found]
        if struct_name:
            return self.of_struct(BLOCKS[struct_name], payload, levels)
        if sort:
            found = pieces(payload, SIZES[sort])
            if found is None:
                return None
            return "series", [self.integer(row, it, sort) for it in found]
        return self.of_bytes(row, payload)

    def of_bytes(self, row: Row, payload: bytes) -> Meaning:
        hint, length = row.said("display-hint"), len(payload)
        if hint == "mac":
            return ("mac", payload.hex(":")) if length == 6 else None
        if hint == "ipv4":
            return address_of(payload) if length == 4 or row.said("len") != "4" else None
        return address_of(payload) if hint == "ipv6" and length == 16 else None

    def of_counters(self, row: Row, block: Block, payload: bytes) -> Meaning:
        """Numbers by the names of their places."""
        sort = block.said["type"]
        found = pieces(payload, SIZES[sort])
        if found is None:
            return None
        names, least = NAMES[block.name], block.rows[0].number
        places = (names.get(at, str(at - least)) for at in range(least, least + len(found)))
        return "counters", {it: self.integer(row, part, sort) for it, part in zip(places, found)}

    def fields(self, block: Block, payload: bytes, levels: int) -> Dict[str, object]:
        """The fields of a struct whose bytes are there."""
        found: Dict[str, object] = {}
        for field in (it for it in block.rows if it.words[0] != "pad"):
            end = field.number + size_of(field) if size_of(field) else len(payload)
            if field.number <= end <= len(payload):
                part = payload[field.number : end]
                meaning = self.meaning(field, part, levels=levels - 1)
                found[field.name] = meaning[1] if meaning else part.hex()
        return found

    def of_struct(self, block: Block, payload: bytes, levels: int) -> Meaning:
        """A struct, whose last field may have all the rest."""
        size, last = int(block.said["size"]), [it for it in block.rows if it.words[0] != "pad"][-1]
        fits = len(payload) == size or len(payload) > size and not size_of(last)
        return ("fields", self.fields(block, payload, levels)) if fits else None

    def of_headed(self, block: Block, inside: Attributes, payload, beside, levels: int) -> Meaning:
        size = int(block.said["size"])
        if len(payload) < size:
            return None
        found = self.of_list(inside, payload[reference.aligned(size) :], beside, levels)
        return found and ("headed", {**self.fields(block, payload, levels), "attrs": found[1]})

    def of_list(self, inside: Attributes, payload: bytes, beside, levels: int) -> Meaning:
        parts = attributes_in(payload, self.order, LEVELS - levels + 1)
        if parts is None:
            return None
        kinds, found = Kinds(self.family, inside, parts, beside), []
        for number, value in parts:
            row = inside.row(number)
            meaning = self.meaning(row, value, kinds.following(row), parts, levels - 1)
            front = {"number": number, "name": inside.called(number)}
            said = {"data": meaning[1]} if meaning else {"value": value.hex()}
            found.append({**front, **said})
        return "list", found


def struct_of(sort: str) -> Block:
    """A struct of one number."""
    return Block("struct", sort, {"size": str(SIZES[sort])}, [Row("0", sort, [sort])])


# Beside what reference_lines.py says of attributes and messages.


def inside_of(row: Row, kind: bytes, order: str) -> Attributes:
    """The set of the attributes in a payload that was read as a list, or as next hops."""
    row = chosen(row, kind, order)
    if row.words[0] == "indexed-array":
        return alike(row)
    is_list = row.words[0] == "nest" or row.said("struct") == "rtnexthop"
    return SETS[row.said("nested-attributes") or ""] if is_list else NOTHING


def beside_value(meaning: Meaning, form: str) -> Dict[str, object]:
    """What is said of the meaning of a payload whose value has this form."""
    if not meaning or form != "hex" and meaning[0] in PLAIN:
        return {}
    return {"data": meaning[1]}


def of_message(kind: int, payload: bytes, order: str) -> Dict[str, object]:
    """What a message type is called, and what its payload means."""
    row, name = MESSAGES.row(kind), MESSAGES.called(kind)
    if not name:
        return {}
    words = ["binary", f"struct={row.said('head')}", f"nested-attributes={row.said('set')}"]
    meaning = Reader(order, payload[:1]).meaning(Row("", "", words), payload)
    return {"kind": name, **beside_value(meaning, "hex")}


def of_tail(flags: int, tail: bytes, order: str) -> Dict[str, object]:
    """What the attributes at the end of an answer mean, where its flags say that there are any."""
    if not flags & ACK_TLVS:
        return {}
    return beside_value(Reader(order, b"").meaning(EXTACK, tail), "hex")


def of_error(flags: int, code: int, answered: Tuple[int, ...], tail: bytes, order: str):
    """What is said of the message that an answer is about, and of the answer."""
    comes_back = 0 if not code or flags & CAPPED else max(0, answered[0] - 16)
    about = of_message(answered[1], tail[:comes_back], order)
    return about, of_tail(flags, tail[reference.aligned(comes_back) :], order)
