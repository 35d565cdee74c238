"""Messages for what payloads mean: each attribute and each kind of the rows of format/ at a place
where a message reaches it, with payloads that fit its row and with some that just don't. They are
the same in each run, and made by the second reading alone.
"""
import functools
import random
import struct
from typing import Dict, Iterator, List, NamedTuple, Tuple

import counting
import datagrams
import mutations
import reference
import reference_data
from reference import ENDS, NESTED, NET, SORTS
from reference_data import BLOCKS, MESSAGES, SETS, SIZES, Attributes, Block, Part, Row

# So many payloads of each place that fit, so many that may not, and so many messages at random.
FITTING, OTHERS, MIXED = (3, 5, 4000) if counting.IS_WHOLE else (1, 1, 200)
TEXTS = "", "a", "eth0", "é", "a b", "\u2028", "\U0001f600", '"\\', "mq\0", "\x7f", "\x85", "a\nb"
IDS = 7, 0
LENGTHS = 0, 1, 2, 3, 4, 6, 7, 8, 12, 15, 16, 17, 20, 40


# Bytes that fit a row.


class Maker:
    """Makes payloads of one byte order."""

    def __init__(self, choose: random.Random, order: str):
        self.choose, self.order = choose, order

    def number(self, row: Row) -> bytes:
        sort, choose = row.words[0], self.choose
        size = SIZES[sort]
        block = BLOCKS.get(row.said("enum") or row.said("bits") or "")
        known = [it.number for it in block.rows] if block else [0]
        some = choose.choice((0, 1, 2, 256**size - 1, choose.randrange(256**size)))
        both = choose.choice(known) | choose.choice(known)
        value = choose.choice((choose.choice(known), both, some))
        is_big = reference_data.BIG in row.words
        return (value % 256**size).to_bytes(size, "big" if is_big else ENDS[self.order])

    def fields(self, block: Block) -> bytes:
        """A struct, and a few bytes more where its last field has all the rest."""
        text = bytearray(self.choose.randbytes(int(block.said["size"])))
        for field in block.rows:
            size, part = reference_data.size_of(field), self.fitting(field, 0)
            part = (part + bytes(size))[:size] if size else part
            if field.words[0] != "pad":
                text[field.number : field.number + size] = part
        return bytes(text)

    def some_list(self, of: Attributes, room: int) -> bytes:
        """Attributes of a set."""
        numbers = [*of.rows] or [1, 2]
        count = self.choose.choice((0, 1, 1, 2, 3)) if room > 0 else 0
        some = self.choose.choices(numbers, k=count)
        return self.written([(it, self.fitting(of.row(it), room - 1)) for it in some])

    def written(self, parts: List[Part], flagged: float = 0.1) -> bytes:
        """Attributes, some of them with flags."""
        text = b""
        for number, payload in parts:
            flags = NESTED if self.choose.random() < flagged else 0
            flags |= NET if self.choose.random() < flagged / 4 else 0
            fields = (number | flags,)
            text += reference.item(reference.ATTRIBUTE, fields, payload[:65000], self.order)
        return text

    def headed(self, row: Row, room: int) -> bytes:
        name, inside = row.said("struct"), SETS[row.said("nested-attributes") or ""]
        block = BLOCKS[name] if name else reference_data.struct_of(row.said("sub-type") or "")
        if name == "rtnexthop":
            return b""
        text = self.fields(block)
        return text + bytes(-len(text) % 4) + self.some_list(inside, room)

    def binary(self, row: Row, room: int) -> bytes:
        choose = self.choose
        name, sort, count = row.said("struct"), row.said("sub-type"), choose.randrange(4)
        if row.said("nested-attributes"):
            return self.headed(row, room)
        if name and BLOCKS[name].sort == "array":
            most = len(BLOCKS[name].rows)
            sort, count = BLOCKS[name].said["type"], choose.choice((0, 1, most, most + 3))
        elif name:
            count = count if "repeated" in row.words else 1
            return b"".join(self.fields(BLOCKS[name]) for _ in range(count))
        if sort:
            return choose.randbytes(count * SIZES[sort])
        usual = {"mac": (6,), "ipv4": (4, 16), "ipv6": (16,)}
        lengths = usual.get(row.said("display-hint") or "", LENGTHS)
        return choose.randbytes(int(row.said("len") or choose.choice(lengths)))

    def fitting(self, row: Row, room: int) -> bytes:
        """A payload that mostly fits a row, whose lists hold so many levels."""
        sort, choose = row.words[0], self.choose
        if sort in SIZES:
            return self.number(row)
        if sort == "uint":
            return choose.randbytes(choose.choice((4, 8)))
        if sort == "bitfield32":
            return self.number(Row("", "", ["u32", *row.words[1:]])) * 2
        if sort == "string":
            return choose.choice(TEXTS).encode() + bytes(choose.randrange(3))
        if sort == "nest":
            return self.some_list(SETS[row.said("nested-attributes") or ""], room)
        if sort == "indexed-array":
            return self.some_list(reference_data.alike(row), room)
        if sort == "binary":
            return self.binary(row, room)
        return b"" if sort == "flag" else choose.randbytes(choose.choice(LENGTHS))

    def near(self, payload: bytes) -> bytes:
        """A payload made otherwise: shorter, longer, or with a byte changed."""
        choose = self.choose
        if payload and choose.random() < 0.4:
            text = bytearray(payload)
            place = choose.randrange(len(text))
            text[place] = choose.choice((0, 1, 3, 4, 5, 8, 128, 194, 255, text[place] ^ 128))
            return bytes(text)
        some = choose.randbytes(choose.choice(LENGTHS))
        near = payload[:-1], payload[1:], payload + b"\0", payload + b"\1"
        return choose.choice((*near, some, b""))


# Places that a message reaches.


class Level(NamedTuple):
    """A list around a place: what else stands in it, the number of the attribute that leads on,
    and the bytes in front of the list in that one."""

    beside: Tuple[Part, ...]
    number: int
    front: bytes


class Place(NamedTuple):
    """A set in a message of this type and address family, the lists around it from outside, and
    what must stand in it."""

    kind: int
    family: int
    around: Tuple[Level, ...]
    of: Attributes
    beside: Tuple[Part, ...]

    def inside(self, number: int, front: bytes, of: Attributes) -> "Place":
        level = Level(self.beside, number, front)
        return Place(self.kind, self.family, (*self.around, level), of, ())

    def behind(self, part: Part, is_outside: bool) -> "Place":
        """The same with an attribute beside it, or in the list outside."""
        if not is_outside:
            return self._replace(beside=(*self.beside, part))
        outer = self.around[-1]
        outer = outer._replace(beside=(*outer.beside, part))
        return self._replace(around=(*self.around[:-1], outer))


def cases_of(row: Row, order: str) -> Dict[bytes, Row]:
    """Each kind of an attribute, with what it chooses; none is empty."""
    if not reference_data.is_chosen(row):
        return {b"": row}
    block = BLOCKS[row.said("sub-message") or ""]
    enums = [it for it in block.said.get("enum", "").split(",") if it]
    values = {it.name: it.number for enum in enums for it in BLOCKS[enum].rows}
    size = "H" if "lwt-types" in enums else "B"
    kinds = [it.name.encode() + b"\0" for it in block.rows]
    if enums:
        kinds = [struct.pack(order + size, values.get(it.name, 0)) for it in block.rows]
    return {kind: reference_data.chosen(row, kind, order) for kind in [*kinds, b""]}


def with_kind(place: Place, row: Row, kind: bytes) -> Place:
    """The place where this kind chooses what an attribute of this row is."""
    selector = row.said("selector")
    if not kind or not selector:
        return place
    if selector in reference_data.FAMILIES:
        return place._replace(family=kind[0])
    number = reference_data.number_of(selector)
    return place.behind((number, kind), place.of.row(number).name != selector)


def sets_inside(row: Row, maker: Maker) -> Iterator[Tuple[bytes, Attributes]]:
    """The set of the attributes in a payload, with what stands in front of them."""
    name, sort = row.said("nested-attributes"), row.words[0]
    if sort == "indexed-array":
        yield b"", reference_data.alike(row)
    elif name and sort == "nest":
        yield b"", SETS[name]
    elif name and row.said("struct") == "rtnexthop":
        yield b"", SETS[name]
    elif name:
        fields = row.said("struct")
        block = BLOCKS[fields] if fields else reference_data.struct_of(row.said("sub-type") or "")
        text = maker.fields(block)
        yield text + bytes(-len(text) % 4), SETS[name]


def roots() -> Iterator[Place]:
    """The sets of messages themselves, and that of answers."""
    yield from (Place(kind, 0, (), SETS["extack-attrs"], ()) for kind in (2, 3))
    for kind, row in MESSAGES.rows.items():
        if SORTS.get(kind, "bytes") not in ("get", "bytes"):
            yield Place(kind, 0, (), reference_data.of_family(SORTS[kind]), ())
        elif kind not in SORTS:
            yield Place(kind, 0, (), SETS[row.said("set") or ""], ())


def places(order: str) -> Iterator[Tuple[Place, int, Row]]:
    """Each attribute with each of its kinds at a place that a message reaches."""
    maker = Maker(random.Random(f"places {order}"), order)
    queue, seen = [*roots()], set()
    for place in queue:
        of = place.of
        name = str((of.name or of.row(0).words, place.kind if not place.around else 0))
        if name in seen:
            continue
        seen.add(name)
        for number in of.rows or (1, 0, 16383):
            row = of.row(number)
            for kind, case in cases_of(row, order).items():
                here = with_kind(place, row, kind)
                yield here, number, case
                queue += [here.inside(number, *it) for it in sets_inside(case, maker)]


# Messages.


def front_of(place: Place, maker: Maker) -> bytes:
    """What stands in front of the attributes of a message: its head, of any numbers."""
    sort, choose = SORTS.get(place.kind, "bytes"), maker.choose
    if sort in ("error", "done"):
        size = reference.HEADS[sort].size
        return struct.pack(maker.order + "i", choose.choice((0, -22))) + choose.randbytes(size - 4)
    if sort == "bytes":
        text = maker.fields(BLOCKS[MESSAGES.row(place.kind).said("head") or ""])
    else:
        text = choose.randbytes(reference.HEADS[sort].size)
    return bytes([place.family]) + text[1:] + bytes(-len(text) % 4)


def message_of(place: Place, region: bytes, maker: Maker) -> bytes:
    """A message with this region at a place. That of an answer has no request in it."""
    for level in reversed(place.around):
        region = maker.written([*level.beside, (level.number, level.front + region)], 0.05)
    flags = 0x300 if place.kind in (2, 3) else 2
    text = front_of(place, maker) + region
    return reference.item(reference.MESSAGE, (place.kind, flags, *IDS), text, maker.order)


def at_places(order: str, is_near: bool, count: int) -> Iterator[bytes]:
    """Messages with so many payloads of each place."""
    maker = Maker(random.Random(f"payloads {order} {is_near}"), order)
    for place, number, row in places(order):
        for _ in range(count):
            payload = maker.fitting(row, 2)
            payload = maker.near(payload) if is_near else payload
            parts = [*place.beside, (number, payload)]
            if is_near and maker.choose.random() < 0.2:
                maker.choose.shuffle(parts)
                parts += parts[: maker.choose.randrange(2)]
            yield message_of(place, maker.written(parts, 0.1 if is_near else 0), maker)


def mixed(order: str) -> Iterator[bytes]:
    """Messages of any type, with many attributes of a set, some of them more than once."""
    choose = random.Random(f"mixed payloads {order}")
    maker, every = Maker(choose, order), [*places(order)]
    for _ in range(MIXED):
        place, number, row = choose.choice(every)
        parts = [*place.beside, (number, maker.fitting(row, 7))]
        for other in choose.choices([*place.of.rows] or [1], k=choose.randrange(6)):
            text = maker.fitting(place.of.row(other), 2)
            parts.insert(choose.randrange(len(parts) + 1), (other, text))
        if choose.random() < 0.3:
            parts += [(number, maker.fitting(row, 1)) for _ in range(choose.randrange(8))]
        text = message_of(place, maker.written(parts), maker)
        if choose.random() < 0.3:
            text = answered(maker, text)
        yield text


def answered(maker: Maker, request: bytes) -> bytes:
    """An error that answers a request, with what comes back of it, and attributes."""
    choose, order = maker.choose, maker.order
    length, *fields = struct.unpack_from(order + reference.MESSAGE, request)
    code = choose.choice((-101, -1, -22, 0, 1, -(2**31)))
    is_capped = choose.random() < 0.4
    flags = choose.choice((0x200, 0x200, 0)) | (0x100 if is_capped else 0)
    tail = b"" if is_capped or not code else request[16:]
    tail += maker.some_list(SETS["extack-attrs"], 3)
    length = choose.choice((length, length, length - 3, 15, 0, 2**32 - 1))
    values = code, length, *fields
    if choose.random() < 0.1:
        body = "done", (code,), maker.some_list(SETS["extack-attrs"], 3)
        return reference.written([((3, flags, 7, 0), body)], order)
    return reference.written([((2, flags, 7, 0), ("error", values, tail))], order)


def mutated(order: str, found: List[bytes]) -> List[bytes]:
    """Mutations of these, and some with bytes changed."""
    choose = random.Random(f"mutated payloads {order}")
    texts = [*mutations.mutations(choose, MIXED, found, found, found, order)]
    return texts + [datagrams.changed(choose, choose.choice(found)) for _ in range(MIXED)]


@functools.cache
def groups(order: str) -> List[Tuple[str, List[bytes]]]:
    """The name of each group of datagrams, and these."""
    fitting, beside = [*at_places(order, False, FITTING)], [*mixed(order)]
    return [
        ("payloads of each attribute", fitting),
        ("payloads that nearly fit", [*at_places(order, True, OTHERS)]),
        ("payloads beside others", beside),
        ("mutated payloads", mutated(order, fitting + beside)),
    ]
