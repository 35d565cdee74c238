"""A second reading of "Bytes beside what they are" in docs/FORMAT.md, over that of reference.py.

A datagram is cut into parts, which have each of its bytes once; a part is printed in rows of at
most sixteen bytes, of which the first has the words of the part. What stands in payloads, and the
names of attributes, are those of reference_inside.py.
"""
import functools
from typing import NamedTuple, Optional

import reference
import reference_data
import reference_inside
from reference import (
    ATTRIBUTE, BITS, HEADS, HOP, KINDS, MESSAGE, NESTED, NET, NEW, OTHER, SORTS, Field,
)
from reference_data import Kinds
from reference_inside import Divider
from reference_lines import ENCODER, names, typed, word

WIDTH = 16
CUT = {MESSAGE: "nlmsghdr", ATTRIBUTE: "rtattr", HOP: "rtnexthop"}
ITEMS = {
    ATTRIBUTE: [Field("H", "rta_len", "len"), Field("H", "rta_type", "type")],
    HOP: [Field("H", "rtnh_len", "len"), *HEADS["hop"].fields],
}


# What a number or a payload is, as text and in JSON.


def numbered(number, digits, rows=()):
    text = word(number, digits)
    return f"{text} {word(names(rows, number))}" if rows else text, number


@functools.lru_cache(100_000)
def of_field(field, number):
    rows = BITS.get(field.bits, ())
    return numbered(number, field.digits, rows) if field.name else (None, None)


def of_header(kind, flags):
    """The fields of a message's header whose names go by its type."""
    _, rows = KINDS.get(kind, OTHER)
    said = reference_inside.message_type_said(kind)
    return {"nlmsg_type": said, "nlmsg_flags": numbered(flags, "4", rows)}


# The parts of a datagram.


class Part(NamedTuple):
    """Bytes of a datagram, and their value as text and in JSON; whether they are padding or were
    not read. A fault is a reason, and a place with the bytes that are left there."""

    offset: int
    end: int
    level: int
    indent: int
    name: str
    value: Optional[str]
    typed: object
    is_aside: bool
    fault: Optional[tuple]


class Lists(reference.Reading):
    """A reading that notes the attributes of each list, by the place where it begins: the place of
    each, its number, and its payload where that is bytes. What holds more is empty here."""

    def __init__(self, *arguments):
        super().__init__(*arguments)
        self.lists, self.here = {}, (0, "")

    def attributes(self, place, end, level, context):
        around, self.here = self.here, (place, context)
        found = super().attributes(place, end, level, context)
        self.here = around
        return found

    def visited(self, place, end, form):
        start, context = self.here
        for at, behind, fields in super().visited(place, end, form):
            if form == ATTRIBUTE:
                kind, payload = fields[0], self.data[at + 4 : behind]
                holds = reference.content(context, kind & 0x3FFF, kind & NESTED)
                note = at, kind & 0x3FFF, payload if holds == "bytes" else b""
                self.lists.setdefault(start, []).append(note)
            yield at, behind, fields


def lists(*arguments):
    """The attributes of each list of a datagram, up to one that breaks a rule."""
    reading, broken = Lists(*arguments), -1
    try:
        reading.messages()
    except reference.Fault as fault:
        broken = fault.args[-1]
    return {
        start: [(number, payload) for at, number, payload in found if at != broken]
        for start, found in reading.lists.items()
    }


class Region(NamedTuple):
    """Where a reading is: its level, the context there, the set of the attributes, and the kinds
    that choose what these are."""

    level: int
    context: str
    of: reference_data.Attributes
    kinds: Optional[Kinds]


NOWHERE = Region(0, "", reference_data.NOTHING, None)


class Parts(reference.Reading):
    """A reading that notes the parts of a datagram, one behind the other, where these are the
    attributes of its lists.

    `region` is where it reads now; `inside` the set of what the next list holds; `divider` cuts
    the payloads of the message; `under` is the depth of padding; `last` the end of the region of
    the last head, and the form of that.
    """

    def __init__(self, beside, *arguments):
        super().__init__(*arguments)
        self.beside, self.parts, self.behind = beside, [], 0
        self.region, self.inside = NOWHERE, reference_data.NOTHING
        self.divider, self.flags = Divider(self.order, b""), 0
        self.under, self.last = (0, 0), None

    def note(self, end, level, indent, name, values=(None, None), fault=None, is_aside=False):
        """The part up to this end, where that has a byte."""
        if end > self.behind:
            part = Part(self.behind, end, level, indent, name, *values, is_aside, fault)
            self.parts.append(part)
            self.behind = end

    def note_fields(self, found, level, indent, fault=None, **values):
        """A part for each of these fields, the first with the fault; some have another value."""
        for field in found:
            (number,) = self.fields(field.letter, self.behind)
            value = values.get(field.kernel) or of_field(field, number)
            self.note(self.behind + field.size(), level, indent, field.kernel, value, fault)
            fault = None

    def note_pieces(self, pieces):
        """What stands in a payload or behind a head."""
        for size, depth, name, said, is_padding in pieces:
            front = max(depth, 0), 4 + 2 * depth
            self.note(self.behind + size, *front, name, said, is_aside=is_padding)

    def note_head(self, form, fault=None):
        """The head that begins here."""
        level = self.region.level
        if form == MESSAGE:
            kind, self.flags = self.fields("HH", self.behind + 4)
            values = of_header(kind, self.flags)
            self.note_fields(HEADS["message"].fields, 0, 0, fault, **values)
            self.under = 0, 2
            return
        self.under, values = (level, 4 + 2 * level), {}
        if form == ATTRIBUTE:
            (kind,) = self.fields("H", self.behind + 2)
            values["rta_type"] = reference_inside.type_said(self.region.of, kind)
        self.note_fields(ITEMS[form], *self.under, fault, **values)

    def note_payload(self, end, kind):
        """The payload of an attribute of this type, where it holds bytes; and what the list holds
        that it is where it doesn't."""
        (level, context, of, kinds), number = self.region, kind & 0x3FFF
        row, chooses = of.row(number), kinds.following(of.row(number))
        self.inside = reference_data.inside_of(row, chooses, self.order)
        if reference.content(context, number, kind & NESTED) != "bytes":
            return
        _, form = reference.ATTRIBUTES[context].get(number, ("", "Hex"))
        payload, name = self.data[self.behind : end], reference_inside.kernel_name(of, number)
        sort, value = typed(form, payload, kind & NET, self.order)
        plain = (None, None) if sort == "hex" else (f"{sort} {value}", value)
        meaning = self.divider.reader.meaning(row, payload, chooses)
        is_plain = kind & NET or not reference_data.beside_value(meaning, sort)
        front = level, name or "payload", row, payload, chooses
        self.note_pieces(self.divider.payload(*front, plain=plain, is_plain=bool(is_plain)))

    def note_padding(self, end):
        self.note(end, *self.under, "padding", is_aside=True)

    def note_body(self, end, kind):
        """A body, but for attributes of a family. Of one that is too short for its type nothing is
        kept."""
        sort, head = SORTS.get(kind, "bytes"), HEADS[SORTS.get(kind, "bytes")]
        body = self.data[self.behind : end]
        self.divider = Divider(self.order, body[:1])
        if len(body) >= head.size:
            is_error = sort == "error"
            values = of_header(*self.fields("HH", self.behind + 8)) if is_error else {}
            self.note_fields(head.fields, 0, 2, **values)
        rest = self.data[self.behind : end]
        if sort in NEW:
            self.inside = reference_data.of_family(sort)
        elif sort == "error" and len(body) >= head.size:
            code, length, kind, *_ = self.fields(head.form, end - len(body))
            answer = self.flags, code, length, kind, rest, self.order
            self.note_pieces(reference_inside.of_answer(*answer))
        elif sort == "done":
            self.note_pieces(reference_inside.of_tail(self.flags, rest, self.order))
        elif kind in KINDS:
            self.note(end, 0, 2, "payload" if sort == "bytes" else "tail")
        else:
            self.note_pieces(reference_inside.of_message(kind, rest, self.order))

    # What the reading does, and what is noted of it.

    def head(self, place, end, form):
        self.note_padding(place)
        self.last = end, form
        length, *found = super().head(place, end, form)
        self.note_head(form)
        if form == ATTRIBUTE:
            self.note_payload(place + length, *found)
        elif form == HOP:
            self.inside = self.region.of
        return length, *found

    def body(self, start, end, kind):
        self.note_body(end, kind)
        return super().body(start, end, kind)

    def attributes(self, place, end, level, context):
        around, parts = self.region, self.beside.get(place, [])
        kinds = Kinds(self.divider.reader.family, self.inside, parts, [])
        self.region = Region(level, context, self.inside, kinds)
        found = super().attributes(place, end, level, context)
        self.region = around
        return found

    def next_hops(self, place, end, level):
        around, self.region = self.region, Region(level, "", self.inside, None)
        found = super().next_hops(place, end, level)
        self.region = around
        return found

    def stop(self, reason, place=0):
        """What stands at the first fault and behind it, in place of what was noted there: the head
        that breaks a rule is the last that was looked at."""
        self.parts = [part for part in self.parts if part.offset < place]
        self.behind = place
        if reason == "too large":
            self.note(len(self.data), 0, 0, "unread", fault=(reason,), is_aside=True)
            return
        (end, form), level = self.last, self.region.level
        fault = reason, place, end - place
        if reason == "cut":
            self.note(end, level, 0 if form == MESSAGE else 4 + 2 * level, CUT[form], fault=fault)
        else:
            self.note_head(form, fault)
        self.note(len(self.data), 0, 0, "unread", is_aside=True)


def parts(data, order, depth=reference.DEPTH, largest=reference.LARGEST):
    """The parts of a datagram."""
    arguments = data, order, depth, largest
    reading = Parts(lists(*arguments), *arguments)
    try:
        reading.messages()
        reading.note_padding(len(data))
    except reference.Fault as fault:
        reading.stop(*fault.args)
    return reading.parts


# What is printed of them: the rows of a part are its bytes by sixteen, each with its offset.


def rows(data, found):
    for part in found:
        for place in range(part.offset, part.end, WIDTH):
            yield part, place, data[place : min(part.end, place + WIDTH)]


def words(part, has_colour=False):
    """What stands behind the bytes of the first row of a part."""
    text = part.name if part.value is None else f"{part.name} {part.value}"
    colour = "2" if part.is_aside else ""
    if part.fault:
        reason, *where = part.fault
        text = f"!! {text}: {reason}" + (" at %d, %d bytes left" % tuple(where) if where else "")
        colour = "1;31"
    return f"\x1b[{colour}m{text}\x1b[0m" if has_colour and colour else text


def lines(number, data, found, has_colour=False):
    """The lines of text of the datagram of this number, which has these parts."""
    yield f"datagram {number} bytes {len(data)}"
    for part, place, text in rows(data, found):
        front = f"{place:5}  {text.hex(' ')}"
        if place == part.offset:
            gap = 3 * (WIDTH - len(text)) + 2 + part.indent
            front += " " * gap + words(part, has_colour)
        yield front
    for fault in (part.fault for part in found if part.fault):
        yield "refused " + " at ".join(map(str, fault[:2]))


def written(value):
    return ENCODER.encode(value)


def objects(number, data, found):
    """The lines of JSON of the same."""
    for part, place, text in rows(data, found):
        value, fault = (part.typed, part.fault) if place == part.offset else (None, None)
        yield (
            f'{{"datagram":{number},"offset":{place},"length":{len(text)},"bytes":"{text.hex()}",'
            f'"level":{part.level},"name":{written(part.name)},"value":{written(value)},'
            f'"fault":{written(fault and fault[0])}}}'
        )
