"""Mutations of datagrams: each changes the length of a message or of an attribute, or a type, cuts
a datagram, or puts a message or an attribute elsewhere. A head is found by the second reading,
never by the program.
"""
import struct

import reference
from reference import ATTRIBUTE, HOP, MESSAGE

TYPES = (*reference.KINDS, 0, 5, 15, 23, 27, 31, 35, 40, 65535)
# So many bytes stand in front of attributes.
FRONTS = 4, 8, 12, 16, 20, 24
NUMBERS = sorted({0, 8, 9, 18, 40, 16383}.union(*reference.ATTRIBUTES.values()))


class Heads(reference.Reading):
    """A reading that notes each head: its place, its form, and where its item and region end."""

    def __init__(self, data, order):
        super().__init__(data, order)
        self.found = []

    def head(self, place, end, form):
        length, *fields = super().head(place, end, form)
        self.found.append((place, form, place + length, end))
        return length, *fields


class HeadsInside(Heads):
    """One that also looks into bytes that are well formed as attributes, or behind so many as a
    head has."""

    def head(self, place, end, form):
        length, *fields = super().head(place, end, form)
        if form == ATTRIBUTE:
            self.inside(place + 4, place + length)
        return length, *fields

    def body(self, start, end, kind):
        if reference.SORTS.get(kind, "bytes") not in reference.NEW:
            for size in FRONTS:
                self.inside(start + 16 + size, end)
        return super().body(start, end, kind)

    def inside(self, place, end):
        """Notes the attributes of a region that is well formed."""
        kept = len(self.found)
        try:
            if place < end:
                for _ in self.visited(place, end, ATTRIBUTE):
                    pass
        except reference.Fault:
            del self.found[kept:]


def heads(data, order, kind=HeadsInside):
    """The heads of a datagram, up to its first fault."""
    reading = kind(data, order)
    try:
        reading.messages()
    except reference.Fault:
        pass
    return reading.found


def some_head(choose, data, order, *forms):
    """A head of one of these forms, or any where there is none."""
    found = heads(data, order)
    return choose.choice([head for head in found if head[1] in forms] or found)


def with_number(data, place, form, number, order):
    text = bytearray(data)
    struct.pack_into(order + form, text, place, number)
    return bytes(text)


def with_length(choose, data, order, *forms):
    """One length changed, mostly to a limit, or to about what a head has, the item, or the rest of
    its region."""
    place, form, behind, end = some_head(choose, data, order, *forms)
    greatest = 256 ** struct.calcsize(order + form[0]) - 1
    near = [
        length + by
        for length in (struct.calcsize(order + form), behind - place, end - place)
        for by in (-4, -1, 0, 1, 4)
    ]
    length = choose.choice((0, 3, 15, greatest, choose.randrange(greatest), *near))
    return with_number(data, place, form[0], min(length, greatest), order)


def message_length(choose, data, _, order):
    return with_length(choose, data, order, MESSAGE)


def attribute_length(choose, data, _, order):
    return with_length(choose, data, order, ATTRIBUTE, HOP)


def other_type(choose, data, _, order):
    """The type of a message changed, or the number or a flag of an attribute."""
    place, form, *_ = some_head(choose, data, order, choose.choice((MESSAGE, ATTRIBUTE)))
    if form == MESSAGE:
        return with_number(data, place + 4, "H", choose.choice(TYPES), order)
    (old,) = struct.unpack_from(order + "H", data, place + 2)
    flags = reference.NESTED | reference.NET
    number = choose.choice(NUMBERS) | choose.choice((0, old & flags, reference.NESTED))
    number = choose.choice((old ^ reference.NESTED, old ^ reference.NET, number))
    return with_number(data, place + 2, "H", number, order)


def cut(choose, data, _, order):
    """A front of it, mostly up to a place in a head or close behind one."""
    place, *_ = choose.choice(heads(data, order))
    place = choose.choice((place + choose.randrange(20), choose.randrange(len(data))))
    return data[: max(1, place)]


def spliced(choose, data, others, order):
    """A message or an attribute of another datagram put before one, or in its place, the lengths
    of what holds it mended or not."""
    other = choose.choice(others)
    begin, _, behind, _ = choose.choice(heads(other, order))
    item = other[begin:behind] + bytes(begin - behind & 3)
    place, _, behind, end = choose.choice(heads(data, order))
    following = choose.choice((place, min(end, reference.aligned(behind))))
    text = data[:place] + item + data[following:]
    if choose.random() < 0.5:
        return text
    for holder, form, behind, _ in heads(data, order):
        if holder < place < behind:
            length = behind - holder + len(text) - len(data)
            length %= 256 ** struct.calcsize(order + form[0])
            text = with_number(text, holder, form[0], length, order)
    return text


WAYS = message_length, attribute_length, other_type, cut, spliced


def mutated(choose, ways, data, others, order):
    """The datagram mutated in each of these ways, as long as it has a head, until it is another
    one."""
    text = data
    while text == data:
        for way in ways:
            text = way(choose, text, others, order) if heads(text, order) else text
    return text


def mutations(choose, count, whole, alone, others, order):
    """So many datagrams, each way of mutation as often as the others: of whole ones and of their
    messages alone, longer ones more often, and some of them mutated twice."""
    for number in range(count):
        ways = [WAYS[number % len(WAYS)], *choose.choices(WAYS, k=choose.random() < 0.2)]
        texts = choose.choice((whole, alone))
        (data,) = choose.choices(texts, weights=map(len, texts))
        yield mutated(choose, ways, data, choose.choice((whole, alone, others)), order)
