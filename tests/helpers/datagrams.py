"""The datagrams, and the dumps, that compare.py, bytes.py and c_library/ hand over: those of
examples/ and of tests/data/recordings/, whole, cut and changed, mutations of each recording,
generated ones, and hostile ones. They are the same in each run, and made by the second reading
alone.
"""
import functools
import glob
import itertools
import random
import struct

import counting
import mutations
import reference
from reference import ROOT

ORDERS = {"little": "<", "big": ">"}
RECORDINGS = {
    "examples/links": "link",
    "examples/addresses": "addr",
    "examples/routes": "route",
    "examples/neighbours": "neigh",
    "examples/rules": "rule",
    "tests/data/recordings/loopback_addresses": "addr",
    "tests/data/recordings/loopback_routes": "route",
    "tests/data/recordings/loopback_routes_ipv6": "route",
    "tests/data/recordings/no_neighbours": "neigh",
    "tests/data/recordings/default_rules": "rule",
}
# So many mutations of each recording, datagrams that one run of `table` is fed at most, and
# datagrams and dumps that are generated.
MUTATIONS, FED = 1000 if counting.IS_WHOLE else 50, 10
GENERATED, ASKED = (4000, 1100) if counting.IS_WHOLE else (200, 60)
KINDS = (*reference.SORTS, 0, 1, 4, 5, 15, 23, 27, 31, 35, 40, 65535)
CHANGES = (0, 1, 3, 4, 5, 8, 9, 16, 18, 32, 34, 64, 128, 255)
DEPTHS, ENTRIES = (0, 1, 2, 8, 32), (0, 1, 2, 3, 4096)
LIMITS = [(depth, entries) for depth in DEPTHS for entries in ENTRIES]
USUAL = reference.DEPTH, reference.ENTRIES
IDS = ((0, 0), (1, 4242), (7, 0), (0x01020304, 0x80000000), (2**32 - 1, 1))
# The fields of a head that keys are made of, by their places; the first value is the usual.
FEW = {
    "link": {2: (1, 2, -1, 256)},
    "addr": {0: (2, 10), 1: (24, 64), 4: (1, 2)},
    "route": {0: (2, 10), 1: (24, 0), 2: (0, 64), 3: (0, 8), 4: (254, 255), 7: (1, 6)},
    "neigh": {0: (7, 2, 10), 1: (1, 2), 3: (0, 1, 2, 4, 8, 16, 32, 64, 128)},
    "rule": {0: (2, 10), 1: (24, 0), 2: (0, 64), 3: (0, 8), 4: (254, 255), 5: (1, 2)},
}
# The attributes that keys are made of.
KEYED = {
    "link": (),
    "addr": (1, 2),
    "route": (1, 2, 4, 5, 6, reference.TABLE),
    "neigh": (1, 2, 5, 7),
    "rule": (1, 2, 3, 4, 6, 10, reference.TABLE, 16, 17),
}


def recordings(order):
    """The recordings, what asks for the dump that each of them is, and its datagrams and each of
    their messages alone, written in this order."""
    for file in sorted(RECORDINGS, key=lambda it: f"{it}.hex"):
        with open(f"{ROOT}/{file}.hex", encoding="ascii") as lines:
            messages = [reference.read(bytes.fromhex(line), "<") for line in lines]
        _, _, sequence, port = messages[0][0][0]
        whole = [reference.written(found, order) for found in messages]
        alone = [reference.written([it], order) for found in messages for it in found]
        yield file, (RECORDINGS[file], sequence, port), whole, alone


def recorded_files():
    """Each recording as it lies, and the datagrams on its lines, without a blank in them."""
    for folder in ("examples", "tests/data/recordings"):
        for path in sorted(glob.glob(f"{ROOT}/{folder}/*.hex")):
            with open(path, encoding="ascii") as file:
                text = file.read()
            lines = [line for line in text.split("\n") if line and not line.startswith("#")]
            yield text, [bytes.fromhex(line) for line in lines]


@functools.cache
def mutated(order):
    """Each recording and its mutations."""
    choose = random.Random(f"mutations {order}")
    found = list(recordings(order))
    others = [text for *_, alone in found for text in alone]
    return [
        (file, ids, whole, [*mutations.mutations(choose, MUTATIONS, whole, alone, others, order)])
        for file, ids, whole, alone in found
    ]


# Generated messages.


def payload(choose, form):
    """Bytes that often have the form, and often just not."""
    if form == "Text" and choose.random() < 0.8:
        text = bytes(choose.choice(b" az~09_\x1f\x7f\0") for _ in range(choose.randrange(8)))
        return text + bytes(choose.randrange(2))
    return choose.randbytes(choose.choice((0, 1, 2, 3, 4, 4, 5, 8, 15, 16, 16, 17)))


def next_hop(choose, room):
    fields = *choose.choices(range(256), k=2), choose.randrange(-9, 9)
    return *fields, attributes(choose, "route", room - 2)


def attributes(choose, context, room):
    """A list of attributes that opens up to `room` levels, and seldom one more."""
    found = []
    for _ in range(choose.choice((0, 1, 1, 2, 3))):
        number = choose.choice((*reference.ATTRIBUTES[context], 0, 8, 9, 18, 40, 16383))
        is_nested = choose.random() < (0.3 if room > 0 else 0.02)
        kind = number | (reference.NESTED if is_nested else 0)
        kind |= reference.NET if choose.random() < 0.1 else 0
        holds = reference.content(context, number, kind & reference.NESTED)
        if holds == "bytes":
            value = payload(choose, reference.ATTRIBUTES[context].get(number, ("", "Hex"))[1])
        elif holds == "hops":
            count = choose.randrange(3) if room > 0 else 0
            value = [next_hop(choose, room) for _ in range(count)]
        else:
            value = attributes(choose, holds, room - 1) if room > 0 else []
        found.append((kind, context, holds, value))
    return found


def some_values(choose, sort, order):
    """Any numbers in the fields of a head."""
    form = order + reference.HEADS[sort].form
    return struct.unpack(form, choose.randbytes(struct.calcsize(form)))


def message(choose, order):
    """A message of any type, with any numbers in its heads."""
    kind = choose.choice(KINDS)
    sort = reference.SORTS.get(kind, "bytes")
    values = some_values(choose, sort, order)
    rest = choose.randbytes(choose.randrange(9))
    if sort in reference.NEW:
        rest = attributes(choose, sort, choose.choice((2, 9, 10)))
    if sort == "done" and choose.random() < 0.3:
        values, rest = (), rest[:3]
    fields = kind, choose.randrange(65536), choose.randrange(2**32), choose.randrange(2**32)
    return fields, (sort, values, rest)


def generated(choose, order):
    found = [message(choose, order) for _ in range(choose.choice((1, 1, 1, 2, 3)))]
    return reference.written(found, order)


def changed(choose, datagram):
    """The same with one to three bytes changed, mostly to what lengths and types have."""
    text = bytearray(datagram)
    for _ in range(choose.choice((1, 1, 2, 3))):
        place = choose.randrange(len(text))
        old = text[place]
        others = old ^ 128, old ^ 64, (old + 1) % 256, choose.randrange(256)
        text[place] = choose.choice((*CHANGES, *others))
    return bytes(text)


def cut(choose, datagram):
    return datagram[: choose.randrange(1, len(datagram))]


def joined(choose, items):
    """Items one after another, with any bytes as padding and with none behind the last."""
    text = b""
    for item in items:
        text += choose.randbytes(-len(text) % 4) + item
    return text


def loose(choose, found, order):
    """Attributes with any padding, and with none at the end of a region."""
    items = []
    for kind, _, holds, value in found:
        if holds == "hops":
            hops = [(hop, loose(choose, inside, order)) for *hop, inside in value]
            form = order + reference.HOP
            hops = [struct.pack(form, 8 + len(inside), *hop) + inside for hop, inside in hops]
            value = joined(choose, hops)
        elif holds != "bytes":
            value = loose(choose, value, order)
        items.append(struct.pack(order + reference.ATTRIBUTE, 4 + len(value), kind) + value)
    return joined(choose, items)


def loosened(choose, message, order):
    """The same message, its attributes with other padding."""
    fields, (sort, values, rest) = message
    if sort not in reference.NEW:
        return message
    head = struct.pack(order + reference.HEADS[sort].form, *values)
    return fields, ("bytes", (), head + loose(choose, rest, order))


# Datagrams that are hostile to JSON, to levels and to numbers.


def nested(levels):
    """Attributes that open so many levels, one in the other."""
    found = []
    for _ in range(levels):
        found = [(40 | reference.NESTED, "", "plain", found)]
    return found


def link(found):
    """A link of zeros with these attributes."""
    return (16, 0, 0, 0), ("link", (0, 0, 0, 0, 0), found)


def named(order, texts):
    """A link for each of these texts, which is its name."""
    links = [link([(3, "link", "bytes", text)]) for text in texts]
    return [reference.written([one], order) for one in links]


def names_of_bytes():
    """Names of each byte alone and between others, and some that look like JSON."""
    for byte in range(256):
        one = bytes([byte])
        yield from (one, one + b"\0", b"a" + one + b"z", b"\\" + one, one + one)
    yield from (b'"', b'\\"', b"\\u0041", b'{"number":1}', b"]", b'","', b"//", b"</", b"-", b"")
    yield bytes(range(0x20, 0x7F)) * 40


def deep_hops(levels):
    """Next hops inside a next hop, so many of them."""
    found = []
    for _ in range(levels):
        found = [(9, "route", "hops", [(255, 255, -1, found)] * 2)]
    return found


def extremes(order):
    """Heads of the least and the greatest numbers, and bodies of no bytes and of many."""
    least, most = -(2**31), 2**32 - 1
    bodies = [
        (16, "link", (255, 65535, least, most, most)),
        (21, "addr", (255, 255, 255, 255, most)),
        (24, "route", (*[255] * 8, most)),
        (29, "neigh", (255, least, 65535, 255, 255)),
        (32, "rule", (*[255] * 6, most)),
    ]
    found = [((kind, 65535, most, most), (sort, values, [])) for kind, sort, values in bodies]
    for value in (0, 1, -1, least, 2**31 - 1):
        answer = value, most, 65535, 65535, most, most
        found.append(((2, 0, 0, most), ("error", answer, b"\xff")))
        found.append(((3, 0, most, 0), ("done", (value,), bytes(9))))
    for kind in (1, 4, 5, 65535, *reference.GETS):
        sort, values = ("get", (255,)) if kind in reference.GETS else ("bytes", ())
        for rest in (b"", bytes(range(256))):
            found.append(((kind, 0xFFFF, 0, 0), (sort, values, rest)))
    return [reference.written(messages, order) for messages in (*([one] for one in found), found)]


def deep(order):
    """Levels up to one above the greatest depth, and many attributes side by side."""
    many = [(count, "link", "bytes", b"\1\2\3\4") for count in range(4000)]
    found = [link(one) for one in (*(nested(levels) for levels in range(34)), many)]
    for levels in range(6):
        found.append(((24, 2, 0, 0), ("route", (0,) * 9, deep_hops(levels))))
    return [reference.written([one], order) for one in found]


def hostile(order):
    yield "named", named(order, names_of_bytes())
    yield "extreme", extremes(order)
    yield "deep", deep(order)
    yield "no", []
    yield "zero", [bytes(65536), bytes(65540), bytes(131072)]


def groups(order):
    """The name of each group of datagrams, and these."""
    choose = random.Random(f"rtnetlink {order}")
    whole = [text for _, _, *both in recordings(order) for texts in both for text in texts]
    short = [text for text in whole if len(text) <= 400]
    new = [generated(choose, order) for _ in range(GENERATED)]
    yield "recorded", whole
    yield "recorded and cut", [text[:place] for text in short for place in range(1, len(text))]
    count = 2 * GENERATED
    yield "recorded and changed", [changed(choose, choose.choice(whole)) for _ in range(count)]
    yield "generated", new
    yield "generated and cut", [cut(choose, text) for text in new]
    yield "generated and changed", [changed(choose, text) for text in new for _ in range(2)]


def mutated_groups(order):
    for file, _, _, texts in mutated(order):
        yield f"mutated {file}", texts


# Runs of `table`: what is asked of the session, and the datagrams that it is fed.


def mostly(choose, usual, *others, share=0.95):
    """Mostly the usual value, so that keys repeat and dumps go on."""
    return usual if choose.random() < share else choose.choice(others)


def otherwise(choose, number, order):
    """What may be there of an attribute: none, one, two, one with a flag, or one in another."""
    usual, table = b"\1\2\3\4", struct.pack(order + "I", 254)
    fours = usual, table, table[::-1], bytes(4), b"\1\2\0\0"
    values = *fours, usual[:3], b"", usual + b"\0", usual + b"\5", bytes(range(16))
    one, two = ((number, "", "bytes", choose.choice(values)) for _ in range(2))
    net = number | reference.NET, "", "bytes", usual
    inside = choose.choice(([], [(number, "", "bytes", usual)]))
    listed = number | reference.NESTED, "", "plain", inside
    hops = 9, "", "hops", [(0, 0, 1, [one])]
    ways = [], [one], [one], [one], [one, two], [net], [listed], [listed, one], [one, listed]
    return choose.choice((*ways, [hops]))


def usual_fields(name, order):
    """The fields of a head and the attributes that a key is made of, by their places and their
    numbers."""
    fields = {("head", place): few[0] for place, few in FEW[name].items()}
    for number in KEYED[name]:
        value = struct.pack(order + "I", 254) if number == reference.TABLE else b"\1\2\3\4"
        fields["attributes", number] = [(number, "", "bytes", value)]
    return fields


def varied(choose, name, fields, count, order):
    """The same fields, up to so many of them made otherwise."""
    fields = dict(fields)
    for _ in range(count):
        sort, place = field = choose.choice(list(fields))
        if sort == "head":
            fields[field] = choose.choice(FEW[name][place])
        else:
            fields[field] = otherwise(choose, place, order)
    return fields


def entry(choose, name, fields, depth, order):
    """The body of an item with these fields, or with one or two of them made otherwise, and any
    others."""
    values, found = [*some_values(choose, name, order)], []
    count = choose.choice((0, 1, 1, 2))
    for (sort, place), field in varied(choose, name, fields, count, order).items():
        if sort == "head":
            values[place] = field
        else:
            found += field
    if choose.random() < 0.1:
        choose.shuffle(found)
    if choose.random() < 0.3:
        found += attributes(choose, name, min(depth, 3))
    if choose.random() < 0.1:
        found += nested(depth + (choose.random() < 0.2))
    return name, tuple(values), found


def error(choose, code):
    values = code, 20, *choose.choices(range(65536), k=4)
    return "error", values, choose.randbytes(choose.randrange(9))


def part(choose, name, fields, ids, depth, order):
    """A message of a dump: mostly an item, and else an acknowledgement, an entry of any family, or
    anything."""
    sequence, port = ids
    flags = mostly(choose, 2, 0, 0x10, 0x12, 0xFFEF)
    others = (sequence ^ 1, port), (sequence, port ^ 1), (port, sequence), (0, 0)
    numbers = mostly(choose, ids, *others)
    roll = choose.random()
    if roll < 0.85:
        other = mostly(choose, name, *reference.NEW)
        kind = reference.NEW[other] + mostly(choose, 0, 1)
        return (kind, flags, *numbers), entry(choose, other, fields[other], depth, order)
    if roll < 0.93:
        return (2, flags, *numbers), error(choose, mostly(choose, 0, 1, -1, share=0.9))
    (kind, *_), body = message(choose, order)
    return (kind, flags, *numbers), body


def last(choose, ids):
    """What ends a dump: mostly DONE with status 0, or else another DONE, an error, OVERRUN, or
    nothing."""
    flags = mostly(choose, 2, 0x12, 0xFFFF, share=0.9)
    some = choose.randbytes(choose.randrange(4))
    status = choose.choice((1, 2**31 - 1, -1, -(2**31)))
    code = choose.choice((1, 256, -1, -(2**31)))
    found = mostly(
        choose,
        (3, ("done", (0,), some)),
        (3, ("done", (), some)),
        (3, ("done", (status,), some)),
        (2, error(choose, code)),
        (4, ("bytes", (), some)),
        None,
        share=0.4,
    )
    return [((found[0], flags, *ids), found[1])] if found else []


def asked_and_dump(choose, order):
    """What is asked, and the datagrams of a dump: messages, an end, and mostly nothing behind."""
    name, ids = choose.choice(list(reference.NEW)), choose.choice(IDS)
    depth = mostly(choose, 8, *DEPTHS, share=0.6)
    entries = mostly(choose, 4096, *ENTRIES, share=0.5)
    before, behind = choose.choice((0, 2, 5, 9, 20)), mostly(choose, 0, 1, 3, share=0.7)
    fields = {other: usual_fields(other, order) for other in reference.NEW}
    fields[name] = varied(choose, name, fields[name], choose.choice((0, 0, 3)), order)
    messages = [part(choose, name, fields, ids, depth, order) for _ in range(before + behind)]
    messages[before:before] = last(choose, ids)
    if choose.random() < 0.3:
        messages = [loosened(choose, message, order) for message in messages]
    datagrams = []
    while messages:
        count = choose.choice((1, 2, 4, 8))
        datagrams.append(reference.written(messages[:count], order))
        messages = messages[count:]
    return (name, *ids, depth, entries), datagrams


def damaged(choose, datagrams):
    """The same datagrams, some of them cut or changed."""
    return [
        mostly(choose, text, cut(choose, text), changed(choose, text), share=0.6)
        for text in datagrams
    ]


def large(order):
    """Dumps that reach the limits of a datagram and of a table."""
    ids = IDS[1]
    done = (3, 2, *ids), ("done", (0,), b"")
    for size in (65536, 65540):
        value = bytes(size - 56)
        one = (16, 2, *ids), ("link", (0, 1, 1, 0, 0), [(3, "link", "bytes", value)])
        parts = [one, done], [done]
        yield ("link", *ids, 8, 4096), [reference.written(found, order) for found in parts]
    for count in (4095, 4096):
        indices = [*range(count), 0, count]
        links = [((16, 2, *ids), ("link", (0, 1, index, 0, 0), [])) for index in indices]
        parts = [links[:2000], links[2000:4000], [*links[4000:], done]]
        yield ("link", *ids, 8, 4096), [reference.written(found, order) for found in parts]


def until_the_end(choose, ids, texts, whole, order):
    """Runs that feed each of these datagrams: each up to one that ends its dump or so many, with
    the recording behind them."""
    fed = []
    for text in texts:
        if not fed:
            limits = mostly(choose, USUAL, *LIMITS, share=0.5)
            dump = reference.Dump(*ids, order, *limits)
        fed.append(text)
        try:
            dump.feed(text)
        except reference.Fault:
            pass
        if dump.end is not None or len(fed) == FED:
            yield (*ids, *limits), fed + whole
            fed = []
    if fed:
        yield (*ids, *limits), fed + whole


def recorded_tables(order):
    """Each recording as the dump that it is, and as others: of another kind, number or port."""
    for _, (kind, sequence, port), whole, alone in recordings(order):
        for other, numbers in itertools.product(reference.NEW, (0, 1, 2)):
            ids = sequence ^ (numbers & 1), port ^ (numbers >> 1)
            limits = LIMITS[::6] if other == kind else LIMITS[-1:]
            for limit, texts in itertools.product(limits, (whole, alone)):
                yield (other, *ids, *limit), texts


def hostile_tables(order):
    for title, datagrams in hostile(order):
        asked = [(kind, 0, 0, depth, 65536) for kind in reference.NEW for depth in (8, 32)]
        yield title, [(one, datagrams) for one in asked]


def table_groups(order):
    """The name of each group of runs, and these: what is asked, the datagrams, and others that
    must give the same text."""
    choose = random.Random(f"tables {order}")
    found = [(*ids, whole, alone) for _, ids, whole, alone in recordings(order)]
    yield "recorded", [
        ((kind, sequence, port, *limit), texts)
        for name, sequence, port, whole, alone in found
        for kind in reference.NEW
        for texts in (whole, alone)
        for limit in (LIMITS if kind == name else LIMITS[-1:])
    ]
    yield "recorded, each message alone", [
        ((*ids, 8, entries), whole, alone) for *ids, whole, alone in found for entries in ENTRIES
    ]
    yield "recorded and changed", [
        ((*ids, *choose.choice(LIMITS)), damaged(choose, texts))
        for *ids, whole, alone in found
        for texts in [whole, alone] * 20
    ]
    new = [asked_and_dump(choose, order) for _ in range(ASKED)]
    yield "generated", new
    yield "generated and changed", [(it, damaged(choose, texts)) for it, texts in new[:400]]
    yield "large", large(order)
    for file, ids, whole, texts in mutated(order):
        yield f"mutated {file}", until_the_end(choose, ids, texts, whole, order)
    yield "recorded, of each kind", recorded_tables(order)
    yield from hostile_tables(order)
