"""A second reading of docs/FORMAT.md, in another language and first written without a look at the
code.

It reads and writes datagrams, feeds them to a dump and makes requests; what is printed of them is
in reference_lines.py and reference_bytes.py. Limits that are not arguments are the standard ones;
a session's total is not here, since no recording reaches it. The names and forms of attributes,
types and bits are those of crates/rtnl/specs, and the numbers that stand there by name those of
the crates below. An order is a prefix of the module struct: `<` for little, `>` for big.
"""
import os
import re
import struct
from typing import Any, Dict, List, NamedTuple

DEPTH, LARGEST, ENTRIES = 8, 65536, 4096
ENDS = {"<": "little", ">": "big"}
ROOT = os.path.realpath(f"{os.path.dirname(os.path.realpath(__file__))}/../..")
NUMBER = re.compile(r"^([A-Z]\w+) = (\w+)$", re.M)
ROW = re.compile(r'\((\w+), codes "(\w+)", (\w+)\)|\(codes "(\w+)", (0x[0-9a-f]+)\)')

# The first message type of each family, whose entries are items of its dump.
NEW = {"link": 16, "addr": 20, "route": 24, "neigh": 28, "rule": 32}
# What the kernel's names of the attributes of a context begin with.
PREFIXES = {
    **{"link": "IFLA_", "link_info": "IFLA_INFO_", "addr": "IFA_", "route": "RTA_"},
    **{"metrics": "RTAX_", "neigh": "NDA_", "rule": "FRA_", "plain": ""},
}


# The tables of crates/*/specs.


def specs(crate: str, name: str) -> str:
    with open(f"{ROOT}/crates/{crate}/specs/{name}.antt", encoding="utf-8") as file:
        return file.read()


FILES = [name.capitalize() for name in NEW]
NAMED = ("nl_attr", "Fixed"), *(("nl_route", name) for name in FILES), ("nl_table", "Neigh")
FIXED = {name: int(number, 0) for it in NAMED for name, number in NUMBER.findall(specs(*it))}


def tables(*names: str) -> Dict[str, List[Any]]:
    """The tables of some files: rows of a number, a name and a form, or of a name and a bit."""
    found: Dict[str, List[Any]] = {}
    for name in names:
        for line in specs("rtnl", name).splitlines():
            head, front = re.match(r"(\w+) =\s*$", line), re.match(r"\s+(\w+) \+\+", line)
            if head:
                rows = found.setdefault(head[1], [])
            if front:
                rows += found[front[1]]
            for number, text, form, bit_name, bit in ROW.findall(line):
                value = FIXED.get(number) or int(number or bit, 0)
                rows.append((value, text, form) if number else (bit_name, value))
    return found


ROWS = tables(*FILES)
ATTRIBUTES = {
    context: {number: (name, form) for number, name, form in ROWS.get(f"{context}_rows", ())}
    for context in PREFIXES
}
BITS, CONTROLS = tables("NamedBits"), tables("Types")["controls"]
NESTED, NET = 0x8000, 0x4000
BITS["attribute_flags"] = ("nested", NESTED), ("net", NET)

# The types of messages: the sort of the body, and the name with the names of the flags.

GETS = tuple(new + 2 for new in NEW.values())
FAMILIES = {16: "link", 17: "link", 19: "link"}
FAMILIES.update((new + by, name) for name, new in NEW.items() for by in (0, 1))
ERROR, DONE, OVERRUN = 2, 3, 4
SORTS = {ERROR: "error", DONE: "done", **dict.fromkeys(GETS, "get"), **FAMILIES}
VERBS = ("new", "New"), ("del", "Common"), ("get", "Get"), ("set", "Common")
FLAGS = {"Common": "message_flags", "Get": "get_flags", "New": "new_flags", "Error": "error_flags"}
KINDS = {number: (name, BITS[FLAGS[flags]]) for number, name, flags in CONTROLS}
for family, new in NEW.items():
    for number, (verb, flags) in enumerate(VERBS, new):
        if number in SORTS:
            KINDS[number] = verb + family, BITS[FLAGS[flags]]
OTHER = "other", BITS["message_flags"]
TYPES = {
    number: ("NLMSG_" if number <= OVERRUN else "RTM_") + name.upper()
    for number, (name, _) in KINDS.items()
}
INTERRUPTED = 0x10

# The heads.


class Field(NamedTuple):
    """A field of a head: its letter of the module struct, its name in the kernel's headers and,
    where it is kept, that in the text and in JSON; how many digits it has behind 0x, where it is
    not decimal; and the table of the names of its bits."""

    letter: str
    kernel: str
    name: str = ""
    digits: str = ""
    bits: str = ""

    def size(self):
        return struct.calcsize(f"={self.letter}")

    def names(self):
        """The field of JSON that has the names of its bits."""
        return f"{self.name.rstrip('s')}_names"


class Head:
    """The fields of a head, those that are kept, and the form of these for the module struct."""

    def __init__(self, text):
        self.fields = [Field(*words.split()) for words in text.split(",") if words]
        self.kept = [it for it in self.fields if it.name]
        self.form = "".join(it.letter if it.name else "x" * it.size() for it in self.fields)
        self.size = sum(it.size() for it in self.fields)


HEADER = (
    "I nlmsg_len len, H nlmsg_type type, H nlmsg_flags flags 4, I nlmsg_seq seq, I nlmsg_pid port"
)
HEADS = {
    "message": Head(HEADER),
    "hop": Head("B rtnh_flags flags 2 hop_flags, B rtnh_hops hops, i rtnh_ifindex index"),
    "link": Head(
        "B ifi_family family, B __ifi_pad, H ifi_type type, i ifi_index index,"
        "I ifi_flags flags 8 link_flags, I ifi_change change 8"
    ),
    "addr": Head(
        "B ifa_family family, B ifa_prefixlen prefix, B ifa_flags flags 2, B ifa_scope scope,"
        "I ifa_index index"
    ),
    "route": Head(
        "B rtm_family family, B rtm_dst_len dst_len, B rtm_src_len src_len, B rtm_tos tos,"
        "B rtm_table table, B rtm_protocol protocol, B rtm_scope scope, B rtm_type type,"
        "I rtm_flags flags 8"
    ),
    "neigh": Head(
        "B ndm_family family, B ndm_pad1, H ndm_pad2, i ndm_ifindex index,"
        "H ndm_state state 4 neigh_states, B ndm_flags flags 2 neigh_flags, B ndm_type type"
    ),
    "rule": Head(
        "B family family, B dst_len dst_len, B src_len src_len, B tos tos, B table table,"
        "B res1, B res2, B action action, I flags flags 8"
    ),
    "get": Head("B rtgen_family family"),
    "done": Head("i status status"),
    "error": Head(f"i error code, {HEADER}"),
    "bytes": Head(""),
}
# The heads of items, of which the first field is the length.
MESSAGE, ATTRIBUTE, HOP = HEADS["message"].form, "HH", "H" + HEADS["hop"].form


class Fault(Exception):
    """A broken rule and the place of the head that breaks it."""


def aligned(length):
    return (length + 3) // 4 * 4


# Reading: each item of a region by its fields.


def content(context, number, is_nested):
    """What an attribute holds: bytes, hops, or the attributes of a context."""
    if context == "route" and number == 9:
        return "hops"
    known = {("link", 18): "link_info", ("route", 8): "metrics"}.get((context, number))
    return known or ("plain" if is_nested else "bytes")


class Reading:
    """The reading of one datagram under limits of depth and size, and its visits so far."""

    def __init__(self, data, order, depth=DEPTH, largest=LARGEST):
        self.data, self.order, self.depth, self.largest = data, order, depth, largest
        self.visits = 0

    def fields(self, form, place):
        return struct.unpack_from(self.order + form, self.data, place)

    def head(self, place, end, form):
        """The fields of a head, of which the first is the length of its item."""
        size = struct.calcsize(self.order + form)
        if end - place < size:
            raise Fault("cut", place)
        fields = self.fields(form, place)
        if not size <= fields[0] <= end - place:
            raise Fault("bad length", place)
        return fields

    def visited(self, place, end, form):
        """Each item of a region, which is visited: its place, its end, and the fields behind its
        length."""
        while place < end:
            length, *fields = self.head(place, end, form)
            following = min(end, place + aligned(length))
            self.visits += following - place
            yield place, place + length, fields
            place = following

    def attributes(self, place, end, level, context):
        found = []
        for place, behind, (kind,) in self.visited(place, end, ATTRIBUTE):
            holds = content(context, kind & 0x3FFF, kind & NESTED)
            if holds != "bytes" and behind - place > 65532:
                raise Fault("too long", place)
            if holds != "bytes" and level + (2 if holds == "hops" else 1) > self.depth:
                raise Fault("too deep", place)
            if holds == "bytes":
                value = self.data[place + 4 : behind]
            elif holds == "hops":
                value = self.next_hops(place + 4, behind, level + 1)
            else:
                value = self.attributes(place + 4, behind, level + 1, holds)
            found.append((kind, context, holds, value))
        return found

    def next_hops(self, place, end, level):
        found = []
        for place, behind, fields in self.visited(place, end, HOP):
            found.append((*fields, self.attributes(place + 8, behind, level + 1, "route")))
        return found

    def body(self, start, end, kind):
        """The body of the message at `start`, by its type."""
        place, sort = start + 16, SORTS.get(kind, "bytes")
        if sort == "done" and end - place < 4:
            return sort, (), self.data[place:end]
        behind = place + HEADS[sort].size
        if behind > end:
            raise Fault("short body", start)
        values = self.fields(HEADS[sort].form, place)
        if sort in NEW:
            return sort, values, self.attributes(behind, end, 0, sort)
        return sort, values, self.data[behind:end]

    def messages(self):
        """The messages of the datagram, or its first fault."""
        if len(self.data) > self.largest:
            raise Fault("too large")
        messages, place = [], 0
        while place < len(self.data):
            length, *fields = self.head(place, len(self.data), MESSAGE)
            messages.append((fields, self.body(place, place + length, fields[0])))
            place = min(len(self.data), place + aligned(length))
        return messages


def read(data, order):
    """The messages of a datagram, or its first fault."""
    return Reading(data, order).messages()


# Writing.


def item(form, fields, payload, order):
    """An item with its length and its padding."""
    size = struct.calcsize(order + form)
    text = struct.pack(order + form, size + len(payload), *fields) + payload
    return text + bytes(aligned(len(text)) - len(text))


def written_attributes(found, order):
    text = b""
    for kind, _, holds, value in found:
        if holds == "hops":
            hops = ((fields, written_attributes(inside, order)) for *fields, inside in value)
            value = b"".join(item(HOP, fields, inside, order) for fields, inside in hops)
        elif holds != "bytes":
            value = written_attributes(value, order)
        text += item(ATTRIBUTE, (kind,), value, order)
    return text


def written(messages, order):
    text = b""
    for fields, (sort, values, rest) in messages:
        head = struct.pack(order + HEADS[sort].form, *values) if values else b""
        rest = written_attributes(rest, order) if sort in NEW else rest
        text += item(MESSAGE, fields, head + rest, order)
    return text


def request(name, family, sequence, order):
    """The request of a dump, for entries of one address family or of all."""
    body = "get", (family,), bytes(HEADS[name].size - 1)
    return written([((NEW[name] + 2, 0x0301, sequence, 0), body)], order)


# Keys, tables and the dump.

BRIDGE, KEY_FLAGS, TABLE = 7, 2 | 4 | 8, 15
# The fields of each key in their order, with how many bytes they have: those of a head by their
# names, `#` the number that an attribute begins with, and `*` the bytes of one.
KEYS = {
    "link": "index:4",
    "addr": "family:1 index:4 prefix:1 *1 *2",
    "route": "family:1 dst_len:1 *1 src_len:1 *2 tos:1 table:4 #6:4 type:1 #4:4 *5",
    "neigh": "family:1 index:4 flags:1 *1",
    "bridge": "family:1 index:4 flags:1 *1 *2 #5:2 #7:4",
    "rule": (
        "family:1 dst_len:1 *1 src_len:1 *2 tos:1 table:4 #6:4 action:1 #4:4 #10:4 #16:4 *3 *17"
    ),
}
KEY_FIELDS = {
    context: [(it.partition(":")[0], int(it.partition(":")[2] or 0)) for it in text.split()]
    for context, text in KEYS.items()
}


def first(found, number):
    """The bytes of the first attribute of a number, or nothing where it is absent or no bytes."""
    items = (item for item in found if item[0] & 0x3FFF == number)
    _, _, holds, value = next(items, (0, "", "absent", None))
    return value if holds == "bytes" else None


def first_number(found, number, size, order, otherwise=0):
    """What the first attribute of a number begins with, or another where it has too few bytes."""
    value = first(found, number) or b""
    return int.from_bytes(value[:size], ENDS[order]) if len(value) >= size else otherwise


def key(context, values, found, order):
    """The bytes by which an entry is known among those of its family."""
    head = {field.name: value for field, value in zip(HEADS[context].kept, values)}
    if context in ("route", "rule"):
        head["table"] = first_number(found, TABLE, 4, order, head["table"])
    if context == "neigh":
        head["flags"] &= KEY_FLAGS
        context = "bridge" if head["family"] == BRIDGE else context
    text = b""
    for name, size in KEY_FIELDS[context]:
        if name[0] == "*":
            value = first(found, int(name[1:]))
            text += b"\0" if value is None else b"\1" + struct.pack("<Q", len(value)) + value
            continue
        number = first_number(found, int(name[1:]), size, order) if name[0] == "#" else head[name]
        text += (number % 256**size).to_bytes(size, "little")
    return text


class Dump:
    """A dump that a new session began, and what became of it."""

    def __init__(self, name, sequence, port, order, depth=DEPTH, entries=ENTRIES):
        self.name, self.sequence, self.port, self.order = name, sequence, port, order
        self.depth, self.entries = depth, entries
        self.table, self.end = {}, None
        self.missed = self.ignored = self.received = self.visits = 0
        self.is_damaged = self.is_interrupted = False

    def feed(self, data):
        """Takes a datagram, or refuses it with its first fault."""
        reading = Reading(data, self.order, self.depth)
        try:
            for fields, body in reading.messages():
                self.take(*fields, body)
        except Fault:
            self.is_damaged = True
            raise
        finally:
            self.received += len(data)
            self.visits += reading.visits

    def take(self, kind, flags, sequence, port, body):
        """Puts an item into the table, notes the end, or ignores the message."""
        belongs = self.end is None and (sequence, port) == (self.sequence, self.port)
        is_item, number = kind == NEW[self.name], body[1][0] if body[1] else 0
        is_end = kind in (DONE, OVERRUN) or kind == ERROR and number != 0
        if not belongs or not (is_item or is_end):
            self.ignored += 1
            return
        if is_item:
            self.put(body)
        else:
            self.end = kind, number
        if (is_item or kind == DONE) and flags & INTERRUPTED:
            self.is_interrupted = True

    def put(self, body):
        """Keeps an entry as the last one of its key, or misses it where the key is new and the
        table full."""
        name = key(*body, self.order)
        if name in self.table or len(self.table) < self.entries:
            self.table[name] = body
        else:
            self.missed += 1

    def is_complete(self):
        is_done = self.end is not None and self.end[0] == DONE and self.end[1] >= 0
        return is_done and not (self.is_interrupted or self.is_damaged or self.missed)
