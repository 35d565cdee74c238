#!/usr/bin/env python3
"""Holds what the built program prints with `show --bytes`, as text and as JSON, against
reference_bytes.py, and what `show` and `check` print of the same datagrams against
reference_lines.py, which share one reading. That is in both byte orders: of each recording, whole
and each of its messages alone; of 20,000 mutations of messages of the recordings, half of them in
each order; of generated ones, changed and cut ones, and hostile ones; and of payloads of each
attribute, whole and hostile. What the rows show of a datagram is also what `show` says of it in
JSON, by agreement.py, which must find rows that are changed. The last line is 'N passed, M failed',
and the status is 1 where a case failed.
"""
import functools
import glob
import itertools
import json
import os
import random
import re
import sys

sys.dont_write_bytecode = True
sys.path.insert(0, f"{os.path.dirname(os.path.realpath(__file__))}/helpers")
import agreement
import compare
import counting
import datagrams
import hostile_payloads
import mutations
import payloads
import reference
import reference_bytes
from compare import difference, ran
from datagrams import ORDERS
from reference_inside import is_printed

# So many mutations of each recording, of datagrams of up to so many of its messages.
IS_WHOLE = counting.whole("19 of 20 mutations, and of what is made at random")
MUTATIONS, TOGETHER = 1000 if IS_WHOLE else 50, 3
# The first group of datagrams, which is of the recordings, is taken whole, and of the next each
# so many-th.
STEP = 8
# Of payloads each so many-th is taken, so that there is one of each attribute in each group.
STEP_OF_PAYLOADS = 3 if IS_WHOLE else 1
BLOCK = re.compile(r"^datagram \d+ bytes \d+$", re.M)
ROW = re.compile(r"^ *(\d+) ((?: [0-9a-f]{2}){1,16})(?:( {2,})(\S.*))?$", re.M)
FAULTY = re.compile(r"!! (.*): ([a-z ]+?)(?: at \d+, \d+ bytes left)?")
FLAGS = "NESTED", "NET_BYTEORDER"


# The datagrams.


def mutated(order):
    """The name of each recording, and mutations of its messages, the same in each run."""
    choose = random.Random(f"bytes {order}")
    found = list(datagrams.recordings(order))
    others = [text for *_, alone in found for text in alone]
    for file, _, _, alone in found:
        few = [b"".join(alone[at : at + TOGETHER]) for at in range(0, len(alone), TOGETHER)]
        yield file, list(mutations.mutations(choose, MUTATIONS, few, alone, others, order))


def loosened(order):
    """Messages whose paddings hold anything, or are missing."""
    choose = random.Random(f"loosened {order}")
    for _ in range(500):
        found = [datagrams.message(choose, order) for _ in range(choose.randrange(1, 4))]
        yield reference.written([datagrams.loosened(choose, it, order) for it in found], order)


def rich():
    """The recordings of a machine with all kinds of links, routes and traffic control."""
    for path in sorted(glob.glob(f"{reference.ROOT}/examples/rich/*/*.hex")):
        with open(path, encoding="ascii") as lines:
            found = [bytes.fromhex(line) for line in lines if not line.startswith("#")]
        yield os.path.relpath(path, reference.ROOT), found


def groups(order):
    """The name of each group, its datagrams, and whether it is a short one."""
    for number, (name, found) in enumerate(datagrams.groups(order)):
        yield f"{name} datagrams", found[:: STEP if number else 1], True
    yield "loosened datagrams", list(loosened(order)), True
    yield from ((f"{name} datagrams", found, True) for name, found in datagrams.hostile(order))
    for file, found in mutated(order):
        yield f"mutated {file} datagrams", found, False
    for name, found in itertools.chain(payloads.groups(order), hostile_payloads.groups(order)):
        yield name, found[::STEP_OF_PAYLOADS], True
    if order == ORDERS["little"]:
        yield from ((name, found, True) for name, found in rich())


# What is wrong with what was printed, or nothing.


def fault_of_bytes(blocks, found):
    """Which datagram has not each of its bytes once, in order, in the rows of its block."""
    for number, (rows, data) in enumerate(itertools.zip_longest(blocks, found), 1):
        place = 0
        for offset, digits, *_ in rows or ():
            if int(offset) != place:
                return f"datagram {number}: {offset} in place of {place}"
            place += len(digits) // 3
        if "".join(row[1] for row in rows or ()).replace(" ", "") != (data or b"").hex():
            return f"datagram {number}: other bytes"
    return None


def is_said(name, words, value):
    """Whether these words of the text say a value that stands in JSON."""
    first, _, rest = words.partition(" ")
    if name in ("nlmsg_type", "rta_type"):
        named = [word for word in rest.split() if word not in FLAGS]
        return value == (named[0] if named else int(first))
    if isinstance(value, dict):
        number, names = value.values()
        found = ",".join(names) or "-" if isinstance(names, list) else names
        return words == (f"{number} {found}" if found else str(number))
    if isinstance(value, str):
        return rest == value if first in ("text", "ipv4", "ipv6") else words == value
    return type(value) is int and value == int(rest if first in ("u8", "u16", "u32") else first, 0)


def is_silent(value):
    """Whether a value of JSON is none of the text: there is none, or it isn't printed as a text."""
    return value is None or isinstance(value, str) and not is_printed(value)


def differs_in_json(number, row, it):
    """Whether a row of a datagram says something else in the text than this object of JSON."""
    offset, digits, gap, words = row
    value = fault = None
    name, is_more = it["name"], False
    if words:
        is_faulty = FAULTY.fullmatch(words)
        words, fault = is_faulty.groups() if is_faulty else (words, None)
        name, is_more, value = words.partition(" ")
        level = max(0, len(gap) + len(digits) - 54) // 2
    else:
        level = it["level"]
    front = number, int(offset), len(digits) // 3, digits.replace(" ", ""), level, name
    is_same = is_said(name, value, it["value"]) if is_more else is_silent(it["value"])
    return (*front, fault) != (*[*it.values()][:6], it["fault"]) or not is_same


def fault_of_forms(blocks, text):
    """Which row says something else in the text than in JSON."""
    rows = ((number, row) for number, found in enumerate(blocks, 1) for row in found)
    objects = map(json.loads, text.split("\n")[:-1])
    for row, it in itertools.zip_longest(rows, objects):
        if row is None or it is None or differs_in_json(*row, it):
            return f"the text has {row}, JSON {it}"
    return None


def fault_of_schema(allowed, text):
    """Which row the schema doesn't allow, whatever the number of its datagram."""
    if not allowed:
        return None
    for row in dict.fromkeys(line.partition(",")[2] for line in text.split("\n")[:-1]):
        fault = allowed["show"].fault(json.loads(f'{{"datagram":1,{row}'))
        if fault:
            return f"{row}: {fault}"
    return None


# The cases.


def cases(order, lines_schema, found, is_short):
    """The name of each case, and what is wrong in it; a short group has two more."""
    recording, of = compare.as_lines(found), ORDERS[order]
    numbered = [(*it, reference_bytes.parts(it[1], of)) for it in enumerate(found, 1)]
    status = int(any(part.fault for *_, parts in numbered for part in parts))

    def differs(rows, *options):
        """What is printed with these options, and where it isn't these rows of each datagram."""
        printed = ran(recording, "show", "--bytes", "--order", order, *options)
        wanted = "".join(f"{line}\n" for it in numbered for line in rows(*it))
        return printed[0], difference((wanted, status, ""), printed)

    text, fault = differs(reference_bytes.lines)
    yield "rows", fault
    objects, fault = differs(reference_bytes.objects, "--format", "json")
    yield "rows in JSON", fault
    blocks = [ROW.findall(block) for block in BLOCK.split(text)[1:]]
    yield "each byte once", fault_of_bytes(blocks, found)
    yield "text and JSON", fault_of_forms(blocks, objects)
    shown, *_ = ran(recording, "show", "--order", order, "--format", "json")
    yield "rows and objects", agreement.fault(objects, shown)
    for command in ("show", "check"):
        faults = compare.of_each(lines_schema, order, command, recording, found)
        yield from ((f"{what} of {command}", fault) for what, fault in faults.items())
    if is_short:
        in_colour = functools.partial(reference_bytes.lines, has_colour=True)
        yield "rows in colour", differs(in_colour, "--color", "always")[1]
        yield "schema", fault_of_schema(lines_schema.allowed, objects)


def fault_of_agreement():
    """Which change of a row agreement.py doesn't find."""
    _, found = next(it for it in rich() if it[0].endswith("qdisc.hex"))
    recording = compare.as_lines(found[:1])
    ways = ["--bytes"], []
    rows, objects = (ran(recording, "show", "--format", "json", *it)[0] for it in ways)
    lines = rows.split("\n")[:-1]
    for number, line in enumerate(lines):
        row = json.loads(line)
        others = [{**row, "value": 7 if row["value"] != 7 else 8}, {**row, "name": "other"}]
        is_told = row["name"] not in ("nlmsg_len", "rta_len", "__ifi_pad")
        changed = [[json.dumps(it)] for it in others if is_told] + [[]]
        for it in changed:
            text = "\n".join([*lines[:number], *it, *lines[number + 1 :], ""])
            if not agreement.fault(text, objects):
                return f"{it} in place of {line}"
    return None if lines else "no row"


def of_order(order, has_schema):
    """The name of each case of an order, and what is wrong in it."""
    lines_schema = compare.Schema(has_schema)
    changed = [("rows that are changed", fault_of_agreement())] if order == "little" else []
    return changed + [
        (f"{case} of {name}, {order}", fault and f"{fault:.1000}")
        for name, *group in groups(ORDERS[order])
        for case, fault in cases(order, lines_schema, *group)
    ]


if __name__ == "__main__":
    sys.exit(compare.main(of_order))
