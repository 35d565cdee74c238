#!/usr/bin/env python3
"""Compares the built program with the second reading of docs/FORMAT.md, in both byte orders: what
`show`, `check` and `table` print of the datagrams and the dumps of datagrams.py, `show` of those of
payloads.py and hostile_payloads.py, and `mirror` of the recordings of notifications.py, as text and
as lines of JSON, and the requests of `request`. The text must also be what is written from the
program's JSON alone, and each line of JSON one that share/rtnl.schema.json allows. The last line is
'N passed, M failed', and the status is 1 where a case failed.
"""
import itertools
import json
import os
import subprocess
import sys
from concurrent.futures import ProcessPoolExecutor

sys.dont_write_bytecode = True
sys.path.insert(0, f"{os.path.dirname(os.path.realpath(__file__))}/helpers")
import datagrams
import hostile_payloads
import notifications
import payloads
import proved
import reference
import reference_lines
import reference_mirror
import schema
from counting import counted, whole
from datagrams import ORDERS

PROGRAM = proved.program()
STANDARD = {"order": "little", "family": 0, "depth": reference.DEPTH, "entries": reference.ENTRIES}
STANDARD["waiting"] = reference.ENTRIES
SEQUENCES = (0, 1, 258, 0x01020304, 2**32 - 1)
GOOD = f"{bytes.fromhex('1400000003000200010000003930000000000000').hex()}\n"
# Recordings with a bad line, and its number.
BAD = [(f"{GOOD}0g\n", 2), (f"# note\n\nabc\n{GOOD}", 3), (f"{GOOD}00 # note\nzz\n", 2)]


def options(**values):
    """The options of a run; those that ask for what is standard are left out."""
    asked = [(name, value) for name, value in values.items() if STANDARD.get(name) != value]
    return [text for name, value in asked for text in (f"--{name}", str(value))]


def as_lines(found):
    return "".join(f"{data.hex()}\n" for data in found)


def ran(recording, *arguments):
    """What the program prints, its status and its errors."""
    run = subprocess.run([PROGRAM, *arguments], input=recording, capture_output=True, text=True)
    return run.stdout, run.returncode, run.stderr


def difference(wanted, found):
    """Where what was printed, the status or the errors differ first, or nothing."""
    if wanted == found:
        return None
    lines = itertools.zip_longest(wanted[0].split("\n"), found[0].split("\n"))
    pairs = itertools.chain(lines, zip(wanted[1:], found[1:]))
    texts = next([str(it) for it in pair] for pair in pairs if pair[0] != pair[1])
    place = max(0, len(os.path.commonprefix(texts)) - 60)
    return "expected %.200r, found %.200r" % tuple(text[place:] for text in texts)


class Schema:
    """The schema of the lines of JSON, where it can be read. A line is looked at once."""

    def __init__(self, is_here):
        self.allowed = {it: schema.Allowed(it) for it in schema.COMMANDS} if is_here else {}
        self.seen = set()

    def fault(self, command, lines, objects):
        """Why one of these lines is not allowed, or nothing."""
        for it in zip(lines, objects) if self.allowed else ():
            if (command, it[0]) not in self.seen:
                self.seen.add((command, it[0]))
                fault = self.allowed[command].fault(it[1])
                if fault:
                    return f"the schema does not allow {it[0]:.200}: {fault}"
        return None


def answers(found, dump):
    """The kinds of the objects that answer a dump, in datagrams that are accepted."""
    kinds = {number: name for name, number in reference.NEW.items()}
    for data in found:
        try:
            read = [*reference.Reading(data, dump.order, dump.depth).messages()]
        except reference.Fault:
            continue
        for (kind, _, *numbers), _ in read:
            if numbers == [dump.sequence, dump.port] and kind in kinds:
                yield kinds[kind]


def errors_of(found, dump):
    """What is said of a dump that was fed these, where all that answers it is of other kinds."""
    kinds = [*answers(found, dump)]
    if not kinds or kinds[0] == dump.name or not dump.ignored or dump.table or dump.missed:
        return ""
    numbers = f"with seq {dump.sequence} port {dump.port}"
    are = f"the answers {numbers} are" if len({*kinds}) == 1 else f"the first answer {numbers} is"
    return f"rtnl: ignored {dump.ignored}: {are} of kind {kinds[0]}\n"


def both_forms(lines_schema, arguments, recording, objects, ending, as_text, same=()):
    """What a run prints otherwise than these objects in JSON and the text of them, or how it ends
    otherwise: by its status and its errors. What is the same in text may be asked for there."""
    text = ran(recording, *arguments, *same)
    lines, *others = in_json = ran(recording, *arguments, "--format", "json")
    found, again = lines.split("\n")[:-1], ""
    try:
        read = [json.loads(line) for line in found]
        again = as_text(read)
        fault = lines_schema.fault(arguments[0], found, read)
    except (AttributeError, LookupError, TypeError, ValueError) as error:
        fault = f"no text of the JSON: {error!r}"
    return {
        "text": difference((as_text(objects), *ending), text),
        "JSON": difference((reference_lines.lines(objects), *ending), in_json) or fault,
        "both forms": difference((again, *others), text),
    }


def forms(lines_schema, arguments, recording, objects, sizes, errors=""):
    """The same of a run whose status the objects say, with these errors."""
    command = arguments[0]
    status = int(any("refused" in it or it.get("complete") is False for it in objects))
    # The address family stands in the request alone, and text is what is printed without a format.
    same = ["--family", "2", "--format", "text"] if command == "table" else []

    def as_text(found):
        return reference_lines.text(command, found, sizes)

    ending = status, errors
    return both_forms(lines_schema, arguments, recording, objects, ending, as_text, same)


def of_each(lines_schema, order, command, recording, found):
    """The same of `show` or `check`, over a recording of these datagrams."""
    objects = [*reference_lines.of_each(command, found, ORDERS[order])]
    arguments, sizes = [command, *options(order=order)], [len(data) for data in found]
    return forms(lines_schema, arguments, recording, objects, sizes)


def of_table(lines_schema, order, asked, found, fed=None):
    """The same of one dump."""
    kind, seq, port, depth, entries = asked
    dump = reference.Dump(kind, seq, port, ORDERS[order], depth, entries)
    objects = [*reference_lines.tabled(found, dump)]
    asked = options(order=order, kind=kind, seq=seq, port=port, depth=depth, entries=entries)
    errors = errors_of(found, dump)
    return forms(lines_schema, ["table", *asked], as_lines(fed or found), objects, (), errors)


def of_mirror(lines_schema, order, asked, recording, is_of_changes):
    """The same of tables that are kept current: at the end, or as they change."""
    kind, is_strict = asked.get("kind"), asked.get("strict", False)
    limits = {it: asked[it] for it in ("family", "depth", "entries", "waiting") if it in asked}
    mirror = reference_mirror.Mirror(ORDERS[order], **limits)
    objects = [*mirror.mirrored(recording, kind, is_of_changes, is_strict)]
    ending = mirror.status(kind), "".join(f"{it}\n" for it in mirror.errors)
    flags = ["--changes"] * is_of_changes + ["--strict"] * is_strict
    arguments = ["mirror", *options(order=order, kind=kind, **limits), *flags]

    def as_text(found):
        return reference_mirror.text(found, is_of_changes)

    return both_forms(lines_schema, arguments, recording.decode(), objects, ending, as_text)


def of_request(order, kind, family, seq):
    line = reference.request(kind, family, seq, ORDERS[order]).hex()
    asked = options(order=order, kind=kind, family=family, seq=seq)
    return {"text": difference((f"{line}\n", 0, ""), ran("", "request", *asked))}


def of_bad_line(arguments, recording, line):
    """What else a run says in either form than that this line is bad."""
    wanted = "", 1, f"rtnl: line {line}: bad line\n"
    ways = {"text": [], "JSON": ["--format", "json"]}
    return {it: difference(wanted, ran(recording, *arguments, *ways[it])) for it in ways}


def in_tables(lines_schema, order):
    """The same payloads in the entries of tables, of a dump and of a mirror."""
    (_, found), *_ = payloads.groups(ORDERS[order])
    sequence, port = payloads.IDS
    for kind in reference.NEW:
        yield of_table(lines_schema, order, (kind, *payloads.IDS, 8, 4096), found)
        heading = f"# seq {sequence} port {port} kind {kind}\n"
        recording = (heading + as_lines(found)).encode()
        yield of_mirror(lines_schema, order, {"kind": kind}, recording, True)


def runs(lines_schema, order):
    """The name of each group of runs, and what differs in each of these, by what is compared."""
    of = ORDERS[order]
    every = datagrams.groups(of), datagrams.mutated_groups(of), datagrams.hostile(of)
    for name, found in itertools.chain(*every):
        for command in ("check", "show"):
            each = [of_each(lines_schema, order, command, as_lines(found), found)]
            yield f"{command} of {name} datagrams", each
    for command in ("check", "show"):
        files = datagrams.recorded_files()
        yield f"{command} of files", (of_each(lines_schema, order, command, *it) for it in files)
    for name, found in itertools.chain(payloads.groups(of), hostile_payloads.groups(of)):
        yield f"show of {name}", [of_each(lines_schema, order, "show", as_lines(found), found)]
    yield "payloads in tables", in_tables(lines_schema, order)
    for name, found in datagrams.table_groups(of):
        yield f"table of {name} datagrams", (of_table(lines_schema, order, *it) for it in found)
    for name, found in notifications.groups(of):
        each = itertools.product(found, (False, True))
        yield f"mirror of {name}", (of_mirror(lines_schema, order, *it, how) for it, how in each)
    for kind in reference.NEW:
        numbers = itertools.product((0, 2, 7, 10, 255), SEQUENCES)
        yield f"request of {kind}", (of_request(order, kind, *it) for it in numbers)
    tables = (["table", *options(kind=kind, seq=1, port=12345)] for kind in reference.NEW)
    for asked in (["check"], ["show"], *tables):
        asked += options(order=order)
        yield f"bad lines, {' '.join(asked)}", (of_bad_line(asked, *it) for it in BAD)


def cases(order, has_schema):
    """Each group of runs and what is compared in it, with what differs first, or nothing."""
    found = {}
    for name, faults in runs(Schema(has_schema), order):
        for number, run in enumerate(faults, 1):
            for what, fault in run.items():
                case = f"{what}, {name}, {order}"
                found[case] = found.get(case) or fault and f"run {number}: {fault}"
    return list(found.items())


def main(cases):
    """Tries the cases of both orders side by side."""
    has_schema = itertools.repeat(schema.has_libraries())
    with ProcessPoolExecutor(len(ORDERS)) as lanes:
        found = itertools.chain.from_iterable(lanes.map(cases, ORDERS, has_schema))
        return counted((name, [fault] if fault else []) for name, fault in found)


if __name__ == "__main__":
    whole("19 of 20 mutations, and of what is made at random")
    sys.exit(main(cases))
