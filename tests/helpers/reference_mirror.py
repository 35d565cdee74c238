"""The second reading of "Mirrored tables" of docs/FORMAT.md, over those of reference.py and
reference_lines.py: what `mirror` prints of a recording, as the objects of its lines of JSON and as
the text, which is written from these objects alone; what it says of lines; and how it ends.
"""
import re

from reference import (
    BRIDGE, DEPTH, DONE, ENTRIES, ERROR, HEADS, INTERRUPTED, NEW, OVERRUN, Fault, Reading,
    first_number, key,
)
from reference_lines import body_lines, body_object, refusal, refused, words

HEADING = re.compile(rb"# seq ([0-9]+) port ([0-9]+)(?: kind (\w+))?[ \t\r]*")
DROPPED = re.compile(rb"# dropped(?:[ \t\r:].*)?", re.S)
MULTI, REPLACE_OR_APPEND = 2, 0x100 | 0x800
IFF_UP, NTF_SELF, NDA_MASTER, CLONED = 1, 2, 9, 0x200
IPV4, IPV6 = 2, 10
NUMBER = "its sequence number is not above those before"


def head(sort, values):
    return {field.name: value for field, value in zip(HEADS[sort].kept, values)}


def mirror_key(sort, values, found, order):
    """The key of a table, but for an address that a bridge has: that bridge is in it."""
    of = head(sort, values)
    if sort == "neigh" and of["family"] == BRIDGE and not of["flags"] & NTF_SELF:
        master = first_number(found, NDA_MASTER, 4, order)
        place = [field.name for field in HEADS[sort].kept].index("index")
        values = *values[:place], master, *values[place + 1 :]
    return key(sort, values, found, order)


class Table:
    """Entries in their order, each under its key, and how many found no room."""

    def __init__(self, limit):
        self.limit, self.missed, self.entries = limit, 0, []

    def place(self, name):
        return next((at for at, (one, _) in enumerate(self.entries) if one == name), None)

    def put(self, name, body):
        """The sign of what changed, the place, the entry, and the one before; or nothing."""
        at = self.place(name)
        if at is not None:
            _, before = self.entries[at]
            self.entries[at] = name, body
            return "~", at, body, before
        if len(self.entries) == self.limit:
            self.missed += 1
            return None
        self.entries.append((name, body))
        return "+", len(self.entries) - 1, body, None

    def remove(self, name):
        at = self.place(name)
        if at is None:
            return None
        _, before = self.entries[at]
        end = self.entries.pop()
        if at < len(self.entries):
            self.entries[at] = end
        return "-", at, before, None


class Kept:
    """The table of one kind, and what is known of the dump of it that runs."""

    def __init__(self, name, order, entries, waiting):
        self.name, self.order, self.entries, self.waiting = name, order, entries, waiting
        self.table, self.coming, self.since = Table(entries), None, []
        self.dump, self.why, self.asked = None, "never dumped", 0
        self.is_interrupted = self.is_lost = False

    def stale(self):
        return self.why or ("full" if self.table.missed else None)

    def lose(self, why):
        self.is_lost, self.why = True, self.why or why

    def begin(self, numbers, family):
        if self.dump:
            self.end(False)
        if family != self.asked:
            self.lose("never dumped")
        self.dump, self.asked, self.coming = numbers, family, Table(self.entries)
        self.is_interrupted = self.is_lost = False

    def end(self, is_whole):
        if is_whole and not self.is_lost:
            self.table, self.why = self.coming, None
        self.dump, since, self.since = None, self.since, []
        for is_gone, body in since:
            self.tell(is_gone, body)

    def tell(self, is_gone, body):
        name = mirror_key(*body, self.order)
        return self.table.remove(name) if is_gone else self.table.put(name, body)

    def is_covered(self, body):
        of = head(self.name, body[1])
        if self.name == "route" and of["flags"] & CLONED:
            return False
        is_any = self.asked == 0 and self.name != "link" and of["family"] != BRIDGE
        return is_any or of["family"] == self.asked

    def doubt(self, kind, flags, body):
        """Why a message that belongs to no dump makes the table stale, if it does."""
        sort, values, _ = body
        if kind == OVERRUN:
            return "lost"
        if self.name != "route" or flags & MULTI or sort not in ("link", "addr", "route"):
            return None
        of, is_gone = head(sort, values), kind == NEW[sort] + 1
        if sort == "link":
            return "silent" if is_gone or not of["flags"] & IFF_UP else None
        if sort == "addr":
            return "silent" if is_gone and of["family"] == IPV4 else None
        is_open = flags & REPLACE_OR_APPEND or is_gone and of["family"] == IPV6
        return "unnamed" if is_open else None

    def within(self, kind, flags, body):
        """Takes a message that belongs to the dump that runs."""
        number = body[1][0] if body[1] else 0
        is_marked = bool(flags & INTERRUPTED)
        if kind == NEW[self.name]:
            self.coming.put(mirror_key(*body, self.order), body)
            self.is_interrupted |= is_marked
        elif kind in (DONE, OVERRUN) or kind == ERROR and number != 0:
            is_done = kind == DONE and number >= 0
            self.end(is_done and not (self.is_interrupted or is_marked))
            if kind == OVERRUN:
                self.lose("lost")

    def hear(self, kind, flags, sequence, port, body):
        """Takes a message. It answers what changed in the table."""
        if self.dump == (sequence, port):
            return self.within(kind, flags, body)
        changed, is_gone = None, kind == NEW[self.name] + 1
        is_told = (kind == NEW[self.name] or is_gone) and not flags & MULTI
        if is_told and self.is_covered(body):
            if not self.dump:
                changed = self.tell(is_gone, body)
            elif len(self.since) < self.waiting:
                self.since.append((is_gone, body))
            else:
                self.lose("waiting")
        why = self.doubt(kind, flags, body)
        if why:
            self.lose(why)
        return changed


class Mirror:
    """All tables, what is printed of them, and what is said of lines."""

    def __init__(self, order, family=0, depth=DEPTH, entries=ENTRIES, waiting=ENTRIES):
        self.order, self.family, self.depth = order, family, depth
        self.of = {name: Kept(name, order, entries, waiting) for name in NEW}
        self.last, self.datagrams, self.is_blemished = -1, 0, False
        self.errors = []

    def body(self, kind, body):
        return {kind: body_object(*body, self.order)}

    def entries(self, kind):
        for number, (_, body) in enumerate(self.of[kind].table.entries, 1):
            yield {"entry": number, **self.body(kind, body)}

    def change(self, sign, at, body, before):
        kind = body[0]
        found = {"change": sign, "entry": at + 1, **self.body(kind, body)}
        return {**found, "before": body_object(*before, self.order)} if before else found

    def begin(self, kind, numbers):
        if numbers[0] <= self.last:
            self.is_blemished = True
            yield {"dump": kind, "seq": numbers[0], "port": numbers[1], "refused": "seq"}
            return
        self.last = numbers[0]
        self.of[kind].begin(numbers, self.family)

    def take(self, data):
        """Takes a datagram, and gives what changed, each with its kind; or why it was refused."""
        self.datagrams += 1
        try:
            messages = Reading(data, self.order, self.depth).messages()
        except Fault as fault:
            self.is_blemished = True
            for kept in self.of.values():
                kept.lose("refused")
            yield refused(self.datagrams, fault)
            return
        for fields, body in messages:
            found = [kept.hear(*fields, body) for kept in self.of.values()]
            yield from (self.change(*it) for it in found if it)

    def bad(self, number):
        self.is_blemished = True
        self.errors.append(f"rtnl: line {number}: bad line")

    def line(self, number, line):
        """What is printed of what a line does, but for tables."""
        heading, digits = HEADING.fullmatch(line), re.sub(rb"[ \t\r]", b"", line)
        if heading and heading[3]:
            kind, numbers = heading[3].decode(), tuple(map(int, heading.groups()[:2]))
            if kind in NEW and max(numbers) < 2**32:
                yield from self.begin(kind, numbers)
        elif DROPPED.fullmatch(line):
            self.errors.append(f"rtnl: line {number}: messages were dropped here")
            for kept in self.of.values():
                kept.lose("lost")
        elif not line.startswith(b"#") and digits:
            if len(digits) % 2 or not re.fullmatch(rb"[0-9a-fA-F]*", digits):
                self.bad(number)
            else:
                yield from self.take(bytes.fromhex(digits.decode()))

    def step(self, number, line, kinds):
        """What a line does, and what becomes of the tables of these kinds by it."""
        before = {kind: (self.of[kind].dump, self.of[kind].stale()) for kind in kinds}
        for it in self.line(number, line):
            if "change" not in it or not {*kinds}.isdisjoint(it):
                yield it
        for kind in kinds:
            kept, (dump, stale) = self.of[kind], before[kind]
            is_ended = dump is not None and kept.dump is None
            if is_ended:
                yield {"change": "=", "table": kind, "entries": len(kept.table.entries)}
                yield from self.entries(kind)
            if kept.stale() and (is_ended or not stale):
                yield {"change": "?", "table": kind, "stale": kept.stale()}

    def end(self, kind):
        """The table of a kind at the end."""
        yield from self.entries(kind)
        kept, why = self.of[kind], self.of[kind].stale()
        found = {"table": kind, "entries": len(kept.table.entries), "missed": kept.table.missed}
        yield {**found, "current": not why, **({"stale": why} if why else {})}

    def mirrored(self, recording, kind=None, is_of_changes=False, is_strict=False):
        """The objects that are printed of a recording."""
        kinds = [kind] if kind else list(NEW)
        for number, line in enumerate(recording.split(b"\n"), 1):
            bad_before = len(self.errors)
            for it in self.step(number, line, kinds):
                if is_of_changes or "refused" in it:
                    yield it
            if is_strict and any("bad line" in it for it in self.errors[bad_before:]):
                break
        if not is_of_changes:
            for it in kinds:
                yield from self.end(it)

    def status(self, kind=None):
        shown = [kind] if kind else list(NEW)
        return int(self.is_blemished or any(self.of[it].stale() for it in shown))


# The text, from the objects alone.


def change_lines(found):
    """The lines of something that changed."""
    sign = found["change"]
    if "table" in found:
        yield f"{sign} {found['table']} {found['entries'] if sign == '=' else found['stale']}"
        return
    _, (_, number), (kind, body), *before = found.items()
    yield f"{sign} {kind} {number}"
    yield from body_lines(kind, body)
    for _, one in before:
        yield "was"
        yield from body_lines(kind, one)


def end_line(found):
    why = "" if found["current"] else f": {found['stale']}"
    return f"{words(found, 'entries', 'missed', 'current')}{why}"


def table_lines(entries, end):
    """The lines of a table at the end."""
    yield f"table {end['table']}"
    for it in entries:
        yield from entry_lines(it)
    yield end_line(end)


def entry_lines(found):
    (_, number), (kind, body) = found.items()
    yield f"entry {number}"
    yield from body_lines(kind, body)


def mirror_lines(objects, is_of_changes):
    """The lines of these objects. A table has its name in front of its entries."""
    entries = []
    for it in objects:
        if "dump" in it:
            yield f"{words(it, 'dump', 'seq', 'port')} refused: {NUMBER}"
        elif "refused" in it:
            yield f"datagram {it['datagram']} {refusal(it)}"
        elif "change" in it:
            yield from change_lines(it)
        elif "table" in it:
            yield from table_lines(entries, it)
            entries = []
        elif is_of_changes:
            yield from entry_lines(it)
        else:
            entries.append(it)


def text(objects, is_of_changes=False):
    return "".join(f"{line}\n" for line in mirror_lines(objects, is_of_changes))
