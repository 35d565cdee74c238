"""What the calls on a session and on a stream answer, by docs/FORMAT.md alone. It adds to the
second reading, ../helpers/reference.py, the events of a datagram and the limits of a session.
"""
import struct
import zlib

import reference
from reference import ATTRIBUTE, HOP

MESSAGE, BYTES, LIST, HOPS, NEXT_HOP = range(5)
IDLE, WAITING, DONE, FAILED, OVERRUN, ABANDONED = range(6)
CODES = {"cut": 1, "bad length": 2, "short body": 3, "too long": 4, "too deep": 5, "too large": 6}
TOTAL, NOT_WAITING, BUSY, SAME_SEQ, NO_KIND = 7, 8, 9, 10, 19
FLAGS = reference.NESTED | reference.NET


class Tape(reference.Reading):
    """A reading of one datagram that also knows where each head stands."""

    def __init__(self, *given):
        super().__init__(*given)
        self.places, self.found, self.regions = [], [], []

    def body(self, start, end, kind):
        found = super().body(start, end, kind)
        self.places.append(start)
        self.found.append((start, end - start - 16, kind, 0, MESSAGE, 0, 0))
        return found

    def attributes(self, place, end, level, context):
        self.regions.append((place, end, level, context))
        return super().attributes(place, end, level, context)

    def next_hops(self, place, end, level):
        self.regions.append((place, end, level, None))
        return super().next_hops(place, end, level)

    def region(self, place, end, level, context):
        """The events of a region's own items."""
        for place, behind, (kind, *_) in self.visited(place, end, ATTRIBUTE if context else HOP):
            if context is None:
                yield place, behind - place - 8, 0, level, NEXT_HOP, 0, 0
                continue
            number = kind & ~FLAGS
            holds = reference.content(context, number, kind & reference.NESTED)
            sort = {"bytes": BYTES, "hops": HOPS}.get(holds, LIST)
            net = int(kind & reference.NET > 0)
            nested = int(kind & reference.NESTED > 0)
            yield place, behind - place - 4, number, level, sort, nested, net

    def events(self):
        """The events of all heads, in the order of their places."""
        visits = self.visits
        for region in self.regions:
            self.found += self.region(*region)
        self.visits = visits
        return sorted(self.found)


def sum_of(rows):
    """The sum of the bytes of these events."""
    return zlib.crc32(b"".join(struct.pack("<IIHBBBB", *row) for row in rows))


class Session:
    """A session and a stream, which are handed the same."""

    def __init__(self, limits, order):
        self.total, self.largest, self.entries, self.depth = limits
        self.order, self.state, self.dump, self.family = order, IDLE, None, 0
        self.received = self.visits = 0
        # The last dump of each family, whose entries stay.
        self.dumps = {}

    def begin(self, name, family, sequence, port):
        """The code, and the bytes of the request."""
        if name not in reference.NEW:
            return NO_KIND, b""
        if self.state == WAITING:
            return BUSY, b""
        if self.dump and self.dump.sequence == sequence:
            return SAME_SEQ, b""
        self.dump = reference.Dump(name, sequence, port, self.order, self.depth, self.entries)
        self.dumps[name], self.state, self.family = self.dump, WAITING, family
        return 0, reference.request(name, family, sequence, self.order)

    def abandon(self):
        if self.state != WAITING:
            return NOT_WAITING
        self.state = ABANDONED
        return 0

    def feed(self, data):
        """The code, the place, the items, the ignored, whether it ended, the events of the items,
        and how many heads there are."""
        if self.state != WAITING:
            return NOT_WAITING, 0, 0, 0, 0, [], 0
        if self.received + len(data) > self.total:
            self.dump.is_damaged = True
            return TOTAL, 0, 0, 0, 0, [], 0
        tape = Tape(data, self.order, self.depth, self.largest)
        try:
            messages = tape.messages()
        except reference.Fault as fault:
            self.dump.is_damaged = True
            why, place = (*fault.args, 0)[:2]
            return CODES[why], place, 0, 0, 0, [], 0
        finally:
            self.received += len(data)
            self.visits += tape.visits
        before = self.dump.ignored
        items = [place for place, message in zip(tape.places, messages) if self.take(*message)]
        heads = tape.events()
        self.end()
        ignored, ended = self.dump.ignored - before, int(self.state != WAITING)
        return 0, 0, len(items), ignored, ended, within(heads, items), len(heads)

    def take(self, fields, body):
        """Takes a message, and says whether it is an item."""
        ignored = self.dump.ignored
        self.dump.take(*fields, body)
        return self.dump.ignored == ignored and body[0] in reference.NEW

    def end(self):
        if self.dump.end:
            kind, _ = self.dump.end
            ends = {reference.DONE: DONE, reference.ERROR: FAILED, reference.OVERRUN: OVERRUN}
            self.state = ends[kind]

    def status(self):
        """All fields of a status, the session's `complete` and the stream's."""
        dump = self.dump
        if not dump:
            return [0] * 13
        status = dump.end[1] if self.state in (DONE, FAILED) else 0
        is_whole = not (dump.is_damaged or dump.is_interrupted)
        of_stream = self.state == DONE and status >= 0 and is_whole
        front = [self.state, status, self.received, self.visits, dump.ignored]
        words = [dump.is_damaged, dump.is_interrupted, of_stream and not dump.missed, of_stream]
        ids = [reference.NEW[dump.name], self.family, dump.sequence, dump.port]
        return [*front, *map(int, words), *ids]

    def table(self, name):
        """The bytes of the entries of a family, those of their keys, and how many were missed."""
        dump = self.dumps.get(name)
        found, missed = (dump.table, dump.missed) if dump else ({}, 0)
        fields = reference.NEW[name], 0, 0, 0
        entries = [reference.written([(fields, body)], self.order) for body in found.values()]
        return entries, list(found), missed


def within(heads, items):
    """The events of the messages at these places."""
    found, is_in = [], False
    for row in heads:
        if row[4] == MESSAGE:
            is_in = row[0] in items
        if is_in:
            found.append(row)
    return found
