"""Recordings of dumps amid notifications, for `mirror`: generated, so that keys come again, changes
wait, and all occurs that makes a table stale. They are the same in each run, and made by the second
reading alone.
"""
import random

import counting
import datagrams
import reference
from datagrams import mostly

# So many recordings are generated in each order.
GENERATED = 400 if counting.IS_WHOLE else 40
# Fields of heads that say whether a notification is covered, by their places; the first value is
# the usual. And the flags of a message, the usual ones first.
COVERED = {
    "link": {0: (0, 7), 3: (0x11043, 0x1002)},
    "addr": {0: (2, 10)},
    "route": {0: (2, 10), 8: (0, 0x200)},
    "neigh": {0: (2, 7)},
    "rule": {0: (2, 10)},
}
FLAGS = 0, 0x400, 0x100, 0x800, 2
MASTER, OVERRUN = 9, ((4, 0, 0, 0), ("bytes", (), b""))
FAMILIES, FEW = (0, 7, 2, 10, 255), (4096, 0, 1, 2)
COMMENTS = b"", b" \t\r", b"# note", b"#", b"# seq 7 port 1", b"# seq 4294967296 port 1 kind link"
COMMENTS += (b"# seq +9 port 1 kind link", b"# seq 9 port 1 kind links", b"#seq 9 port 1 kind link")
COMMENTS += b"# seq 9 port 1 kind link .", b"# droppeds", b"#dropped"
LOSSES = b"# dropped", b"# dropped: here", b"# dropped\t", b"# dropped\r", b"# dropped 7"
BAD = b"zz", b"123", b"0g", b" # dropped"


class Recorder:
    """What a recording is made of."""

    def __init__(self, choose, order):
        self.choose, self.order = choose, order
        # How often something is lost, refused, bad or out of order.
        self.harm = choose.choice((0, 0, 0.01, 0.1))
        self.kinds = choose.sample(list(reference.NEW), choose.choice((1, 2, 5)))
        self.fields = {it: datagrams.usual_fields(it, order) for it in reference.NEW}
        self.sequence, self.port = choose.choice((0, 1, 2**32 - 40)), choose.choice((0, 1, 2**31))
        self.dumps, self.bodies = {}, {}

    def is_harmed(self):
        return self.choose.random() < self.harm

    def body(self, kind):
        """An entry whose key comes again, and that is mostly covered; or the one before it."""
        choose = self.choose
        if kind in self.bodies and choose.random() < 0.1:
            return self.bodies[kind]
        sort, values, found = datagrams.entry(choose, kind, self.fields[kind], 4, self.order)
        values = [*values]
        for place, usual in COVERED[kind].items():
            values[place] = mostly(choose, *usual, share=0.8)
        if kind == "neigh" and choose.random() < 0.7:
            master = choose.choice((b"\1\0\0\0", b"\0\0\0\1", b"\1"))
            found = [*found, (MASTER, "", "bytes", master)]
        self.bodies[kind] = sort, tuple(values), found
        return self.bodies[kind]

    def notification(self):
        choose = self.choose
        kind = choose.choice(self.kinds)
        number = reference.NEW[kind] + mostly(choose, 0, 1, share=0.7)
        numbers = mostly(choose, (0, 0), (self.sequence, self.port), share=0.9)
        return (number, mostly(choose, *FLAGS, share=0.8), *numbers), self.body(kind)

    def items(self, kind):
        """Some parts of the dump that runs."""
        count, numbers = self.choose.choice((0, 1, 1, 3)), self.dumps[kind]
        found = []
        for _ in range(count):
            if self.is_harmed():
                fields, order = self.fields, self.order
                found.append(datagrams.part(self.choose, kind, fields, numbers, 4, order))
            else:
                flags = self.choose.choice((0x12, 0)) if self.is_harmed() else 2
                found.append(((reference.NEW[kind], flags, *numbers), self.body(kind)))
        return found

    def ending(self, kind):
        if self.is_harmed():
            return datagrams.last(self.choose, self.dumps[kind])
        return [((3, 2, *self.dumps[kind]), ("done", (0,), b""))]

    def heading(self):
        choose, kind = self.choose, self.choose.choice(self.kinds)
        self.sequence += choose.choice((0, -1)) if self.is_harmed() else choose.choice((1, 5))
        self.sequence = min(max(0, self.sequence), 2**32 - 1)
        self.dumps[kind] = self.sequence, self.port
        line = f"# seq {self.sequence} port {self.port} kind {kind}".encode()
        return line + mostly(choose, b"", b" ", b"\r", b" \t")

    def datagram(self):
        """Messages of a dump, its end, and notifications."""
        choose, found = self.choose, []
        for _ in range(choose.choice((1, 1, 1, 2, 4))):
            roll, kind = choose.random(), choose.choice(list(self.dumps) or [None])
            if kind and roll < 0.3:
                found += self.items(kind)
            elif kind and roll < 0.55:
                found += self.ending(kind)
            elif self.is_harmed():
                found.append(OVERRUN)
            else:
                found.append(self.notification())
        data = reference.written(found or [self.notification()], self.order)
        return datagrams.cut(choose, data) if self.is_harmed() else data

    def line(self):
        roll = self.choose.random()
        if roll < 0.15:
            return self.heading()
        if roll < 0.9:
            return self.datagram().hex().encode()
        return self.choose.choice((LOSSES + BAD) if self.is_harmed() else COMMENTS)


def asked(choose, kinds):
    """What is asked of the program, by names of options; mostly what is standard."""
    return {
        "family": mostly(choose, *FAMILIES, share=0.8),
        "depth": mostly(choose, 8, 0, 1, 32, share=0.9),
        "entries": mostly(choose, *FEW, share=0.7),
        "waiting": mostly(choose, *FEW, share=0.7),
        "strict": choose.random() < 0.1,
        "kind": mostly(choose, kinds[0], None, *reference.NEW, share=0.5),
    }


def one(choose, order):
    """What is asked, and a recording."""
    recorder = Recorder(choose, order)
    count = choose.choice((1, 5, 20, 60))
    lines = b"\n".join(recorder.line() for _ in range(count))
    return asked(choose, recorder.kinds), lines


def recorded(order):
    """Each recording as the dump that it is, and as one before it is asked for."""
    for _, (kind, sequence, port), whole, alone in datagrams.recordings(order):
        heading = f"# seq {sequence} port {port} kind {kind}".encode()
        for texts in (whole, alone):
            lines = [it.hex().encode() for it in texts]
            for found in ([heading, *lines, b""], [*lines, heading], [heading, *lines, *lines]):
                yield from (({"entries": few}, b"\n".join(found)) for few in FEW)


def groups(order):
    """The name of each group of recordings, and these: what is asked, and the lines."""
    choose = random.Random(f"notifications {order}")
    yield "recorded dumps", [*recorded(order)]
    yield "dumps amid notifications", [one(choose, order) for _ in range(GENERATED)]
