#!/usr/bin/env python3
"""dumps.py COUNT COMMAND..: holds dumps.c, run by this command, against reading.py, over so many
dumps in each byte order. They are made of the messages of examples/ and of tests/data/recordings/,
the same in each run, and mutated: flags, types, lengths, sequence numbers, port ids, datagrams
that are cut or come twice, small limits, and too little room. It says how many of what there were;
the status is 1 where an answer differs, or where some answer that could come never did.
"""
import collections
import os
import random
import struct
import subprocess
import sys
import zlib

sys.dont_write_bytecode = True
sys.path.insert(0, f"{os.path.dirname(os.path.realpath(__file__))}/../helpers")
import datagrams
import mutations
import reading
import reference

# How many dumps are handed over at once.
CHUNK = 500
# How often each answer must come at least.
LEAST = 3
USUAL = 1 << 30, 65536, 4096, 8
KINDS = (0, 1, 2, 3, 4, 16, 17, 18, 20, 24, 25, 28, 32, 65535)
STATUSES = (0, 0, 0, 1, -1, -16, 2**31 - 1, -(2**31))
IDS = ((1, 4242), (0, 0), (7, 0), (0x01020304, 0x80000000), (2**32 - 1, 1))


def shorter(choose, message, count):
    """A message of a family with so many of its attributes at most."""
    fields, (sort, values, rest) = message
    places = sorted(choose.sample(range(len(rest)), min(count, len(rest))))
    return fields, (sort, values, [rest[place] for place in places])


def bridged(choose, message):
    """A neighbour as one of a bridge, with a VLAN and a VNI, of which some are too short."""
    fields, (sort, (_, *values), rest) = message
    added = [(reference.FIXED["NDA_VLAN"], 2), (reference.FIXED["NDA_VNI"], 4)]
    texts = [choose.choice((bytes(size - 1), bytes(size), b"\1" * size)) for _, size in added]
    rest = rest + [(kind, "neigh", "bytes", text) for (kind, _), text in zip(added, texts)]
    return fields, (sort, (reference.BRIDGE, *values), rest)


def pools(choose, order):
    """Short messages by their family, and all that can stand in their place."""
    found = {name: [] for name in reference.NEW}
    others = []
    for _, (name, *_), _, alone in datagrams.recordings(order):
        others += [text for text in alone if len(text) <= 300]
        for text in alone:
            (message,) = reference.read(text, order)
            if message[0][0] != reference.NEW[name]:
                continue
            counts = [2, 4, 6] * 10 if name == "link" else [9] if len(text) < 300 else [1, 2, 3]
            shorts = [shorter(choose, message, it) for it in counts]
            shorts += [bridged(choose, message)] if name == "neigh" else []
            found[name] += [reference.written([it], order) for it in shorts]
    return found, others


class Maker:
    """Makes dumps of one byte order."""

    def __init__(self, choose, order):
        self.choose, self.order = choose, order
        self.pool, self.others = pools(choose, order)

    def put(self, text, place, form, value):
        text = bytearray(text)
        struct.pack_into(self.order + form, text, place, value)
        return bytes(text)

    def some(self, share, usual, *others):
        return usual if self.choose.random() < share else self.choose.choice(others)

    def item(self, name, ids):
        """A message of a family, mostly as the dump wants it."""
        choose = self.choose
        text = self.with_ids(choose.choice(self.pool[self.some(0.94, name, *self.pool)]), ids)
        text = self.put(text, 6, "H", self.some(0.97, 2, 0x12, 0x10, 0, 0xFFEF, 0xFFFF))
        if choose.random() < 0.05:
            text = self.put(text, 4, "H", choose.choice(KINDS))
        if choose.random() < 0.3 and len(text) > 24:
            # The index of an interface, or what stands there, so that keys are new and old.
            text = self.put(text, 20, "I", choose.randrange(4))
        if choose.random() < 0.1 and len(text) > 16:
            # The address family; 7 is that of a bridge, whose neighbours have a key of their own.
            text = self.put(text, 16, "B", choose.choice((2, 7, 7, 10)))
        return text

    def with_ids(self, text, ids):
        sequence, port = ids
        others = (sequence ^ 1, port), (sequence, port ^ 1), (port, sequence), (0, 0)
        sequence, port = self.some(0.94, ids, *others)
        return self.put(self.put(text, 8, "I", sequence), 12, "I", port)

    def control(self, kind, payload, ids):
        flags = self.some(0.85, 2, 0x12, 0xFFFF, 0)
        head = struct.pack(self.order + "IHHII", 16 + len(payload), kind, flags, 0, 0)
        return self.with_ids(head + payload, ids)

    def last(self, ids):
        """What ends a dump, mostly; an acknowledgement doesn't."""
        choose, some = self.choose, self.choose.randbytes(3)
        status = struct.pack(self.order + "i", choose.choice(STATUSES))
        done = [status, status + some, some, b"", bytes(4)]
        kind = choose.choices((3, 2, 4, 0), (12, 4, 2, 2))[0]
        if kind == 2:
            answered = choose.randbytes(choose.choice((16, 20)))
            return [self.control(2, status + answered, ids)]
        payload = choose.choice(done) if kind == 3 else choose.randbytes(choose.choice((0, 4)))
        return [self.control(kind, payload, ids)] if kind else []

    def datagrams(self, name, ids):
        """The answers to a dump, some behind its end, and not yet mutated."""
        choose = self.choose
        items = [self.item(name, ids) for _ in range(choose.choice((0, 1, 2, 3, 4)))]
        behind = [self.item(name, ids) for _ in range(self.some(0.8, 0, 1, 2))]
        rest = [*items, *self.last(ids), *behind]
        found = []
        while rest:
            count = choose.choice((1, 2, 3))
            found.append(datagrams.joined(choose, rest[:count]))
            rest = rest[count:]
        return found

    def changed(self, text):
        """A datagram that is changed somewhere, or cut."""
        choose = self.choose
        way = choose.randrange(6)
        if way == 0:
            return text[: choose.randrange(len(text) + 1)]
        if way == 1:
            place = choose.choice(datagrams.CHANGES + tuple(range(16, 48, 4)))
            byte = choose.choice(datagrams.CHANGES)
            return text[:place] + bytes([byte]) + text[place + 1 :] if place < len(text) else text
        if way == 2:
            near = (0, 15, 16, len(text) - 1, len(text), len(text) + 1, len(text) + 4, 2**32 - 1)
            return self.put(text, 0, "I", max(0, choose.choice(near)))
        if way == 3 and len(text) >= 40:
            place = choose.randrange(16, len(text) - 4, 4)
            return self.put(text, place, "H", choose.choice((0, 3, 4, 5, 8, 12, 40, 65532, 65535)))
        if way == 4:
            return text + choose.randbytes(choose.choice((1, 3, 4, 15, 16, 20)))
        ways = [choose.choice(mutations.WAYS)]
        return mutations.mutated(choose, ways, text, self.others, self.order)

    def mutated(self, datagrams):
        """Datagrams of which some are changed, come twice or never, or in another order."""
        choose, found = self.choose, []
        if choose.random() < 0.25:
            return datagrams
        for text in datagrams:
            roll = choose.random()
            if roll < 0.3:
                text = self.changed(text)
            if roll < 0.9:
                found.append(text)
            if roll > 0.85 and roll < 0.95:
                found.append(text)
        if choose.random() < 0.1:
            choose.shuffle(found)
        return found

    def limits(self, datagrams):
        """The limits of a session, mostly the usual, or about what the datagrams take."""
        total, largest, entries, depth = USUAL
        choose, sizes = self.choose, [len(text) for text in datagrams] or [0]
        whole, some = sum(sizes), choose.choice(sizes)
        near = 0, whole, max(0, whole - 1), whole + 1, some, whole - some
        total = self.some(0.75, total, *near)
        size = min(65536, max(16, (some + choose.choice((-4, 0, 3))) // 4 * 4))
        largest = self.some(0.85, largest, size)
        entries, depth = self.some(0.6, entries, 0, 1, 2), self.some(0.7, depth, 0, 1, 2, 32)
        return total, largest, entries, depth


class Script:
    """The lines that dumps.c reads, and those that it must print."""

    def __init__(self, maker, counts):
        self.maker, self.counts = maker, counts
        self.asked, self.wanted = [], []

    def say(self, asked, wanted):
        self.asked.append(asked)
        self.wanted.append(wanted)

    def begin(self, session, name, family, ids):
        # Any type of the family is the same; 23 is of none.
        kind = reference.NEW.get(name, 23) + (self.maker.choose.randrange(3) if name else 0)
        code, request = session.begin(name, family, *ids)
        self.counts[f"begin {code}"] += 1
        self.say(f"begin {kind} {family} {ids[0]} {ids[1]}", f"begin {code} {request.hex()}")

    def feed(self, session, text):
        choose = self.maker.choose
        code, place, items, ignored, ended, events, heads = session.feed(text)
        room = choose.choice((0, max(0, heads - 1), heads, heads + 1, 256, 16384))
        needed = heads if code == 0 and room < heads else -1
        self.counts[f"code {code}"] += 1
        self.counts["no room"] += needed >= 0
        self.counts["items"] += items
        answer = f"{code} {place} {items} {ignored} {ended} {len(events)}"
        answer += f" {reading.sum_of(events):08x} {needed}"
        self.say(f"feed {room} {text.hex()}", f"feed {answer}")

    def end(self, session):
        said = " ".join(map(str, session.status()))
        for name, kind in reference.NEW.items():
            entries, keys, missed = session.table(name)
            sums = [f"{zlib.crc32(b''.join(texts)):08x}" for texts in (entries, keys)]
            said += f" {kind}:{session.entries}:{len(entries)}:{missed}:{sums[0]}:{sums[1]}"
            self.counts["missed"] += missed
        status = session.status()
        self.counts[f"state {status[0]}"] += 1
        for name, value in zip(("damaged", "interrupted", "complete"), status[5:8]):
            self.counts[f"{name} {value}"] += 1
        self.say("end", f"end {said}")

    def abandon(self, session):
        code = session.abandon()
        self.counts[f"abandon {code}"] += 1
        self.say("abandon", f"abandon {code}")

    def long(self):
        """Dumps with a container that is as long as may be, and one that is a byte longer."""
        for longest in (65532, 65533):
            inner = struct.pack(self.maker.order + "HH", longest - 4, 1) + bytes(longest - 8)
            outer = struct.pack(self.maker.order + "HH", longest, 0x8000 | 1) + inner
            form = self.maker.order + reference.HEADS["link"].form
            body = struct.pack(form, 0, 1, longest, 0, 0) + outer
            text = struct.pack(self.maker.order + "IHHII", 16 + len(body), 16, 2, 9, 9) + body
            self.session_of((1 << 30, 1 << 20, 4096, 8), [("link", (9, 9), [text])])

    def dump(self):
        """One dump, and seldom another one behind it in the same session."""
        maker, choose = self.maker, self.maker.choose
        name, ids = choose.choice([*reference.NEW]), choose.choice(IDS)
        dumps = [(name, ids, maker.mutated(maker.datagrams(name, ids)))]
        while choose.random() < 0.2:
            name, ids = choose.choice([name, *reference.NEW]), choose.choice([ids, *IDS])
            dumps.append((name, ids, maker.mutated(maker.datagrams(name, ids))))
        limits = maker.limits([text for *_, texts in dumps for text in texts])
        self.session_of(limits, dumps)

    def session_of(self, limits, dumps):
        """A session of these limits, and its dumps."""
        choose, order = self.maker.choose, self.maker.order
        session = reading.Session(limits, order)
        total, largest, entries, depth = limits
        self.say(f"new {total} {largest} {entries} {depth} {int(order == '>')}", "new 0 0")
        for name, ids, texts in dumps:
            if choose.random() < 0.02:
                self.begin(session, "", 0, ids)
            self.begin(session, name, choose.choice((0, 2, 10, 255)), ids)
            for text in texts:
                self.feed(session, text)
            if choose.random() < 0.1:
                self.abandon(session)
        self.end(session)


def differs(command, script):
    """Whether the program answers otherwise; then it says where."""
    given = "\n".join(script.asked) + "\n"
    ran = subprocess.run(command, input=given, capture_output=True, text=True)
    found = ran.stdout.split("\n")[:-1]
    if ran.returncode == 0 and found == script.wanted:
        return False
    pairs = list(zip(script.wanted, [*found, *["nothing"] * len(script.wanted)]))
    first = next((at for at, (wanted, it) in enumerate(pairs) if wanted != it), len(pairs) - 1)
    start = max(at for at in range(first + 1) if script.asked[at].startswith("new"))
    print(*script.asked[start : first + 1], sep="\n")
    print(f"expected {pairs[first][0]}\nfound    {pairs[first][1]}")
    print(f"{ran.stderr}status {ran.returncode}")
    return True


def main(count, *command):
    counts = collections.Counter()
    for order in datagrams.ORDERS.values():
        maker = Maker(random.Random(f"dumps {order}"), order)
        for begun in range(0, int(count), CHUNK):
            script = Script(maker, counts)
            for _ in range(min(CHUNK, int(count) - begun)):
                script.dump()
            script.long()
            counts["dumps"] += sum(line.startswith("new") for line in script.asked)
            if differs(command, script):
                return 1
    wanted = [f"code {code}" for code in range(9)]
    wanted += [f"begin {code}" for code in (0, 9, 10, 19)]
    wanted += [f"state {state}" for state in range(1, 6)]
    wanted += ["no room", "missed", "abandon 0", "abandon 8", "items"]
    flags = "damaged", "interrupted", "complete"
    wanted += [f"{name} {value}" for name in flags for value in (0, 1)]
    print(", ".join(f"{name}: {counts[name]}" for name in ["dumps", *wanted]))
    rare = [name for name in wanted if counts[name] < LEAST]
    if rare:
        print("too rare:", *rare)
    return 1 if rare else 0


if __name__ == "__main__":
    sys.exit(main(*sys.argv[1:]))
