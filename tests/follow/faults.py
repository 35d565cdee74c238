"""Each read of standard input, and each write to standard output, of `rtnl follow` and of
`rtnl mirror` that goes wrong in turn, by faults.c: it fails, or takes only a part of the bytes, or
none."""
import errno
import os
import re
import struct
import subprocess
import tempfile
from itertools import islice

import counting
import proved
import reference_mirror
from proved import ROOT

PROGRAM = proved.program()
EXAMPLES = "changes", "addresses", "neighbours"
DUMP = "routes"
HEADER = struct.Struct("<IHHII")
# So many bytes a read has: lines end within reads, at their ends, and lie over many.
PIECE = 250
FORMS = [[], ["--color", "always"], ["--format", "json"], ["--bytes"]]
if not counting.whole("faults in other forms than text"):
    FORMS = FORMS[:1]
# What a datagram's text begins with.
FIRST = re.compile(r'^(?=datagram |\{"datagram":)', re.M)
# What an entry of a dump begins with.
ENTRY = re.compile(r"^(?=entry )", re.M)
# The system's reason stands behind the fixed line, in the words of strerror(3).
READ_FAULT = "rtnl: read fault\nrtnl: standard input: {} (os error {})\n"
NO_WRITE = "rtnl: write fault\n"
WRITE_FAULT = NO_WRITE + "rtnl: standard output: {} (os error {})\n"


def reason(fault: str, error: int) -> str:
    return fault.format(os.strerror(error), error)


def recorded():
    """The lines of some examples."""
    text = ""
    for name in EXAMPLES:
        with open(f"{ROOT}/examples/{name}.hex", encoding="ascii") as lines:
            text += lines.read()
    return text


def datagrams_of(text):
    """How many datagrams the whole lines of a text have."""
    return len(re.findall(r"^[0-9a-f]+\n", text, re.M))


class Faulty:
    """The program over a recording, in one form; beside it, what `show` prints of each datagram."""

    command = "follow"

    def __init__(self, library, form):
        self.library, self.form = library, form
        self.recording = recorded()
        self.texts = FIRST.split(self.ran("show")[1])[1:]

    def ran(self, command, fault=""):
        """The status, the output and the errors."""
        given = {**os.environ, "LD_PRELOAD": self.library, "FAULT": fault, "PIECE": str(PIECE)}
        # A file, since what a read has of a pipe depends on who is faster.
        with tempfile.TemporaryFile("w+") as recording:
            recording.write(self.recording)
            recording.seek(0)
            run = subprocess.run(
                [PROGRAM, command, *self.form],
                stdin=recording,
                env=given if command == self.command else None,
                capture_output=True,
                text=True,
            )
        return run.returncode, run.stdout, run.stderr

    def is_as(self, fault, status, count, errors, more=""):
        """A case: with this fault it ends so, after the texts of so many datagrams, and more."""
        found = self.ran(self.command, fault)
        wanted = (status, "".join(self.texts[:count]) + more, errors)
        name = " ".join(["fault", self.command, fault or "none", *self.form])
        yield name, [] if found == wanted else [f"{found[0]}, {len(found[1])} bytes, {found[2]!r}"]

    def told_of(self, front):
        """How many texts the whole lines of a front have."""
        return datagrams_of(front)

    def reads(self):
        """Each read fails: the texts of all whole lines that were read before are there."""
        # The last read has no byte.
        count = -(-len(self.recording) // PIECE) + 1
        for number in range(1, count + 2):
            whole = self.told_of(self.recording[: (number - 1) * PIECE])
            is_made = number <= count
            errors = reason(READ_FAULT, errno.EIO)
            ended = (3, whole, errors) if is_made else (0, len(self.texts), "")
            yield from self.is_as(f"read {number} {errno.EIO}", *ended)
            yield from self.is_as(f"read {number} part", 0, len(self.texts), "")

    def writes(self):
        """Each write fails, of which each datagram has one: the texts before it are there."""
        count = len(self.texts)
        for number in range(1, count + 2):
            for how in (errno.EIO, errno.ENOSPC, "none"):
                # A write that takes no byte has no reason.
                errors = NO_WRITE if how == "none" else reason(WRITE_FAULT, how)
                ended = (3, number - 1, errors) if number <= count else (0, count, "")
                yield from self.is_as(f"write {number} {how}", *ended)
            # The rest of the text goes by a further write, or when there is room again.
            yield from self.is_as(f"write {number} part", 0, count, "")
            yield from self.is_as(f"write {number} {errno.EAGAIN}", 0, count, "")


class FaultyDump(Faulty):
    """The program over a dump: the line of the dump, the entries of each datagram, and how the dump
    ended are each written by a call. The entries are those of `table`."""

    def __init__(self, library):
        self.library = library
        with open(f"{ROOT}/examples/{DUMP}.hex", encoding="ascii") as lines:
            self.recording = lines.read()
        datagrams = [bytes.fromhex(it) for it in self.recording.splitlines() if it[0] != "#"]
        _, self.kind, _, seq, port = HEADER.unpack_from(datagrams[0])
        self.form = ["--kind", "route", "--seq", str(seq), "--port", str(port)]
        whole, end = re.split("^(?=end )", self.ran("table")[1], flags=re.M)
        front, *entries = ENTRY.split(whole)
        counts = [self.items(it) for it in datagrams]
        self.wrong = [] if 1 < sum(counts) == len(entries) else ["other entries"]
        left = iter(entries)
        by_datagram = ["".join(islice(left, count)) for count in counts]
        # A datagram without an entry, as that of the end, has no text, and none is written.
        self.texts = [it for it in (front, *by_datagram, end) if it]

    def items(self, datagram):
        """How many messages of a datagram are of the dump's type."""
        at = count = 0
        while at < len(datagram):
            length, kind, _, _, _ = HEADER.unpack_from(datagram, at)
            count += kind == self.kind
            at += length + 3 & ~3
        return count

    def reads(self):
        """A read fails: the entries of all whole lines are there, and nothing of how it ended."""
        count = -(-len(self.recording) // PIECE)
        for number in range(1, count + 1):
            whole = datagrams_of(self.recording[: (number - 1) * PIECE])
            errors = reason(READ_FAULT, errno.EIO)
            yield from self.is_as(f"read {number} {errno.EIO}", 3, 1 + whole, errors)
            yield from self.is_as(f"read {number} part", 0, len(self.texts), "")


class FaultyMirror(Faulty):
    """The program over dumps and notifications: what each line changes is written by a call, and is
    what the second reading says."""

    command, form = "mirror", ["--changes"]

    def __init__(self, library):
        self.library, mirror = library, reference_mirror.Mirror("<")
        with open(f"{ROOT}/examples/mirror.hex", encoding="ascii") as lines:
            self.recording = lines.read()
        steps = enumerate(self.recording.encode().split(b"\n"), 1)
        changes = [[*mirror.step(*it, list(mirror.of))] for it in steps]
        self.by_line = [reference_mirror.text(it, True) for it in changes]
        self.texts = [it for it in self.by_line if it]

    def told_of(self, front):
        return sum(map(bool, self.by_line[: front.count("\n")]))


def cases(folder):
    """The cases; the library is made in this folder."""
    library = f"{folder}/faults.so"
    source = os.path.join(os.path.dirname(os.path.realpath(__file__)), "faults.c")
    compiler = ["cc", "-shared", "-fPIC", "-O1", "-o", library, source]
    subprocess.run(compiler, check=True)
    for form in FORMS:
        faulty = Faulty(library, form)
        wrong = [] if len(faulty.texts) == datagrams_of(faulty.recording) else ["other datagrams"]
        yield " ".join(["fault: what show prints", *form]), wrong
        yield from faulty.reads()
        yield from faulty.writes()
    dump = FaultyDump(library)
    yield "fault: what table prints of the dump", dump.wrong
    yield from dump.reads()
    yield from dump.writes()
    mirror = FaultyMirror(library)
    yield "fault: what is told of changes", [] if len(mirror.texts) > 15 else ["too few texts"]
    yield from mirror.reads()
    yield from mirror.writes()
