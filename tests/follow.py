#!/usr/bin/env python3
"""Holds `rtnl follow` of the built program against `rtnl show`, over every recording and 20,000
mutations of their datagrams, in both orders and both formats, and against what is asked of a
command that prints as it reads: the text of a line is there before the next line comes, what is
written of a recording that is cut is the beginning of the whole and ends with a whole datagram,
memory does not grow with the input, bad lines are named and passed over, and it ends as the other
commands do where its reader goes, a device is full or a signal comes. Each read and each write goes
wrong in turn, dumps of any length are followed, and it follows the kernel in a network namespace
of its own, where the machine allows one; `rtnl mirror` is tried so, too. The last line is 'N passed, M failed', and the status is 1 where a case failed.
"""
import fcntl
import os
import random
import re
import resource
import select
import signal
import struct
import subprocess
import sys
import tempfile
import termios
import time

sys.dont_write_bytecode = True
TESTS = os.path.dirname(os.path.realpath(__file__))
sys.path[:0] = [f"{TESTS}/helpers", f"{TESTS}/follow"]
import counting
import datagrams
import dumps
import faults
import live
import live_mirror
import mutations
import proved
from datagrams import ORDERS

PROGRAM = proved.program()
FORMS = (
    [],
    ["--color", "always"],
    ["--format", "json"],
    ["--bytes"],
    ["--bytes", "--format", "json"],
)
FINISH = "1400000003000200010000003930000000000000\n"
FINISH_TEXT = """datagram {} bytes 20
message 3 done flags 0x0002 MULTI seq 1 port 12345
  done status 0 tail -
"""
# So many mutations of all recordings in each order, in recordings of so many datagrams.
MUTATIONS, TOGETHER = 10_000 if counting.whole("19 of 20 mutations") else 500, 250
# The longest line that is followed, in bytes.
LONGEST_LINE = 16_777_216
# How long a line may take to be there, in seconds: a machine may have much else to do.
PATIENCE = 20


def ran(recording, *arguments):
    """What the program prints of a recording, its status and its errors."""
    run = subprocess.run([PROGRAM, *arguments], input=recording, capture_output=True)
    return run.stdout, run.returncode, run.stderr.decode()


def lines(found):
    return "".join(f"{data.hex()}\n" for data in found).encode()


def recordings(order):
    """The name of each recording, and recordings of mutations of all."""
    choose = random.Random(f"follow {order}")
    found = list(datagrams.recordings(order))
    others = [text for *_, alone in found for text in alone]
    for file, _, whole, alone in found:
        yield file, lines(whole)
        yield f"messages of {file}", lines(alone)
    made = list(mutations.mutations(choose, MUTATIONS, others, others, others, order))
    for at in range(0, len(made), TOGETHER):
        yield f"mutations {at}", lines(made[at : at + TOGETHER])


def as_show():
    """Both print the same of a recording without a bad line, and end alike."""
    for word, order in ORDERS.items():
        how = ["--order", word]
        for name, recording in recordings(order):
            for form in FORMS:
                wanted = ran(recording, "show", *how, *form)
                found = ran(recording, "follow", *how, *form)
                wrong = [] if wanted == found else [f"otherwise than show: {found[1:]}"]
                yield " ".join(["as show:", name, *how, *form]), wrong


def cut_recordings():
    """A recording that is cut: the beginning of the whole text, up to a whole datagram."""
    name, _, whole, _ = next(iter(datagrams.recordings("<")))
    recording = lines(whole * 3)
    text = ran(recording, "follow")[0].decode()
    ends = {at.start() for at in re.finditer(r"^datagram ", text, re.M)} | {len(text)}
    choose = random.Random("cut")
    for place in sorted(choose.sample(range(len(recording)), 200)):
        # A line that is cut may be bad or another datagram: it is looked at with its newline alone.
        front = recording[: recording.rfind(b"\n", 0, place) + 1]
        found, status, _ = ran(front, "follow")
        found = found.decode()
        wrong = [] if text.startswith(found) and len(found) in ends else ["not a beginning"]
        count = front.count(b"\n")
        if len(re.findall(r"^datagram ", found, re.M)) != count:
            wrong.append(f"not {count} datagrams")
        yield f"cut at {place} of {name}", wrong


class Followed:
    """`follow` over a pipe that is written line by line."""

    def __init__(self, *arguments):
        self.run = subprocess.Popen(
            [PROGRAM, "follow", *arguments],
            stdin=subprocess.PIPE,
            stdout=subprocess.PIPE,
            stderr=subprocess.PIPE,
            bufsize=0,
            # What starts this script may have it ignore an interrupt, which a program inherits.
            preexec_fn=lambda: signal.signal(signal.SIGINT, signal.SIG_DFL),
        )
        flags = fcntl.fcntl(self.run.stdout, fcntl.F_GETFL)
        fcntl.fcntl(self.run.stdout, fcntl.F_SETFL, flags | os.O_NONBLOCK)

    def feed(self, text):
        os.write(self.run.stdin.fileno(), text.encode())

    def read(self, count):
        """So many bytes, or as many as come in time."""
        found, until = b"", time.monotonic() + PATIENCE
        while len(found) < count and time.monotonic() < until:
            if select.select([self.run.stdout], [], [], 0.1)[0]:
                part = self.run.stdout.read(count - len(found))
                if not part:
                    break
                found += part
        return found.decode()

    def ended(self):
        """The status at the end of the input, and the errors."""
        self.run.stdin.close()
        status = self.run.wait(PATIENCE)
        errors = self.run.stderr.read().decode()
        self.run.stdout.close()
        self.run.stderr.close()
        return status, errors


def as_it_comes():
    """The text of each line is there before the next line is written; of half a line nothing is."""
    following, wrong = Followed(), []
    for number in range(1, 6):
        wanted = FINISH_TEXT.format(number)
        following.feed(FINISH[:9])
        time.sleep(0.05)
        if select.select([following.run.stdout], [], [], 0)[0]:
            wrong.append(f"something of half of line {number}")
        following.feed(FINISH[9:])
        if following.read(len(wanted)) != wanted:
            wrong.append(f"line {number} is not there")
    status, errors = following.ended()
    if (status, errors) != (0, ""):
        wrong.append(f"status {status}, {errors!r}")
    yield "each line as it comes", wrong


def bad_lines():
    """Bad lines are named with their numbers, and passed over, or end it."""
    recording = f"zz\n{FINISH}# note\n\n123\n{FINISH[:-1]}".encode()
    both = FINISH_TEXT.format(1) + FINISH_TEXT.format(2)
    named = "rtnl: line 1: bad line\nrtnl: line 5: bad line\n"
    cases = [
        ("bad lines", [], both, named),
        ("the first bad line, strictly", ["--strict"], "", "rtnl: line 1: bad line\n"),
    ]
    for name, arguments, text, errors in cases:
        found = ran(recording, "follow", *arguments)
        wrong = [] if found == (text.encode(), 1, errors) else [f"{found}"]
        yield name, wrong
    told = ran(recording, "follow", "--explain")[2]
    wanted = (
        "rtnl: line 1: bad line\n"
        "rtnl: standard input: line 1, column 1: byte 0x7a is no hexadecimal digit\n"
        "rtnl: line 5: bad line\n"
        "rtnl: standard input: line 5: 3 digits, an odd number\n"
    )
    yield "bad lines, explained", [] if told == wanted else [told]


def long_lines():
    """The longest line is followed, a longer one is named, and the next line goes on."""
    for count, is_bad in ((LONGEST_LINE, False), (LONGEST_LINE + 1, True)):
        recording = b" " * (count - 40) + FINISH.encode() + FINISH.encode()
        texts = 1 if is_bad else 2
        text = "".join(FINISH_TEXT.format(it + 1) for it in range(texts)).encode()
        errors = "rtnl: line 1: bad line\n" if is_bad else ""
        found = ran(recording, "follow")
        wrong = [] if found == (text, int(is_bad), errors) else [f"{found}"[:200]]
        yield f"a line of {count} bytes", wrong


def unread(pipe):
    """How many bytes of a pipe are still to be read."""
    return struct.unpack("i", fcntl.ioctl(pipe, termios.FIONREAD, bytes(4)))[0]


def peak(recording, times):
    """The most memory that it took, in KiB, when it had all of a recording so many times, and its
    status. What `wait` says of a child is at least what its parent had when it was made."""
    run = subprocess.Popen(
        [PROGRAM, "follow"], stdin=subprocess.PIPE, stdout=subprocess.DEVNULL, bufsize=0
    )
    for _ in range(times):
        left = memoryview(recording)
        while left:
            left = left[run.stdin.write(left) :]
    until = time.monotonic() + PATIENCE
    while unread(run.stdin) and time.monotonic() < until:
        time.sleep(0.02)
    with open(f"/proc/{run.pid}/status", encoding="utf-8") as said:
        most = int(re.search(r"^VmHWM:\s+(\d+) kB$", said.read(), re.M)[1])
    run.stdin.close()
    return most, run.wait()


def memory():
    """Memory is the same for a recording and for a hundred of it."""
    recording = lines(next(iter(datagrams.recordings("<")))[2])
    recording *= max(1, 1_000_000 // len(recording))
    few, many = peak(recording, 1), peak(recording, 100)
    wrong = [] if many[0] - few[0] <= 1024 else [f"{few[0]} KiB, then {many[0]}"]
    yield "memory", wrong + [f"status {it}" for it in (few[1], many[1]) if it]


def endings():
    """What ends it: a full device, a reader that has gone, a directory in place of a file."""
    with open("/dev/full", "wb") as full:
        run = subprocess.run(
            [PROGRAM, "follow"], input=FINISH.encode(), stdout=full, stderr=subprocess.PIPE
        )
    found = (run.returncode, run.stderr)
    wanted = b"rtnl: write fault\nrtnl: standard output: No space left on device (os error 28)\n"
    yield "a full device", [] if found == (3, wanted) else [f"{found}"]
    following = Followed()
    following.feed(FINISH)
    following.read(len(FINISH_TEXT.format(1)))
    following.run.stdout.close()
    following.feed(FINISH)
    status, errors = following.run.wait(PATIENCE), following.run.stderr.read()
    wanted = b"rtnl: write fault\nrtnl: standard output: Broken pipe (os error 32)\n"
    wrong = [] if (status, errors) == (3, wanted) else [f"{status}, {errors}"]
    following.run.stdin.close()
    following.run.stderr.close()
    yield "a reader that has gone", wrong
    found = ran(b"", "follow", "/")
    wanted = "rtnl: read fault\nrtnl: /: Is a directory (os error 21)\n"
    wrong = [] if found == (b"", 3, wanted) else [f"{found}"]
    yield "a directory", wrong


def signals():
    """What was written before a signal is whole datagrams."""
    for number in (signal.SIGINT, signal.SIGTERM):
        following = Followed()
        following.feed(FINISH * 2 + FINISH[:7])
        both = FINISH_TEXT.format(1) + FINISH_TEXT.format(2)
        text = following.read(len(both))
        following.run.send_signal(number)
        status = following.run.wait(PATIENCE)
        text += following.read(1)
        wrong = [] if (text, status) == (both, -number) else [f"{status}, {text!r}"]
        following.ended()
        yield f"{number.name}", wrong


def cases():
    yield from as_it_comes()
    yield from bad_lines()
    yield from long_lines()
    yield from memory()
    yield from endings()
    yield from signals()
    yield from dumps.cases()
    with tempfile.TemporaryDirectory() as folder:
        yield from faults.cases(folder)
    if sys.argv[1:] == ["inside"]:
        yield from live.cases()
        yield from live_mirror.cases()
    else:
        print("skipped: following live, since no network namespace can be made here")
    yield from cut_recordings()
    yield from as_show()


def go_inside():
    """Runs this script in a network namespace of its own, if there can be one."""
    wanted = [f"{TESTS}/helpers/install_packages.sh", "cc", "gcc", "ip", "iproute2", "/usr/bin/time", "time"]
    subprocess.run(wanted, check=False)
    way = live.way_in()
    if way:
        os.execvp(way[0], [*way, f"{TESTS}/follow.py", "inside"])


if __name__ == "__main__":
    if sys.argv[1:] != ["inside"]:
        go_inside()
    resource.setrlimit(resource.RLIMIT_CORE, (0, 0))
    sys.exit(counting.counted(cases()))
