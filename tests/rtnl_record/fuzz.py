#!/usr/bin/env python3
"""Changes captures at random, always the same way, and has each source of rtnl-record read 10,000
of them in this process: it gives datagrams, comments and notes, or says where the capture is
damaged, and nothing else is raised; none takes 5 seconds. Then the program reads some of them, one
run each: the status is 0 or 1, what it printed are the lines of a recording, and standard error has
its own lines alone. What the kernel answers is read in the same way.

The last line is 'N passed, M failed', with a case for each thousand and for each run; the status
is 1 where one failed.
"""
import io
import os
import random
import re
import signal
import subprocess
import sys
import traceback
from typing import BinaryIO, Callable, Iterator, List, NamedTuple

sys.dont_write_bytecode = True
HERE = os.path.dirname(os.path.realpath(__file__))
ROOT = os.path.dirname(os.path.dirname(HERE))
sys.path[:0] = [f"{ROOT}/record", f"{ROOT}/tests/helpers"]
import dump
import hexdump
import made_dumps
import made_pcap
import made_rtmon
import made_traces
import pcap
import rtmon
import strace
from answers import DONE, LINK, SEQ, Socket
from case import Case
from counting import counted, whole
from kinds import Asked
from output import LONGEST, Comment, Damaged, Item, Note

SEED, CASE, SECONDS = 40, 1000, 5
COUNT, RUNS = (10000, 40) if whole("nine of ten changed captures") else (1000, 4)
NUMBERS = [0, 1, 2, 3, 4, 15, 16, 0x7F, 0x80, 0xFF, 0xFFFF, 0x10000, 0x7FFFFFFF, 0x80000000,
           0xFFFFFFF0, 0xFFFFFFFF]
WORDS = [b"*", b"|", b"  ", b" = ", b") = ", b"\n", b"\0", b"\xff", b"00000000", b"ffffffffffff",
         b"<unfinished ...>", b"<... recvmsg resumed>", b"recvmsg(3, ", b"iov_base=\"\\x", b" | 0"]
PLACE = re.compile(r"(?:byte|line) \d+: ")
LINE = re.compile(r"(?:[0-9a-f]{2})+|# .*")
SAID = re.compile(r"rtnl-record: standard input: .*")


class Sort(NamedTuple):
    """A source, the command that reads it, and whole captures of it."""

    name: str
    command: str
    items: Callable[[BinaryIO], Iterator[Item]]
    seeds: List[bytes]


def example(name: str) -> bytes:
    with open(f"{ROOT}/examples/{name}", "rb") as file:
        return file.read()


def seeds(name: str, cases: Iterator[Case]) -> List[bytes]:
    """Captures that are made by hand, and as often the example."""
    found = small(cases)
    return [*found, *[example(name)] * len(found)]


def small(cases: Iterator[Case]) -> List[bytes]:
    return [it.capture for it in cases if 0 < len(it.capture) < 4096]


def sorts() -> List[Sort]:
    cooked = [it.capture for it in made_dumps.whole() if "--cooked" in it.words]
    answer = bytes.fromhex(example("changes.hex").decode().split("\n")[2])
    return [
        Sort("pcap", "pcap", pcap.items, seeds("links.pcap", made_pcap.whole_pcaps())),
        Sort("pcapng", "pcap", pcap.items, seeds("addresses.pcapng", made_pcap.whole_pcapngs())),
        Sort("rtmon", "rtmon", rtmon.items, seeds("links.rtmon", made_rtmon.cases())),
        Sort("strace", "strace", strace.items, seeds("rules.strace", made_traces.whole())),
        Sort("xxd", "xxd", hexdump.items, seeds("rules.xxd", made_dumps.whole())),
        Sort("xxd --cooked", "xxd --cooked", lambda file: hexdump.items(file, True), cooked),
        Sort("answers", "", answers, [answer, LINK + DONE]),
    ]


def answers(file: BinaryIO) -> Iterator[Item]:
    """What is seen in an answer of the kernel."""
    found = dump.Dump(Socket([]), Asked("link"), SEQ)  # type: ignore[arg-type]
    found.take(file.read())
    yield Comment(f"{found.end} {found.is_interrupted}")


def changed(chance: random.Random, seeds: List[bytes]) -> bytes:
    """One of the captures, changed in one to four places."""
    data = bytearray(chance.choice(seeds))
    for _ in range(chance.randint(1, 4)):
        at, size = chance.randrange(len(data) + 1), chance.choice([1, 2, 4, 8, 16, 60])
        way = chance.randrange(7)
        if way == 0 and data:
            data[at % len(data)] ^= 1 << chance.randrange(8)
        elif way == 1:
            number = chance.choice(NUMBERS).to_bytes(4, chance.choice(["little", "big"]))
            data[at & ~3:(at & ~3) + 4] = number
        elif way == 2:
            data[at:at + size] = b""
        elif way == 3:
            data[at:at] = data[at:at + size]
        elif way == 4:
            data[at:at + chance.choice([0, size])] = chance.choice(WORDS)
        elif way == 5:
            data[at:at + size] = bytes(chance.randrange(256) for _ in range(size))
        else:
            other = chance.choice(seeds)
            data[at:] = other[chance.randrange(len(other) + 1):]
    return bytes(data[:chance.randrange(len(data) + 1)] if chance.random() < 0.1 else data)


def wrong(sort: Sort, capture: bytes) -> str:
    """What a source did that it may not, or nothing."""
    try:
        for item in sort.items(io.BytesIO(capture)):
            if not isinstance(item, (bytes, Comment, Note)) or len(item) > LONGEST:
                return f"it gave {item!r:.100}"
    except Damaged as damaged:
        return "" if PLACE.match(str(damaged)) else f"no place: {damaged}"
    except BaseException:
        return traceback.format_exc()
    return ""


def mutated(sort: Sort) -> Iterator[str]:
    """One text for each thousand captures: what the first of them did that was wrong."""
    chance = random.Random(f"{SEED} {sort.name}")
    for _ in range(COUNT // CASE):
        found = ""
        for _ in range(CASE):
            capture = changed(chance, sort.seeds)
            signal.alarm(SECONDS)
            bad = wrong(sort, capture)
            signal.alarm(0)
            found = found or bad and f"{capture!r:.2000}\n{bad}"
        yield found


def run_wrong(sort: Sort, capture: bytes) -> str:
    """What a run of the program did that it may not, or nothing."""
    command = [sys.executable, f"{ROOT}/rtnl-record", *sort.command.split(), "-"]
    try:
        ran = subprocess.run(command, input=capture, stdout=subprocess.PIPE,
                             stderr=subprocess.PIPE, timeout=SECONDS)
    except subprocess.TimeoutExpired:
        return f"{capture!r:.2000}\nno end"
    lines, errors = ran.stdout.decode().splitlines(), ran.stderr.decode().splitlines()
    is_right = ran.returncode in (0, 1) and all(map(LINE.fullmatch, lines)) and all(
        map(SAID.fullmatch, errors)) and bool(errors) >= ran.returncode
    return "" if is_right else f"{capture!r:.2000}\nstatus {ran.returncode}: {errors}"


def ran(sort: Sort) -> Iterator[str]:
    chance = random.Random(f"{SEED} {sort.name}, runs")
    for _ in range(RUNS if sort.command else 0):
        yield run_wrong(sort, changed(chance, sort.seeds))


def main() -> int:
    return counted((sort.name, [found] if found else [])
                   for sort in sorts() for found in [*mutated(sort), *ran(sort)])


if __name__ == "__main__":
    # A source that hangs is interrupted by this signal, where it stands.
    signal.signal(signal.SIGALRM, signal.default_int_handler)
    sys.exit(main())
