"""What is taken of captures and of dumps in hexadecimal: as much as rtnl-record takes, of the same
captures that its own tests have."""
import glob
import io
import itertools
import os
import random
import re
import struct
import subprocess
import sys
from typing import Iterator, List, Tuple

from browser import Browser
from expected import (ROOT, as_lines, datagrams_of, differ, recorded, recordings, run, shown)

sys.path[:0] = [f"{ROOT}/record", f"{ROOT}/tests/rtnl_record"]
import counting
import fuzz
import made
from case import ANY
from output import Damaged

Case = Tuple[str, List[str]]
# No command names the form here, so that these are taken for another one.
OTHERS = {"0 bytes of pcap", "1 bytes of pcap", "3 bytes of pcap", "no pcap", "xxd: bytes",
          "rtmon without a time", "xxd --cooked, a short one", "xxd: a line above 16 MiB",
          "strace: nothing"}
EXAMPLES = {"pcap": "pcap", "pcapng": "pcap", "rtmon": "rtmon", "strace": "strace", "xxd": "xxd"}
FORMS = {"pcap": "a pcap file", "pcapng": "a pcapng file", "rtmon": "an rtmon file",
         "strace": "a trace of strace", "xxd": "rows of a hexadecimal dump"}
IS_WHOLE = counting.whole("most captures, and most recordings as other programs print them")
# So many changed captures of each form; of those that are made by hand each so many-th; and so many
# recordings as other programs print them.
CHANGED, STEP, PRINTED = (100, 1, None) if IS_WHOLE else (5, 10, 3)


def compared(browser: Browser, status: int, lines: str, notes: List[str], said: dict) -> List[str]:
    """How a capture is taken otherwise than it is recorded: behind damage more may be taken."""
    wanted = shown(lines)
    found = browser.copied() if said["summary"] else ""
    wrong = differ(wanted, found if status == 0 else found[:len(wanted)])
    more = [it for it in said["notes"] if "dropped" in it and it not in notes]
    return wrong + [f"not said: {it}" for it in notes if it not in said["notes"]] + more


def made_captures(browser: Browser) -> Iterator[Case]:
    every = (case for table in made.TABLES for case in table())
    for case in itertools.islice(every, 0, None, STEP):
        if case.name in OTHERS:
            continue
        said = browser.file(case.capture)
        if case.status == ANY:
            yield case.name, [] if said["summary"] or said["notes"] else ["nothing is said"]
            continue
        lines = "".join(it for it in case.output.splitlines(True) if not it.startswith("#"))
        notes = [it.removeprefix("rtnl-record: standard input: ")
                 for it in case.errors.splitlines()]
        yield case.name, compared(browser, case.status, lines, notes, said)


def captured_files(browser: Browser) -> Iterator[Case]:
    paths = [*glob.glob(f"{ROOT}/examples/*.*"), *glob.glob(f"{ROOT}/tests/rtnl_record/*.strace")]
    for path in sorted(paths):
        name, sort = os.path.relpath(path, ROOT), path.rpartition(".")[2]
        if sort not in EXAMPLES:
            continue
        with open(path, "rb") as file:
            data = file.read()
        status, lines, notes = recorded([EXAMPLES[sort], "-"], data)
        said = browser.file(data)
        wrong = [] if FORMS[sort] in said["summary"] or not lines else [said["summary"]]
        yield name, wrong + compared(browser, status, lines, notes, said)


def output(*command: str, data: bytes) -> str:
    ran = subprocess.run(command, input=data, stdout=subprocess.PIPE, check=True)
    return ran.stdout.decode("latin-1")


def wireshark(data: bytes) -> str:
    """Wireshark's "copy as hex and ASCII dump"."""
    rows = [data[at:at + 16] for at in range(0, len(data), 16)]
    signs = ["".join(chr(it) if 32 <= it < 127 else "·" for it in row) for row in rows]
    return "".join(f"{16 * at:04x}   {row.hex(' '):<47}   {sign}\n"
                   for at, (row, sign) in enumerate(zip(rows, signs)))


def cooked(data: bytes) -> str:
    """The same of a packet of nlmon."""
    return wireshark(bytes.fromhex("00040338") + bytes(12) + data)


def dumped(browser: Browser) -> Iterator[Case]:
    """Every recording as other programs print its bytes, and with an odd number of bytes."""
    forms = {
        "xxd": lambda data: output("xxd", data=data),
        "xxd -p -c0": lambda data: output("xxd", "-p", "-c0", data=data),
        "hexdump -C": lambda data: output("hexdump", "-C", data=data),
        "hexdump": lambda data: output("hexdump", data=data),
        "hexdump, indented": lambda data: re.sub("(?m)^", "    ", output("hexdump", data=data)),
        "Wireshark": wireshark,
        "Wireshark, of nlmon": cooked,
    }
    for name, lines in itertools.islice(recordings(), PRINTED):
        found = datagrams_of(lines)[:40]
        for form, print_of in forms.items():
            browser.paste("".join(print_of(it) for it in found))
            yield f"{form} of {name}", differ(shown(as_lines(found)), browser.copied()
                                              if found else "")
    for data in (b"\x11" + bytes(48) + b"\x80", bytes(37), bytes(range(33))):
        browser.paste(output("hexdump", data=data))
        yield f"hexdump of {len(data)} bytes", differ(shown(data.hex()), browser.copied())
    # A machine of the other order prints the numbers of such a datagram as they lie.
    big = bytes.fromhex("0000001400030002000000010000303900000000")
    pairs = bytes(it for at in range(0, len(big), 2) for it in (big[at + 1], big[at]))
    browser.paste(output("hexdump", data=pairs), "big")
    yield "hexdump in big", differ(shown(big.hex(), "big"), browser.copied())


GOOD = "1400000003000200010000003930000000000000"
# A text, what is said of its lines, and how many datagrams are taken of it.
BAD = (
    (f"# note\n{GOOD}\n14 0g\n{GOOD}\n", ["line 3, column 5: “g” is no hexadecimal digit"], 2),
    (f"140\n{GOOD}\n", ["line 1: 3 digits, an odd number"], 1),
    (f"Here it is:\n{wireshark(bytes.fromhex(GOOD))}Thanks\n",
     ["line 1: no row of a hexadecimal dump", "line 4: no row of a hexadecimal dump"], 1),
    (f"{wireshark(bytes.fromhex(GOOD + GOOD)).replace('0010', '0020')}0000   {GOOD}\n",
     ["line 2: offset 20 does not follow on 16 bytes",
      "line 3: offset 20 does not follow on 0 bytes"], 1),
    ("strace is not here", ["line 1, column 1: “s” is no hexadecimal digit"], 0),
)


def bad_lines(browser: Browser) -> Iterator[Case]:
    """A line that is none is named with its number, and the rest is shown, as by `follow`."""
    for text, notes, count in BAD:
        said = browser.paste(text)
        wrong = [] if said["notes"][:len(notes)] == notes else [f"{said['notes']}"]
        taken = browser.copied().count("datagram ") if said["summary"] else 0
        yield f"{text[:30]!r}", wrong + ([] if taken == count else [f"{taken} datagrams"])
    text = BAD[0][0]
    browser.paste(text)
    yield "behind a bad line", differ(run("follow", data=text)[0], browser.copied())


GET = "14000000120001030100000000000000" + "11000000"
WITHOUT = "14000000120000030100000000000000" + "11000000"
BIG_GET = "00000014001203010000000100000000" + "11000000"
# What is sent, the order, and how many zero bytes behind it are left out.
SENT = ((GET + "00" * 128, "little", 128), (GET + GET + "00", "little", 1),
        (BIG_GET + "00" * 40, "big", 40), (GET, "little", 0), (GET + "00" * 7 + "01", "little", 0),
        (WITHOUT + "00" * 16, "little", 0), (GET + WITHOUT + "00" * 16, "little", 0),
        ("00" * 32, "little", 0))


def trace_of(call: str, data: bytes) -> bytes:
    quoted = "".join(f"\\x{it:02x}" for it in data)
    return f'{call}(3<NETLINK:[ROUTE:7]>, "{quoted}", {len(data)}, 0) = {len(data)}\n'.encode()


def capture_of(found: List[bytes]) -> bytes:
    """A pcap file of nlmon with these datagrams."""
    head = struct.pack("<IHHiIII", 0xa1b2c3d4, 2, 4, 0, 0, 1 << 17, 253)
    front = bytes.fromhex("00040338") + bytes(12)
    sizes = (len(front) + len(it) for it in found)
    return head + b"".join(struct.pack("<8xII", size, size) + front + it
                           for size, it in zip(sizes, found))


def requests(browser: Browser) -> Iterator[Case]:
    """The zero bytes behind requests that were sent are left out, and that is said."""
    for digits, order, count in SENT:
        data = bytes.fromhex(digits)
        kept = digits[:len(digits) - 2 * count]
        cut = f", cut: {count} zero bytes behind the last message"
        for form, capture in (("strace", trace_of("send", data)), ("pcap", capture_of([data]))):
            browser.file(capture, order)
            row = browser.call("key", "tree", "Home")["chosen"]
            wrong = [] if row.endswith(cut) == (count > 0) else [row]
            text = differ(shown(kept, order), browser.copied())
            yield f"{count} bytes behind a request, {form}, {digits[-16:]}", wrong + text
        browser.file(trace_of("recv", data), order)
        yield f"received, {digits[-16:]}", differ(shown(digits, order), browser.copied())


def many_lines(browser: Browser) -> Iterator[Case]:
    """Megabytes of what is no recording are refused soon, and the window goes on."""
    million = 1_000_000
    calls = "".join(f"{it} recv(<unfinished ...>\n0 <... read resumed>\n" for it in range(40_000))
    for text in ("recvmsg(3, " + "a" * million, 'recvfrom(3, "' + "\\x00" * million,
                 "00000000: " + "00" * million + "z", "00000000  " + "00 " * million + "z",
                 " " * million + "z", "0" * million + "(", "1 " * million + "z", "z\n" * million,
                 "recvmsg(3, AF_NETLINK" + ") " * million, "0000: 00  a" + " " * million + "b",
                 "\r" * million + "z", "1 recv(<unfinished ...>\n" + calls):
        took = browser.paste(text)
        right = took["time"] < 3000 and took["notes"] and took["longest"] < 500
        yield f"{text[:20]!r}, {len(text)}", [] if right else [str(took)[:200]]
    for text, note in (("00\n" * 300_000, "line 262145: more datagrams than 262144"),
                       (" " * (1 << 24) + "z", "the input is longer than 16777216 bytes")):
        notes = browser.paste(text)["notes"]
        yield note, [] if note in notes else notes


def changed(browser: Browser) -> Iterator[Case]:
    """Captures that are changed at random: where the form is still seen and rtnl-record finds no
    damage, the same is taken."""
    for sort in fuzz.sorts():
        choose, wrong = random.Random(f"page {sort.name}"), []
        for _ in range(CHANGED if sort.name in FORMS else 0):
            capture = fuzz.changed(choose, sort.seeds)
            said = browser.file(capture)
            try:
                found = [it for it in sort.items(io.BytesIO(capture)) if isinstance(it, bytes)]
            except Damaged:
                continue
            if found and all(found) and FORMS[sort.name] in said["summary"]:
                wrong += differ(shown(as_lines(found)), browser.copied())
        if sort.name in FORMS:
            yield f"{CHANGED} changed captures of {sort.name}", wrong[:3]


CASES = (made_captures, captured_files, dumped, bad_lines, requests, many_lines, changed)
