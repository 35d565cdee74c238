"""`rtnl follow --kind`: dumps that are made here, of any length, and those of the recordings."""
import json
import os
import re
import struct
import subprocess

import proved
from proved import ROOT

PROGRAM = proved.program()
HEADER = struct.Struct("<IHHII")
DONE, ERROR, NEW_ROUTE = 3, 2, 24
MULTI, INTERRUPTED = 0x0002, 0x0010
SEQ, PORT = 7, 4242
# The recordings of dumps, and what they are dumps of.
DUMPS = {
    "links": "link", "addresses": "addr", "routes": "route", "neighbours": "neigh",
    "rules": "rule",
}
# So many routes a datagram, and so many datagrams, few and many.
ROUTES, FEW, MANY = 400, 25, 2_500
ENDING = """end {}
entries {} missed 0 ignored {} unfed 0 damaged {} interrupted {}
received {} visits {}
complete {}
"""


def message(kind, body, flags=MULTI, seq=SEQ):
    return HEADER.pack(HEADER.size + len(body), kind, flags, seq, PORT) + body


def route(number, flags=MULTI, seq=SEQ):
    """A route of 198.18.0.0/15 with its destination alone, of 36 bytes."""
    body = struct.pack("<BBBBBBBBI", 2, 32, 0, 0, 254, 4, 0, 1, 0)
    return message(NEW_ROUTE, body + struct.pack("<HHI", 8, 1, number), flags, seq)


def entry(number, of):
    address = ".".join(str(it) for it in struct.pack("<I", of))
    return (
        f"entry {number}\n  route family 2 dst_len 32 src_len 0 tos 0 table 254 protocol 4 "
        f"scope 0 type 1 flags 0x00000000\n    attr 1 DST - ipv4 {address}\n"
    )


FRONT = f"dump route seq {SEQ} port {PORT}\n"
FINISH = message(DONE, struct.pack("<i", 0))


def followed(datagrams, *arguments, more=""):
    """The status, the output and the errors; `more` stands behind the datagrams."""
    lines = "".join(f"{it.hex()}\n" for it in datagrams) + more
    command = [PROGRAM, "follow", "--kind", "route", "--seq", str(SEQ), "--port", str(PORT)]
    run = subprocess.run([*command, *arguments], input=lines, capture_output=True, text=True)
    return run.returncode, run.stdout, run.stderr


def ending(datagrams, end, entries, ignored=0, damaged="no", interrupted="no", complete="no"):
    """The last lines; each route has visited the eight bytes of its attribute."""
    size = sum(map(len, datagrams))
    return ENDING.format(
        end, entries, ignored, damaged, interrupted, size, 8 * entries, complete
    )


def is_as(name, found, wanted):
    return name, [] if found == wanted else [f"{found}"[:600]]


def made():
    """Dumps that end in each way, with their lines and their status."""
    two = [route(5) + route(9), FINISH]
    both = entry(1, 5) + entry(2, 9)
    done = ending(two, "done 0", 2, complete="yes")
    yield is_as("a dump", followed(two), (0, FRONT + both + done, ""))
    behind = [*two, route(1), FINISH, b"zz"]
    yield is_as("lines behind its end", followed(behind), (0, FRONT + both + done, ""))
    failed = [route(5), message(ERROR, struct.pack("<i", -22) + bytes(16))]
    lines = FRONT + entry(1, 5) + ending(failed, "error -22", 1)
    yield is_as("a dump that ends by ERROR", followed(failed), (1, lines, ""))
    never = [route(5), route(9)]
    lines = FRONT + both + ending(never, "none", 2)
    yield is_as("a dump that never ends", followed(never), (1, lines, ""))
    yield is_as("no datagram", followed([]), (1, FRONT + ending([], "none", 0), ""))
    changed = [route(5) + route(9, MULTI | INTERRUPTED), FINISH]
    lines = FRONT + both + ending(changed, "done 0", 2, interrupted="yes")
    yield is_as("a dump that was interrupted", followed(changed), (1, lines, ""))
    foreign = [route(5) + route(7, seq=8) + route(9), FINISH]
    ended = ending(foreign, "done 0", 2, 1, complete="yes").replace("visits 16", "visits 24")
    yield is_as("another sequence number", followed(foreign), (0, FRONT + both + ended, ""))
    broken = bytearray(route(7))
    broken[28] = 3
    refused = [route(5), bytes(broken), route(9), FINISH]
    lines = entry(1, 5) + "datagram 2 refused bad length at 28\n" + entry(2, 9)
    ended = ending(refused, "done 0", 2, damaged="yes")
    yield is_as("a refused datagram", followed(refused), (1, FRONT + lines + ended, ""))
    again = [route(5) + route(5), FINISH]
    lines = FRONT + entry(1, 5) + entry(2, 5) + ending(again, "done 0", 2, complete="yes")
    yield is_as("an entry twice", followed(again), (0, lines, ""))
    named = "rtnl: line 2: bad line\n"
    text = followed(two[:1], more="zz\n" + FINISH.hex() + "\n")
    yield is_as("a bad line", text, (1, FRONT + both + done, named))
    lines = FRONT + both + ending(two[:1], "none", 2)
    text = followed(two[:1], "--strict", more="zz\n" + FINISH.hex() + "\n")
    yield is_as("a bad line, strictly", text, (1, lines, named))
    status, text, _ = followed(two, "--format", "json")
    last = json.loads(text.splitlines()[-1])
    found = status, len(text.splitlines()), last["entries"], last["unfed"], last["complete"]
    yield is_as("a dump in JSON", found, (0, 3, 2, 0, True))


def recorded():
    """The dumps of the recordings: what `table` prints of the same, whose entries are the items."""
    for name, kind in DUMPS.items():
        path = f"{ROOT}/examples/{name}.hex"
        with open(path, encoding="ascii") as lines:
            first = next(line for line in lines if not line.startswith("#"))
        _, _, _, seq, port = HEADER.unpack_from(bytes.fromhex(first))
        numbers = ["--kind", kind, "--seq", str(seq), "--port", str(port), path]
        for form in ([], ["--format", "json"]):
            runs = [
                subprocess.run([PROGRAM, *how, *form, *numbers], capture_output=True)
                for how in (["follow"], ["table", "--entries", "65536"])
            ]
            found, wanted = ((it.returncode, it.stdout, it.stderr) for it in runs)
            yield is_as(" ".join(["as table:", name, *form]), found, wanted)


def at_once():
    """The entries of a line are there before the next line is written; behind the end of the dump
    it ends, though its input has not."""
    command = [PROGRAM, "follow", "--kind", "route", "--seq", str(SEQ), "--port", str(PORT)]
    with subprocess.Popen(command, stdin=subprocess.PIPE, stdout=subprocess.PIPE) as run:
        wrong = []
        for number, datagram, wanted in (
            (1, route(5), FRONT + entry(1, 5)),
            (2, route(9), entry(2, 9)),
            (3, FINISH, ending([route(5), route(9), FINISH], "done 0", 2, complete="yes")),
        ):
            os.write(run.stdin.fileno(), f"{datagram.hex()}\n".encode())
            found = run.stdout.read(len(wanted)).decode()
            wrong += [] if found == wanted else [f"line {number}: {found!r}"]
        status = run.wait(20)
        run.stdin.close()
        yield "entries as they come", wrong + ([f"status {status}"] if status else [])


def memory_of(count):
    """The status, the last lines and the most memory in KiB of a dump of so many datagrams, as
    they stand when it has ended."""
    command = [PROGRAM, "follow", "--kind", "route", "--seq", str(SEQ), "--port", str(PORT)]
    line = "".join(route(it).hex() for it in range(ROUTES)).encode() + b"\n"
    with subprocess.Popen(
        ["/usr/bin/time", "-f", "%M", *command],
        stdin=subprocess.PIPE,
        stdout=subprocess.PIPE,
        stderr=subprocess.PIPE,
    ) as run:
        tail = subprocess.Popen(["tail", "-n", "4"], stdin=run.stdout, stdout=subprocess.PIPE)
        run.stdout.close()
        for _ in range(count):
            run.stdin.write(line)
        run.stdin.write(FINISH.hex().encode() + b"\n")
        run.stdin.close()
        last = tail.communicate()[0].decode()
        memory = int(re.search(rb"(\d+)\n$", run.stderr.read())[1])
    return run.returncode, last, memory


def of_any_length():
    """A dump of a million routes takes the memory of one of ten thousand."""
    few, many = memory_of(FEW), memory_of(MANY)
    wrong = [] if many[2] - few[2] <= 1024 else [f"{few[2]} KiB, then {many[2]}"]
    for count, found in ((FEW, few), (MANY, many)):
        entries = count * ROUTES
        size = entries * len(route(0)) + len(FINISH)
        wanted = ENDING.format("done 0", entries, 0, "no", "no", size, 8 * entries, "yes")
        wrong += [] if found[:2] == (0, wanted) else [f"{found}"]
    yield "a million routes", wrong


def cases():
    for case in (*made(), *recorded(), *at_once(), *of_any_length()):
        yield f"dump: {case[0]}", case[1]
