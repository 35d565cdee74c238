#!/usr/bin/env python3
"""The dumps that rtnl-record monitor asks the kernel for, in a network namespace, which this
changes. The items are those that `ip -j` lists. Links and neighbours change amid a dump, more of
them than the socket has room for. A reader comes and goes at the named pipe. The last line is
'N passed, M failed', and the status is 1 where a case failed.
"""
import fcntl
import ipaddress
import json
import os
import select
import signal
import socket
import struct
import subprocess
import sys
import tempfile
import termios
import time
from typing import Any, Dict, Iterator, List, NamedTuple, Tuple

sys.dont_write_bytecode = True
HERE = os.path.dirname(os.path.realpath(__file__))
ROOT = os.path.dirname(os.path.dirname(HERE))
sys.path[:0] = [f"{ROOT}/tests/helpers"]
from counting import counted

PATIENCE, SET_PIPE_SIZE, SMALL = 30.0, 1031, 4096
LOSS = "# dropped: the kernel had no room for messages here"
SAID = "rtnl-record: the kernel dropped messages, since they were not received soon enough\n"
# The type of an item of a kind, and the size of its head; DONE.
KINDS = {"link": (16, 16), "addr": (20, 8), "route": (24, 12), "neigh": (28, 12), "rule": (32, 12)}
DONE, ANY = 3, "default"
RUNNING: List["subprocess.Popen[bytes]"] = []
# What is made there, and more neighbours than the small pipe and a datagram have room for.
MADE = """link set lo up
addr add 192.0.2.1/24 dev lo
addr add 2001:db8::1/64 dev lo nodad
route add 198.51.100.0/24 dev lo
route add default dev lo
route add 2001:db8:1::/48 dev lo
rule add from 192.0.2.1 table 100 priority 1000
neigh add 2001:db8::7 lladdr 02:00:00:00:00:01 dev lo"""
MANY = "\n".join(f"neigh add 2001:db8::1:{it:x} lladdr 02:00:00:00:00:01 dev lo"
                 for it in range(3000))
FLOOD = "\n".join(f"neigh replace 2001:db8::2:{it:x} lladdr 02:00:00:00:00:02 dev lo"
                  for it in range(9000))


class Message(NamedTuple):
    """A message of a line, and what stands behind its header."""

    kind: int
    seq: int
    port: int
    body: bytes


def messages(line: str) -> List[Message]:
    data, found = bytes.fromhex(line), []
    while data:
        length, kind, _, seq, port = struct.unpack_from("=IHHII", data)
        found.append(Message(kind, seq, port, data[16:length]))
        data = data[length + 3 & ~3:]
    return found


def attributes(data: bytes) -> Dict[int, bytes]:
    found = {}
    while data:
        length, kind = struct.unpack_from("=HH", data)
        found[kind & 0x3fff] = data[4:length]
        data = data[length + 3 & ~3:]
    return found


def make(changes: str) -> None:
    subprocess.run(["ip", "-batch", "-"], input=changes, text=True, check=True)


def listed(*words: str) -> List[Any]:
    """What `ip -j` lists of both families."""
    found = []
    for family in ("-4", "-6"):
        ran = subprocess.run(["ip", "-j", family, *words], stdout=subprocess.PIPE, check=True)
        found += json.loads(ran.stdout or b"[]")
    return found


def indices() -> Dict[str, int]:
    return {it["ifname"]: it["ifindex"] for it in listed("link")}


def by_ip(kind: str) -> List[Any]:
    """The items of a kind, by `ip`."""
    if kind == "link":
        return sorted(indices().items())
    if kind == "addr":
        return sorted((it["ifindex"], at["local"]) for it in listed("addr")
                      for at in it["addr_info"])
    if kind == "route":
        found = [it["dst"] for it in listed("route", "show", "table", "all")]
        return sorted(it if it == ANY else str(ipaddress.ip_network(it)) for it in found)
    if kind == "neigh":
        rows, links = listed("neigh", "show", "nud", "all"), indices()
        return sorted((links[it["dev"]], it["dst"]) for it in rows)
    return sorted(it["priority"] for it in listed("rule"))


def address(data: bytes) -> str:
    return str(ipaddress.ip_address(data))


def recorded(kind: str, items: List[Message]) -> List[Any]:
    """The same of the items of a dump. Of routes and rules the kernel has other families, too."""
    found: List[Any] = []
    for body in (it.body for it in items):
        if kind in ("route", "rule") and body[0] not in (socket.AF_INET, socket.AF_INET6):
            continue
        rest, index = attributes(body[KINDS[kind][1]:]), struct.unpack_from("=I", body, 4)[0]
        if kind == "link":
            found.append((rest[3].rstrip(b"\0").decode(), index))
        elif kind == "addr":
            found.append((index, address(rest[2] if 2 in rest else rest[1])))
        elif kind == "route":
            found.append(f"{address(rest[1])}/{body[1]}" if 1 in rest else ANY)
        elif kind == "neigh":
            found.append((index, address(rest[1])))
        elif kind == "rule":
            found.append(struct.unpack("=I", rest.get(6, bytes(4)))[0])
    return sorted(found)


class Recorder:
    """A monitor whose lines are read when they are asked for, and a named pipe that it reads."""

    def __init__(self, folder: str, *words: str) -> None:
        self.pipe, self.errors = f"{folder}/again", f"{folder}/errors"
        if not os.path.exists(self.pipe):
            os.mkfifo(self.pipe)
        self.end, into = os.pipe()
        fcntl.fcntl(self.end, SET_PIPE_SIZE, SMALL)
        with open(self.errors, "wb") as errors:
            self.run = subprocess.Popen(
                [f"{ROOT}/rtnl-record", "monitor", "--again", self.pipe, *words],
                stdout=into, stderr=errors)
        RUNNING.append(self.run)
        os.close(into)
        self.lines: List[str] = []
        self.rest = b""
        self.until("# groups ")

    def more(self, seconds: float) -> bool:
        """Reads what is there; whether anything was."""
        if not select.select([self.end], [], [], seconds)[0]:
            return False
        data = os.read(self.end, SMALL)
        *lines, self.rest = (self.rest + data).split(b"\n")
        self.lines += [it.decode() for it in lines]
        return data != b""

    def until(self, front: str, seq: int = 0) -> None:
        """Reads up to a line that begins so, or up to the end of the dump of this number."""
        end, at = time.monotonic() + PATIENCE, 0
        while time.monotonic() < end:
            for line in self.lines[at:]:
                if line.startswith(front) if front else is_end(line, seq):
                    return
            at = len(self.lines)
            if not self.more(1) and self.run.poll() is not None:
                break
        raise AssertionError(f"no {front or f'end of {seq}'}: {[it[:60] for it in self.lines]}")

    def begin_dump(self) -> None:
        """Reads up to the line of the first dump. What is in the pipe then is of its first answer,
        which has no room there: the recorder waits."""
        self.until("# seq 1 ")
        count, end = bytearray(4), time.monotonic() + PATIENCE
        while not any(count) and time.monotonic() < end:
            fcntl.ioctl(self.end, termios.FIONREAD, count)
        assert any(count)

    def say(self, text: str) -> None:
        file = os.open(self.pipe, os.O_WRONLY | os.O_NONBLOCK)
        os.write(file, text.encode())
        os.close(file)

    def heard(self, text: str) -> bool:
        """Whether it says this on standard error, soon."""
        end = time.monotonic() + PATIENCE
        while self.said() != text and time.monotonic() < end:
            time.sleep(0.05)
        return self.said() == text

    def said(self) -> str:
        with open(self.errors, encoding="utf-8") as file:
            return file.read()

    def ticks(self) -> int:
        """The time that it took of a processor, in hundredths of a second."""
        with open(f"/proc/{self.run.pid}/stat", encoding="utf-8") as file:
            words = file.read().rpartition(")")[2].split()
        return int(words[11]) + int(words[12])

    def ended(self, number: int) -> int:
        """The status behind this signal, with all lines read."""
        self.run.send_signal(number)
        while self.more(PATIENCE):
            pass
        os.close(self.end)
        return self.run.wait(PATIENCE)

    def comments(self) -> List[str]:
        """The comment lines behind the first, without the port, which is the same in all."""
        port = self.lines[0].split()[-1]
        return [it.replace(f" port {port} ", " ") for it in self.lines[1:] if it[0] == "#"]


def is_end(line: str, seq: int) -> bool:
    return line[0] != "#" and any((it.kind, it.seq) == (DONE, seq) for it in messages(line))


def same(*pairs: Tuple[object, object]) -> List[str]:
    return [f"{found!r:.300} for {wanted!r:.300}" for found, wanted in pairs if found != wanted]


def blocks(lines: List[str]) -> List[Tuple[str, List[Message]]]:
    """Each comment line with the messages behind it."""
    found: List[Tuple[str, List[Message]]] = []
    for line in lines:
        if line[0] == "#":
            found.append((line, []))
        else:
            found[-1][1].extend(messages(line))
    return found


def in_turn(folder: str) -> Iterator[Tuple[str, List[str]]]:
    """All kinds, while nothing changes."""
    recorder = Recorder(folder, "--dump", ",".join(KINDS), "link")
    recorder.until("", len(KINDS))
    yield "it ends", same((recorder.ended(signal.SIGTERM), 0), (recorder.said(), ""))
    port = recorder.lines[0].split()[-1]
    found = blocks(recorder.lines)[1:]
    yield "a line for each kind", same(([line for line, _ in found], [
        f"# seq {seq} port {port} kind {kind}" for seq, kind in enumerate(KINDS, 1)]))
    for seq, (kind, (_, behind)) in enumerate(zip(KINDS, found), 1):
        items = [it for it in behind if it.kind == KINDS[kind][0]]
        wrong = same(({(it.seq, it.port) for it in behind}, {(seq, int(port))}),
                     ([it.kind for it in behind], [KINDS[kind][0]] * len(items) + [DONE]),
                     (recorded(kind, items), by_ip(kind)))
        yield f"{kind}: the items that ip lists, and the end", wrong or ([] if items else ["none"])


def amid(folder: str) -> List[str]:
    """A link changes while the dump of neighbours waits for its reader."""
    recorder = Recorder(folder, "--dump", "neigh", "link")
    recorder.begin_dump()
    make("link set lo txqueuelen 777")
    recorder.until("", 1)
    status = recorder.ended(signal.SIGINT)
    signs = [("link", it.seq == 1) if it.kind == 16 else (it.kind, it.seq)
             for line in recorder.lines if line[0] != "#" for it in messages(line)]
    at = signs.index(("link", False)) if ("link", False) in signs else 0
    items = [it for line in recorder.lines[2:] for it in messages(line) if it.kind == 28]
    return same((status, 0), (recorder.comments(), ["# seq 1 kind neigh"]),
                (signs[at - 1:at + 2], [(28, 1), ("link", False), (28, 1)]),
                (signs.count(("link", False)), 1), (signs[-1], (DONE, 1)),
                (recorded("neigh", items), by_ip("neigh")))


def dropped(folder: str) -> List[str]:
    """More neighbours come than the socket has room for, while the dump waits for its reader, who
    wants them again then."""
    recorder = Recorder(folder, "--dump", "neigh", "neigh")
    recorder.begin_dump()
    make(FLOOD)
    recorder.until(LOSS)
    before = [it for line in recorder.lines if line[0] != "#" for it in messages(line)]
    recorder.say("neigh\n")
    recorder.until("", 2)
    status = recorder.ended(signal.SIGINT)
    again = [it for it in blocks(recorder.lines)[-1][1] if it.seq == 2]
    return same((status, 1), (recorder.said(), SAID),
                (recorder.comments(), ["# seq 1 kind neigh", LOSS, "# seq 2 kind neigh"]),
                ((before[-1].kind, before[-1].seq), (DONE, 1)), (again[-1].kind, DONE),
                (recorded("neigh", again[:-1]), by_ip("neigh")))


def told(folder: str) -> Iterator[Tuple[str, List[str]]]:
    """A reader says two kinds, one of them twice, and then none. It goes, and another comes."""
    recorder = Recorder(folder, "link")
    recorder.say("route\nlink\nroute\n")
    recorder.until("", 2)
    wanted = ["# seq 1 kind route", "# seq 2 kind link"]
    yield "two kinds, one twice", same((recorder.comments(), wanted))
    recorder.say("routes\n")
    said = (f"rtnl-record: {recorder.pipe}: 'routes' is no kind; there are link, addr, route, "
            "neigh, rule, nexthop, qdisc, class, filter, netconf, neightbl, mdb, vlan, nsid, "
            "addrlabel, fdb\n")
    yield "a wrong name", [] if recorder.heard(said) else [recorder.said()]
    ticks = recorder.ticks()
    time.sleep(1)
    yield "it waits when the reader is gone", same((recorder.ticks() - ticks < 20, True))
    lines = len(recorder.lines)
    make("link set lo txqueuelen 778")
    recorder.more(PATIENCE)
    yield "it follows when the reader is gone", same(
        ([it.kind for line in recorder.lines[lines:] for it in messages(line)], [16]))
    recorder.say("rule\n")
    recorder.until("", 3)
    yield "another reader", same((recorder.comments(), [*wanted, "# seq 3 kind rule"]))
    yield "its end", same((recorder.ended(signal.SIGINT), 1), (recorder.said(), said),
                          (recorder.comments(), [*wanted, "# seq 3 kind rule"]))


def interrupted(folder: str, number: int) -> List[str]:
    """An end is asked for amid a line of a dump: that line is written whole, and no more of it."""
    recorder = Recorder(folder, "--dump", "neigh,link", "link")
    recorder.begin_dump()
    status = recorder.ended(number)
    found = blocks(recorder.lines)
    whole = all(it.kind == 28 and it.seq == 1 for it in found[-1][1])
    return same((status, 1), (recorder.comments(), ["# seq 1 kind neigh"]), (recorder.rest, b""),
                (whole, True), (0 < len(found[-1][1]) < 3000, True), (recorder.said(),
                "rtnl-record: no whole dump of kind neigh, link at the end\n"))


def cases() -> Iterator[Tuple[str, List[str]]]:
    with tempfile.TemporaryDirectory() as folder:
        make(MADE)
        yield from in_turn(folder)
        yield from told(folder)
        make(MANY)
        yield "a notification amid a dump", amid(folder)
        yield "an interrupt amid a dump", interrupted(folder, signal.SIGINT)
        yield "an end amid a dump", interrupted(folder, signal.SIGTERM)
        yield "dropped messages amid a dump", dropped(folder)


if __name__ == "__main__":
    try:
        STATUS = counted(cases())
    finally:
        for ran in RUNNING:
            ran.kill()
    sys.exit(STATUS)
