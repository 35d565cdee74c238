"""The three programs that read, over a played kernel, whose answers are those of the recordings in
examples/, or made by hand: whole dumps, an interrupted one, broken and cut datagrams, refusals, and
an end in the middle. What a program must print and how it must end stands here, or comes from
wire.py.
"""
import errno
import os
import struct
from typing import Callable, Dict, Iterator, List, NamedTuple, Optional, Tuple

import wire
from kernel import Answer, Command, Ended, Sent, nowhere, play, run
from wire import DUMP_INTR, MULTI, Message

Case = Tuple[str, List[str]]
GETLINK, GETROUTE = 18, 26
FAMILIES = {"links": [0], "routes": [0, 2, 10]}
# What a request of a dump is: struct nlmsghdr, and the size of the family's head.
SIZES = {GETLINK: 32, GETROUTE: 28}
HEAD = struct.Struct("=HHIIB")
# Names that a terminal would obey, or not show: a colour, what is UTF-8 and what isn't, and each
# byte but the one that ends a name.
HOSTILE = [b"e\x1b[31mX", b"\\x1b[31m", "\u00fc\u202e".encode(), b"\xff\xc3", *(
    bytes(range(at, min(at + 15, 256))) for at in range(1, 256, 15))]
# Links of the names of the indexes in the recording of routes, made by hand: with all states, a
# long name, hardware addresses of other lengths.
LINKS = [
    wire.link(2, b"plain", 0, 1500, "02:00:00:00:00:02"),
    wire.link(3, b"gone", 1, 68, "02:00:00:00:00:03"),
    wire.link(4, b"fifteen-letters", 2, 9000, "02:00:00:00:00:04"),
    wire.link(5, b"low", 3, 1280, "02:00:00:00:00:05"),
    wire.link(6, b"test.7", 4, 65535, "c6:33:64:01"),
    wire.link(7, b"sleeps", 5, 4294967295, ":".join(["fe"] * 20)),
    wire.link(8, b"up", 6, 0, "ff:ff:ff:ff:ff:ff"),
    wire.link(0x01020308, b"far", 6, 1500, "02:00:00:00:00:08"),
    *(wire.link(index, name, 6, 1500, "02:00:00:00:00:09")
      for index, name in enumerate(HOSTILE, 9)),
]
# One with nothing but its head.
BARE = Message(wire.NEWLINK, struct.pack("=BxHiII", 0, 1, 99, 0, 0))


def route(family: int, length: int, attributes: bytes, table: int = 254) -> Message:
    body = struct.pack("=BBBBBBBBI", family, length, 0, 0, table, 3, 0, 1, 0)
    return Message(wire.NEWROUTE, body + attributes)


def number(kind: int, value: int) -> bytes:
    return wire.attribute(kind, struct.pack("=I", value))


# Routes of IPv4 that the recording has none of: by RTA_VIA; of a table above 255; through a link
# of a large index; through one that there isn't; with nothing; with two hops, of which one has
# neither a gateway nor a link.
VIA = struct.pack("=H", 10) + bytes.fromhex("fe800000000000000000000000000001")
HOPS = struct.pack("=HBBi", 16, 0, 0, 8) + wire.attribute(wire.RTA_GATEWAY, bytes([10, 0, 0, 1]))
ROUTES = [
    route(2, 24, wire.attribute(wire.RTA_DST, bytes([192, 0, 2, 0]))
          + wire.attribute(wire.RTA_VIA, VIA) + number(wire.RTA_OIF, 8)),
    route(2, 0, number(wire.RTA_TABLE, 4294967295) + number(wire.RTA_OIF, 7), table=252),
    route(2, 31, wire.attribute(wire.RTA_DST, bytes([192, 0, 2, 2]))
          + number(wire.RTA_OIF, 0x01020308)),
    route(2, 32, wire.attribute(wire.RTA_DST, bytes([192, 0, 2, 1])) + number(wire.RTA_OIF, 77)),
    route(2, 0, number(wire.RTA_OIF, 9)), route(2, 0, number(wire.RTA_OIF, 12)),
    route(2, 0, b"", table=7),
    route(2, 8, wire.attribute(wire.RTA_DST, bytes([10, 0, 0, 0]))
          + wire.attribute(wire.RTA_MULTIPATH, HOPS + struct.pack("=HBBi", 8, 0, 0, 0))),
]


class Tables(NamedTuple):
    """What the played kernel knows."""

    links: List[Message]
    routes: List[Message]

    def of(self, kind: int, family: int) -> List[Message]:
        if kind == GETLINK:
            return self.links
        return [it for it in self.routes if it.body[0] == family]


WHOLE = Tables([*wire.recorded("links"), *LINKS, BARE], [*wire.recorded("routes"), *ROUTES])


def expected(program: str, tables: Tables = WHOLE) -> str:
    """What a program prints of whole tables."""
    if program == "links":
        lines = [wire.link_line(it.body) for it in tables.links]
    else:
        named, families = wire.names(tables.links), FAMILIES["routes"][1:]
        entries = [it for family in families for it in tables.of(GETROUTE, family)]
        lines = [line for it in entries for line in wire.route_lines(it.body, named)]
    return "".join(f"{line}\n" for line in lines)


def asked(request: bytes) -> Tuple[int, int, int]:
    """The type, the sequence number and the address family of a request."""
    _, kind, _, seq, _ = struct.unpack_from("=IHHII", request)
    return kind, seq, request[16]


def dump(entries: List[Message], seq: int, flags: int = 0) -> Sent:
    """The datagrams of a dump, a few entries in each; behind them the end."""
    found = [wire.packed(it._replace(flags=MULTI | flags), seq) for it in entries]
    parts = [b"".join(found[at:at + 7]) for at in range(0, len(found), 7)]
    return [*parts, wire.packed(Message(wire.DONE, bytes(4), MULTI | flags), seq)]


def whole(_: int, request: bytes) -> Sent:
    """A whole dump, of what a notification and an answer to another request come before."""
    kind, seq, family = asked(request)
    other = wire.packed(BARE._replace(flags=0), 0)
    return [other, wire.packed(BARE, seq + 1000), *dump(WHOLE.of(kind, family), seq)]


def at(turn: int, sent: Callable[[bytes], Sent]) -> Answer:
    """Whole dumps, and at this request what the function says."""
    return lambda count, request: sent(request) if count == turn else whole(count, request)


def differs(what: str, found: object, wanted: object) -> List[str]:
    return [] if found == wanted else [f"{what} {found!r:.600} for {wanted!r:.600}"]


def ends(ended: Ended, output: Optional[str], errors: str, status: int) -> List[str]:
    """What is not so of how a program ended. What it printed counts where it is known."""
    wrong = [] if output is None else differs("output", ended.output, output)
    line = f"{errors}\n" if errors else ""
    return wrong + differs("errors", ended.errors, line) + differs("status", ended.status, status)


def requests_of(program: str, found: List[bytes]) -> List[str]:
    """What is not so of the requests for whole dumps."""
    wanted = []
    for seq, family in enumerate(FAMILIES[program], 1):
        kind = GETLINK if seq == 1 else GETROUTE
        head = struct.pack("=IHHIIB", SIZES[kind], kind, 0x301, seq, 0, family)
        wanted.append(head + bytes(SIZES[kind] - len(head)))
    return differs("requests", [it.hex() for it in found], [it.hex() for it in wanted])


# Datagrams that break a rule, by the program that asks for such, and what is said of them.
FAULTS: List[Tuple[str, str, Callable[[int], bytes]]] = [
    ("links", "bad length at 32", lambda seq: wire.packed(
        Message(wire.NEWLINK, BARE.body + struct.pack("=HHI", 3, wire.IFLA_MTU, 0)), seq)),
    ("links", "bad length at 64", lambda seq: wire.packed(BARE, seq) + wire.packed(
        Message(wire.NEWLINK, BARE.body + struct.pack("=HHI", 99, wire.IFLA_MTU, 0)), seq)),
    ("links", "cut at 32", lambda seq: wire.packed(BARE, seq) + b"\x10\0"),
    ("links", "short body at 0", lambda seq: wire.packed(Message(wire.NEWLINK, bytes(12)), seq)),
    ("routes", "bad length at 32", lambda seq: wire.packed(
        route(2, 0, wire.attribute(wire.RTA_MULTIPATH, struct.pack("=HBBi", 0, 0, 0, 1))), seq)),
]


def broken(program: str, command: Command) -> Iterator[Case]:
    for turn in range(len(FAMILIES[program])):
        for _, fault, made in (it for it in FAULTS if it[0] == program):
            def answer(request: bytes, made: Callable[[int], bytes] = made) -> Sent:
                return [made(asked(request)[1]), *whole(0, request)]
            text = f"{program}: broken datagram: {fault}"
            yield f"{text}, in dump {turn + 1}", ends(
                play(command, at(turn, answer)), None, text, 1)


def refused(program: str, command: Command, turn: int) -> Iterator[Case]:
    for code in (errno.EPERM, errno.ENODEV):
        def answer(request: bytes, code: int = code) -> Sent:
            return [wire.packed(wire.failure(-code, request), asked(request)[1])]
        text = f"{program}: refused: {os.strerror(code)}"
        yield f"{text}, in dump {turn + 1}", ends(play(command, at(turn, answer)), None, text, 3)


def stopped(program: str, command: Command, turn: int) -> Iterator[Case]:
    """An answer that is cut, or isn't whole."""
    def cut(request: bytes) -> Sent:
        return [wire.packed(Message(wire.NEWLINK, BARE.body + bytes(65536)), asked(request)[1])]

    def front(request: bytes) -> Sent:
        return [*whole(0, request)[:-1], None]
    name, early = f"{program}: in dump {turn + 1}", f"{program}: the answer ended early"
    ended = play(command, at(turn, cut))
    yield f"{name}, 65,568 bytes", ends(ended, None, f"{program}: cut datagram", 4)
    yield f"{name}, no answer", ends(play(command, at(turn, lambda _: [None])), None, early, 2)
    yield f"{name}, no end", ends(play(command, at(turn, front)), None, early, 2)


def interrupted(program: str, command: Command, turn: int) -> Iterator[Case]:
    def answer(request: bytes) -> Sent:
        kind, seq, family = asked(request)
        return dump(WHOLE.of(kind, family)[1::2], seq, DUMP_INTR)
    name = f"{program}: interrupted in dump {turn + 1}"
    ended = play(command, at(turn, answer))
    wrong = ends(ended, expected(program), "", 0)
    numbers = [asked(it)[1] for it in ended.requests]
    wrong += differs("numbers", numbers, [*range(1, len(FAMILIES[program]) + 2)])
    yield f"{name}, then whole", wrong
    ended = play(command, lambda count, it: whole(count, it) if count < turn else answer(it))
    wrong = ends(ended, None, f"{program}: interrupted", 2)
    yield f"{name}, always", wrong + differs(
        "dumps again", len(ended.requests) - turn in (10, 11), True)


def dumps(program: str, command: Command) -> Iterator[Case]:
    ended = play(command, whole)
    yield f"{program}: whole", ends(ended, expected(program), "", 0)
    yield f"{program}: its requests", requests_of(program, ended.requests)
    empty = play(command, lambda _, request: dump([], asked(request)[1]))
    yield f"{program}: empty tables", ends(empty, "", "", 0)
    yield f"{program}: no socket", ends(
        run([*command, nowhere()]), "", f"{program}: {os.strerror(errno.ENOENT)}", 2)
    yield from broken(program, command)
    for turn in range(len(FAMILIES[program])):
        for cases in (refused, stopped, interrupted):
            yield from cases(program, command, turn)


# ---- Notifications ----

NOTIFIED = ["changes", "links", "addresses", "routes", "neighbours", "rules"]


def lines_of(datagrams: List[bytes]) -> str:
    found = [it for datagram in datagrams for it in wire.messages(datagram)]
    return "".join(f"{line}\n" for it in found for line in wire.change_line(it))


def hears(name: str, command: Command, datagrams: List[bytes], errors: str = "", status: int = 0,
          last: bytes = b"") -> Case:
    """What is printed of datagrams, behind which a last one may come that is no good."""
    ended = play(command, whole, [*datagrams, *([last] if last else [])])
    return f"watch: {name}", ends(ended, lines_of(datagrams), errors, status)


def notifications(command: Command) -> Iterator[Case]:
    for name in NOTIFIED:
        yield hears(name, command, wire.datagrams(name))
    every = [it for name in NOTIFIED for it in wire.datagrams(name)]
    made = [wire.packed(it, 0) for it in [*LINKS, BARE, *ROUTES]]
    gone = [wire.packed(it._replace(kind=it.kind + 1), 0) for it in [*LINKS, BARE, *ROUTES]]
    neighbour = struct.pack("=BxHiHBB", 2, 0, 3, 0x20, 0, 1)
    bare = wire.attribute(wire.NDA_DST, bytes([192, 0, 2, 9]))
    gone.append(wire.packed(Message(wire.NEWNEIGH + 1, neighbour + bare), 0))
    yield hears("made by hand", command, [*made, b"".join(gone)])
    yield hears("an ERROR, and what has another type", command, [
        wire.packed(wire.failure(-errno.EPERM, bytes(16)), 1), wire.packed(Message(100, b""), 0),
        *made])
    yield hears("nothing", command, [wire.packed(Message(wire.DONE, bytes(4)), 1)])
    for of, fault, made_broken in FAULTS:
        text = f"watch: broken datagram: {fault}"
        yield hears(f"{fault}, as of {of}", command, every, text, 1, made_broken(0))
    yield hears("65,568 bytes", command, every, "watch: cut datagram", 4,
                wire.packed(Message(wire.NEWLINK, BARE.body + bytes(65536)), 0))
    yield "watch: no socket", ends(
        run([*command, nowhere()]), "", f"watch: {os.strerror(errno.ENOENT)}", 2)


def cases(commands: Dict[str, Command]) -> Iterator[Case]:
    """Each case of the programs of a language, by their names."""
    for program in FAMILIES:
        yield from dumps(program, commands[program])
    yield from notifications(commands["watch"])
