"""Feeds what a socket was told to mirrors of the program of rtnl_rows, and compares what they hold
with what the quiet kernel dumped.
"""
import os
import sys
from typing import Callable, Dict, Iterator, List, NamedTuple, Sequence

sys.dont_write_bytecode = True
sys.path.append(f"{os.path.dirname(os.path.realpath(__file__))}/../rows")
from entries import told
from flat import Asked, answers_in, run
from recording import AF_BRIDGE, KINDS
from standing import MIRROR, mirror_asked, mirror_lines
from words import Bytes, Row, Words

# NLM_F_MULTI of linux/netlink.h.
MULTI = 2


def steps(lines: List[str], family: int = 0) -> Iterator[str]:
    """A recording as the steps of a mirror, whose dumps asked for this address family."""
    for line in lines:
        words = line.split()
        if line.startswith("# seq "):
            said = dict(zip(words[1::2], words[2::2]))
            yield f"begin {said['kind']} {said.get('family', family)} {said['seq']} {said['port']}"
        elif line.startswith("# dropped"):
            yield "lost"
        elif words and words[0] != "#":
            yield f"feed {line}"


class Keeper(NamedTuple):
    """What keeps mirrors: a program, and its module that makes one."""

    program: str
    module: int = MIRROR

    def asked(self, made: List[str]) -> Asked:
        """A mirror that makes these steps, and tells all that it holds then."""
        ends = ["stale", *(f"table {kind}" for kind in KINDS)]
        words = Words("entries 65536 waiting 65536")
        return mirror_asked(Row("mirror", words, [*made, *ends], Bytes()), self.module)


class Answer(NamedTuple):
    """What a mirror says at its end: why each kind's table is stale, and its entries."""

    states: Dict[str, str]
    tables: Dict[str, Dict[str, str]]
    refused: List[str]


def answers(keeper: Keeper, made: List[List[str]]) -> Iterator[Answer]:
    """What mirrors say that make these steps, each its own."""
    ran = run(keeper.program, map(keeper.asked, made))
    if ran.status or ran.errors:
        raise RuntimeError(f"{keeper.program}: status {ran.status}: {ran.errors}")
    for steps_made, found in zip(made, answers_in(ran.output)):
        said = [line for it in steps_made for line in mirror_lines(it, found)]
        states: Dict[str, str] = {}
        for line in mirror_lines("stale", found):
            kind, _, state = line.split(" ", 2)
            states[kind] = state
        tables: Dict[str, Dict[str, str]] = {}
        for kind in KINDS:
            words = [it.split() for it in mirror_lines(f"table {kind}", found)]
            tables[kind] = {it[1]: it[5] for it in words if it[0] == "key"}
        found.end()
        yield Answer(states, tables, [it for it in said if not it.startswith("heard")])


def whole(parts: Sequence[Answer]) -> Answer:
    """What mirrors hold of which each was told one kind's dump, whose numbers are all the same."""
    tables = {kind: it.tables[kind] for kind, it in zip(KINDS, parts)}
    return Answer({}, tables, [line for it in parts for line in it.refused])


def lines_of(path: str, length: int = -1) -> List[str]:
    with open(path, "rb") as file:
        return file.read(length).decode().splitlines()


def of_bridge(folder: str, name: str, events: List[str]) -> List[str]:
    """The recording of a bridge: its dump, and what the socket was told since."""
    with open(f"{folder}/{name}.since", encoding="utf-8") as since:
        before = len(lines_of(f"{folder}/events", int(since.read())))
    # The last line of these may be a part of one.
    told = [it for it in events[before - 1 :] if not it.startswith("# seq ")]
    return [*lines_of(f"{folder}/{name}.bridge"), *told]


def differences(kind: str, mirror: Dict[str, str], kernel: Dict[str, str]) -> List[str]:
    """The keys under which a mirror has another entry than the kernel."""
    one, other = told(kind, mirror), told(kind, kernel)
    return [f"{kind} {key}" for key in sorted({*one, *other}) if one.get(key) != other.get(key)]


def wrong_entries(mirror: Answer, kernel: Answer, kinds: List[str]) -> List[str]:
    """What was refused, and where the tables of these kinds differ from the kernel's."""
    found = mirror.refused[:]
    for kind in kinds:
        found += differences(kind, mirror.tables[kind], kernel.tables[kind])
    return found


class Compared(NamedTuple):
    """What mirrors came to in a run: whose tables said that they are current amid changes, what was
    wrong in these, and what was wrong at the end, where all are to be current."""

    current: List[str]
    amid: List[str]
    end: List[str]


def compared(kinds: List[str], early: Answer, late: Answer, then: Answer, now: Answer) -> Compared:
    """Mirrors amid changes and at the end, beside the kernel then and now."""
    current = [kind for kind in kinds if early.states[kind] == "current"]
    stale = [f"{it} is stale: {late.states[it]}" for it in kinds if late.states[it] != "current"]
    end = stale + wrong_entries(late, now, kinds)
    return Compared(current, wrong_entries(early, then, current), end)


def early_of(folder: str) -> List[str]:
    """What the socket of a run was told before the last changes."""
    with open(f"{folder}/length", encoding="utf-8") as length:
        return lines_of(f"{folder}/events", int(length.read()))


def in_turn(lines: List[str]) -> List[str]:
    """A recording as it is."""
    return lines


def read_late(lines: List[str]) -> List[str]:
    """The same of one who has another socket for dumps and reads it late: all answers of a dump
    stand where the next one begins."""
    found: List[str] = []
    held: List[str] = []
    for line in lines:
        if line.startswith("# seq "):
            found, held = found + held, []
        (held if is_answer(line) else found).append(line)
    return found + held


def is_answer(line: str) -> bool:
    """Whether a line is a datagram of a dump: its first message has the flag MULTI."""
    return not line.startswith("#") and bool(int(line[12:14] or "0", 16) & MULTI)


# In which order a mirror is fed what came, with what a case says of it.
ORDERS: Dict[str, Callable[[List[str]], List[str]]] = {"": in_turn, ", dumps read late": read_late}


def compare_tables(keeper: Keeper, folder: str, order: str) -> Compared:
    """What a run's mirror of all kinds came to, in this order."""
    recorded = [ORDERS[order](it) for it in (early_of(folder), lines_of(f"{folder}/events"))]
    dumped = [lines_of(f"{folder}/{it}.{kind}") for it in ("first", "quiet") for kind in KINDS]
    early, late, *parts = answers(keeper, [[*steps(it)] for it in recorded + dumped])
    return compared(KINDS, early, late, whole(parts[: len(KINDS)]), whole(parts[len(KINDS) :]))


def compare_forwarding(keeper: Keeper, folder: str, order: str) -> Compared:
    """What the mirrors of the bridge's forwarding entries came to."""
    recorded = [of_bridge(folder, "early", early_of(folder))]
    recorded += [of_bridge(folder, "late", lines_of(f"{folder}/events"))]
    dumped = [lines_of(f"{folder}/{it}.bridge") for it in ("first", "quiet")]
    fed = [*map(ORDERS[order], recorded), *dumped]
    return compared(["neigh"], *answers(keeper, [[*steps(it, AF_BRIDGE)] for it in fed]))
