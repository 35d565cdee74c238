#!/usr/bin/env python3
"""Measures what a notification costs in a mirror of the library for C, beside libnl's cache as its
manager keeps it, and what an entry takes of the heap in both, and prints it as the tables of
docs/PERFORMANCE.md.

usage: measure/mirroring.py [FOLDER]

FOLDER holds recordings, links.hex, routes.hex and neighbours.hex, as measure/record.sh makes them;
with none, examples/. Of each kind one entry is taken, and dumps are made of entries like it, each
with an index or a destination of its own. Behind a dump stand COUNT notifications, one a datagram,
of entries that it has: each has a field changed, or goes, and comes back by the next.

Instructions are those that callgrind counts over the dump and the notifications, less those over
the dump alone, and less those of programs that only read the same files. They are counted three
times: by `before` a program hears of each change with the entry before it, by `told` of the change
alone, by `quiet` of neither. The heap is what malloc has given, with what it keeps beside that,
behind the dump. The programs have to agree on how many entries there are, and how many were added,
changed and removed.

Ours is the library that the gate builds, or that $RTNLC names (programs.py).
"""
import argparse
import struct
import subprocess
import tempfile
from typing import Callable, List, NamedTuple, Optional, Sequence, Tuple

from counting import Count, Rows, beyond_reading, kept, less, over, shown, table
from datagrams import (
    DATAGRAM, HEADER, Datagrams, datagrams_of, dumped, link_like, notifications, route_like, sized)
from programs import TOP, compiled, install, over_ours

COUNT = 2_000
ENTRIES = 1_000, 10_000
# How far one notification's entry is from the next one's: so all have their turn.
STEP = 7_919
PACKAGES = [
    "valgrind", "valgrind", "cc", "gcc", "pkg-config", "pkg-config",
    "/usr/include/libnl3/netlink/netlink.h", "libnl-3-dev",
    "/usr/include/libnl3/netlink/route/link.h", "libnl-route-3-dev"]
WAYS = "before", "told", "quiet"
SIDES = "mirror", "libnl's cache", "of its"
Programs = Sequence[Optional[str]]


class Kind(NamedTuple):
    """A kind: how an entry is made like another, and the bits of a byte that change."""

    name: str
    like: Callable[[bytes, int], bytes]
    at: int
    bits: int


KINDS = [
    Kind("links", link_like, 25, 0x01),  # IFF_PROMISC of ifi_flags
    Kind("routes", route_like, 21, 0xBE),  # rtm_protocol, of RTPROT_STATIC RTPROT_ZEBRA
    Kind("neighbours", route_like, 24, 0x82),  # ndm_state, of NUD_PERMANENT NUD_REACHABLE
]


def entries_like(kind: Kind, recorded: Datagrams, size: int) -> Datagrams:
    """So many entries like the one in the middle of those of which others can be made."""
    found = []
    for it in notifications(recorded):
        try:
            kind.like(it, 0)
            found.append(it)
        except ValueError:
            pass
    return [kind.like(found[len(found) // 2], index) for index in range(size)]


def changes(kind: Kind, entries: Datagrams) -> Datagrams:
    """Notifications of entries that change, each to another than it was."""
    found = []
    for index in range(COUNT):
        entry = bytearray(entries[index * STEP % len(entries)])
        entry[kind.at] ^= 0 if index // len(entries) % 2 else kind.bits
        found.append(bytes(entry))
    return list(notifications(found))


def removals(entries: Datagrams) -> Datagrams:
    """Notifications of entries that go and come back."""
    found = []
    for index in range(COUNT // 2):
        entry = entries[index * STEP % len(entries)]
        length, number = HEADER.unpack_from(entry)[:2]
        found += [struct.pack("<IH", length, number + 1) + entry[6:], entry]
    return list(notifications(found))


def ratio(figures: Sequence[Count], size: int = 1) -> List[str]:
    """Figures of both programs, and one over the other."""
    return [*(shown(it, size, "{:,.0f}") for it in figures), shown(over(*figures), 1, "{:.2f}")]


def costs(programs: Programs, alone: str, file: str) -> List[str]:
    """The instructions of each program for a notification behind a dump."""
    cells = []
    for way in WAYS:
        taken = [[beyond_reading(it, way, of) if it else None for of in (file, alone)]
                 for it in programs]
        cells += ratio([over(less(*it), COUNT) for it in taken])
    return cells


def agree(programs: Programs, file: str) -> List[Count]:
    """The heap of each program; all say that the same became of the entries."""
    runs = [subprocess.check_output([it, "told", file]).split() if it else None for it in programs]
    if len({tuple(it[:-1]) for it in runs if it}) > 1:
        raise SystemExit(f"mirroring.py: the programs don't agree: {runs}")
    return [int(it[-1]) if it else None for it in runs]


def measured(kind: Kind, entries: Datagrams, programs: Programs, room: str) -> Tuple[Rows, Rows]:
    """The rows of both tables."""
    name = f"{len(entries):,} {kind.name}"
    dump = dumped(entries, DATAGRAM // len(entries[0]))
    alone = kept(room, "dump", sized(dump))
    rows: Rows = []
    for what, told in ("changed", changes(kind, entries)), ("gone and back", removals(entries)):
        file = kept(room, "notified", sized(dump + told))
        agree(programs, file)
        rows.append([f"{name}, {what}", *costs(programs, alone, file)])
    return rows, [[name, f"{len(entries[0]):,}", *ratio(agree(programs, alone), len(entries))]]


def main() -> None:
    options = argparse.ArgumentParser(
        description=__doc__, formatter_class=argparse.RawDescriptionHelpFormatter)
    options.add_argument("folder", nargs="?", default=f"{TOP}/examples")
    folder = options.parse_args().folder
    install(*PACKAGES)
    taken: Rows = [("", *(f"{way}: {it}" for way in WAYS for it in SIDES))]
    held: Rows = [("", "bytes of a message", *SIDES)]
    with tempfile.TemporaryDirectory() as room:
        nl = compiled(room, "mirror_libnl", "libnl-route-3.0")
        programs = over_ours(room, "mirror_rtnlc"), nl
        for kind in KINDS:
            recorded = datagrams_of(f"{folder}/{kind.name}.hex")
            for size in ENTRIES:
                entries = entries_like(kind, recorded, size)
                rows = measured(kind, entries, programs, room)
                taken, held = taken + rows[0], held + rows[1]
    table(*taken)
    table(*held)


if __name__ == "__main__":
    main()
