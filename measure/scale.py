#!/usr/bin/env python3
"""Measures how what we do grows with its input, beside peers, and prints the tables of
docs/PERFORMANCE.md.

usage: measure/scale.py [--only PART] [--most N] [--bytes N] [--share N] [FOLDER]

FOLDER holds recordings of a live kernel as measure/record.sh makes them; with none it is made so,
which needs the right to make a network namespace. Of their addresses, routes and neighbours 1,000
are taken, one a datagram, and again and again; links are left out, so that 100,000 datagrams have
less than the 16 MiB that `show`, `check` and `table` read. The parts:

  sizes   instructions a byte of datagrams, by callgrind, less those over an empty recording,
          of 10^3 to 10^6 datagrams (--most), `show` and `check` as far as they read them; the
          greatest over the least; and the greatest memory, with how much more of it there is for
          each byte of lines from the least size to the greatest
  tables  dumps of routes like a recorded one, each with a destination of its own: instructions
          and the greatest memory an entry, less that of a dump of one, of `rtnl table`, which
          also has its input and its text in memory, of a session of the library for C, of
          libnl's cache, and of pyroute2's messages, kept in a list
  long    --bytes of lines, 1 GiB, by `follow`: the processor's time, beside tshark -V and
          pyroute2, which read one of --share parts of the datagrams, by default 64, and are taken
          to need as much time for each other part, less their start; and split by split(1) over
          as many processes of xargs(1) as there are processors, four at most: the time by the
          clock and of the processors, and the machine's load, without which the first says little

Ours are the programs that the gate builds, or those that the environment names (programs.py). All
takes some twenty minutes, most of it callgrind over 10^6 datagrams.
"""
import argparse
import os
import shutil
import socket
import tempfile
import time
from typing import Callable, Dict, Iterator, List, NamedTuple, Optional, Sequence, Tuple

from counting import (
    Command, Count, Rows, instructions, kept, less, over, peak, seconds, shown, table)
from datagrams import (
    HEADER, Datagrams, as_lines, as_pcap, datagrams_of, dumped, messages, notifications,
    route_like, sized)
from measure import dump_options
from programs import PROGRAM, TOP, compiled, install, over_ours, recorded

# What pyroute2 of Debian is for.
PYTHON = "/usr/bin/python3"
PACKAGES = [
    "valgrind", "valgrind", "/usr/bin/time", "time", "cc", "gcc", "pkg-config", "pkg-config",
    "/usr/include/libnl3/netlink/netlink.h", "libnl-3-dev",
    "/usr/include/libnl3/netlink/route/link.h", "libnl-route-3-dev", "tshark", "tshark",
    "/usr/lib/python3/dist-packages/pyroute2", "python3-pyroute2"]
KINDS = "addresses", "routes", "neighbours"
BASE = 1_000
# What `show` and the like read at most.
MOST_READ = 16 << 20
ENTRIES = 1, 1_000, 10_000, 65_536
EACH = 64
RTPROT_STATIC = 4
LANES = 4


def base_of(folder: str) -> Datagrams:
    """BASE notifications of a folder's recordings, evenly chosen."""
    found = [it for name in KINDS for it in notifications(datagrams_of(f"{folder}/{name}.hex"))]
    return [found[index * len(found) // BASE] for index in range(BASE)]


# Sizes.


def sizes_of(most: int) -> List[int]:
    """10^3, 10^4 and so on."""
    return [BASE * 10 ** power for power in range(7) if BASE * 10 ** power <= most]


def growth(name: str, unit: str, found: Sequence[Count], form: str) -> List[str]:
    """A row of figures for each size, and the greatest over the least."""
    known = [it for it in found if it is not None]
    spread = max(known) / min(known) if known else None
    return [name, unit, *(shown(it, 1, form) for it in found), shown(spread, 1, "{:.3f}")]


class Sized(NamedTuple):
    """Lines: the file, how many bytes it has, and how many those of the datagrams are."""

    file: str
    lines: int
    datagrams: int


def size_rows(command: Command, empty: str, inputs: Sequence[Optional[Sized]]) -> Rows:
    """What a command takes of each size that it reads, and its memory over that of its input."""
    name, at_start = f"`{command[-1]}`", instructions([*command, empty])
    costs = [
        over(less(instructions([*command, it.file]), at_start), it.datagrams) if it else None
        for it in inputs]
    places = [peak([*command, it.file]) if it else None for it in inputs]
    read = [it.lines for it in inputs if it]
    grown = [it for it in places if it is not None]
    more = max(0.0, grown[-1] - grown[0]) * 1e6 if len(grown) > 1 else None
    slope = over(more, read[-1] - read[0])
    memory = growth(name, "megabytes", places, "{:.1f}")
    return [
        [*growth(name, "instructions a byte", costs, "{:.2f}"), "-"],
        [*memory, shown(slope, 1, "{:.2f}")]]


def sizes(room: str, base: Datagrams, most: int) -> None:
    """Instructions and memory by the number of datagrams."""
    counts, empty = sizes_of(most), kept(room, "empty", b"")
    lines, size = as_lines(base), sum(map(len, base))
    inputs = [
        Sized(kept(room, f"lines{it}", lines * (it // BASE)), len(lines) * it // BASE,
              size * it // BASE)
        for it in counts]
    tail = "greatest / least", "memory a byte of lines"
    rows: Rows = [("", "", *(f"{it:,}" for it in counts), *tail)]
    rows.append(["lines", "megabytes", *(f"{it.lines / 1e6:.1f}" for it in inputs), "-", "-"])
    for word in "show", "check", "follow":
        read = [it if word == "follow" or it.lines <= MOST_READ else None for it in inputs]
        rows += size_rows([PROGRAM, word], empty, read)
    table(*rows)


# Tables.


def gateway_route(datagrams: Datagrams) -> bytes:
    """The first route of IPv4 through a gateway, as `ip route add` made it."""
    for it in messages(datagrams):
        if it[HEADER.size] == socket.AF_INET and it[HEADER.size + 5] == RTPROT_STATIC:
            return it
    raise SystemExit("scale.py: there is no static route of IPv4 in routes.hex")


def dump_like(like: bytes, entries: int) -> Datagrams:
    """A dump of so many routes like a recorded one."""
    return dumped([route_like(like, index) for index in range(entries)], EACH)


class Keeper(NamedTuple):
    """What keeps a dump: its name, and its command over a dump's two forms."""

    name: str
    command: Callable[[str, str], Command]


def keepers(room: str, one: Datagrams) -> List[Keeper]:
    """Those that are here."""
    dump = [PROGRAM, *dump_options(one), "--entries", str(ENTRIES[-1])]
    found = [Keeper("`rtnl table`", lambda lines, binary: [*dump, lines])]
    ours, nl = over_ours(room, "dumps_rtnlc"), compiled(room, "dumps_libnl", "libnl-route-3.0")
    if ours:
        session = ours
        found.append(Keeper("session", lambda lines, binary: [session, "session", binary]))
    if nl:
        cache = nl
        found.append(Keeper("libnl's cache", lambda lines, binary: [cache, "parsed", binary]))
    if os.path.exists(PACKAGES[-2]):
        script = [PYTHON, "-B", f"{TOP}/measure/dumps_pyroute2.py", "kept"]
        found.append(Keeper("pyroute2", lambda lines, binary: [*script, binary]))
    return found


def entry_rows(keeper: Keeper, commands: Dict[int, Command]) -> Rows:
    """What a keeper takes for an entry, by how many there are."""
    ways: List[Tuple[str, Callable[[Command], Count], float]] = [("bytes an entry", peak, 1e-6)]
    # What the interpreter does beside is not of interest.
    if keeper.name != "pyroute2":
        ways.insert(0, ("instructions an entry", instructions, 1))
    rows: Rows = []
    one, *others = commands
    for unit, way, scale in ways:
        begun = way(commands[one])
        found = [over(less(way(commands[it]), begun), (it - one) * scale) for it in others]
        rows.append(growth(keeper.name, unit, found, "{:,.0f}"))
    return rows


def tables(room: str, like: bytes) -> None:
    """Instructions and memory by the number of entries."""
    dumps = {count: dump_like(like, count) for count in ENTRIES}
    files = {
        count: (kept(room, f"lines{count}", as_lines(it)), kept(room, f"dump{count}", sized(it)))
        for count, it in dumps.items()}
    rows: Rows = [("", "", *(f"{it:,}" for it in ENTRIES[1:]), "greatest / least")]
    for keeper in keepers(room, dumps[ENTRIES[0]]):
        rows += entry_rows(keeper, {it: keeper.command(*files[it]) for it in ENTRIES})
    table(*rows)


# Long.


class Spent(NamedTuple):
    """Seconds by the clock and of the processors."""

    clock: float
    processors: float


def spent(command: Command) -> Spent:
    """What a command takes, with those that it starts."""
    begun = time.monotonic()
    used = seconds(command)
    return Spent(time.monotonic() - begun, used)


def by_peers(room: str, part: Datagrams, share: int) -> Iterator[Tuple[str, float]]:
    """The processor's time that each peer would take for all parts of the datagrams."""
    capture, nothing = kept(room, "capture", as_pcap(part)), kept(room, "no_capture", as_pcap([]))
    binary = kept(room, "binary", sized(part))
    script = [PYTHON, "-B", f"{TOP}/measure/dumps_pyroute2.py"]
    ways = {
        "`tshark -V -r`": (["tshark", "-V", "-r", capture], ["tshark", "-V", "-r", nothing]),
        "pyroute2": ([*script, "visited", binary], [*script, "read", binary])}
    for name, (command, start) in ways.items():
        if shutil.which(command[0]):
            yield name, (seconds(command) - seconds(start)) * share


def split(room: str, file: str, lanes: int) -> Tuple[Spent, Spent]:
    """What splitting takes, and `follow` over the parts, side by side."""
    parts = f"{room}/parts"
    os.mkdir(parts)
    cutting = spent(["split", "-n", f"l/{lanes}", file, f"{parts}/part"])
    side_by_side = f"ls {parts}/* | xargs -P {lanes} -n 1 \"$0\" follow"
    followed = spent(["sh", "-c", side_by_side, PROGRAM])
    shutil.rmtree(parts)
    return cutting, followed


def write_lines(path: str, base: Datagrams, size: int) -> int:
    """Writes so many bytes of lines at least, and says how many times the datagrams."""
    lines = as_lines(base)
    times = -(-size // len(lines))
    with open(path, "wb") as file:
        for _ in range(times):
            file.write(lines)
    return times


def long(room: str, base: Datagrams, size: int, share: int) -> None:
    """Very long lines by `follow`, alone, beside peers, and split."""
    file, lanes = f"{room}/long", min(LANES, len(os.sched_getaffinity(0)))
    times = write_lines(file, base, size)
    load = os.getloadavg()[0]
    alone = spent([PROGRAM, "follow", file])
    cutting, followed = split(room, file, lanes)
    loads = f"a load of {load:.1f} before and {os.getloadavg()[0]:.1f} behind"
    print(f"{os.path.getsize(file):,} bytes of lines, {times * len(base):,} datagrams, {loads}\n")
    rows: Rows = [(
        "", "seconds by the clock", "of the processors", "`follow` / its clock",
        "`follow` / its processors")]
    runs = {"`follow`": alone, f"`follow`, {lanes} parts": followed, "split": cutting}
    for name, it in runs.items():
        ratios = (shown(over(mine, other), 1, "{:.2f}") for mine, other in zip(alone, it))
        rows.append((name, f"{it.clock:.2f}", f"{it.processors:.2f}", *ratios))
    part = (base * (times // share + 1))[:times * len(base) // share]
    for name, used in by_peers(room, part, share):
        rows.append((name, "-", f"{used:,.1f}", "-", f"{alone.processors / used:.4f}"))
    table(*rows)


def main() -> None:
    options = argparse.ArgumentParser(
        description=__doc__, formatter_class=argparse.RawDescriptionHelpFormatter)
    options.add_argument("--only", choices=("sizes", "tables", "long"))
    options.add_argument("--most", type=int, default=1_000_000, metavar="N")
    options.add_argument("--bytes", type=int, default=1 << 30, metavar="N")
    options.add_argument("--share", type=int, default=64, metavar="N")
    options.add_argument("folder", nargs="?")
    chosen = options.parse_args()
    install(*PACKAGES)
    with tempfile.TemporaryDirectory() as room:
        folder = recorded(chosen.folder, room)
        base = base_of(folder)
        if chosen.only in (None, "sizes"):
            sizes(room, base, chosen.most)
        if chosen.only in (None, "tables"):
            tables(room, gateway_route(datagrams_of(f"{folder}/routes.hex")))
        if chosen.only in (None, "long"):
            long(room, base, chosen.bytes, chosen.share)


if __name__ == "__main__":
    main()
