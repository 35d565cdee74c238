#!/usr/bin/env python3
"""Measures what docs/PERFORMANCE.md shows, and prints it as its tables.

usage: measure/measure.py [FOLDER]
       measure/measure.py --dumps [FOLDER]

FOLDER holds recordings of dumps, NAME.hex, one kind of message each, as measure/record.sh makes
them; with none, examples/. It needs the programs that the gate builds, or those that the
environment names (programs.py), and valgrind. Beside ours it runs `ip`, and small programs over
libmnl and libnl where cc, pkg-config and those libraries are installed, one over
netlink-packet-route where cargo and Debian's packages of it are, and GNU time for memory; what is
missing has a dash.

Instructions are those that callgrind counts: of three passes less one pass, halved, over the bytes
of the datagrams; of a whole program for N datagrams and for twice as many, one less the other.
Times are those of the processor, the shortest of a hundred. Larger recordings are made by
repeating.

With --dumps it prints the tables of a session and of a stream of the C library alone, which takes
some five minutes: over the recordings, and over dumps of routes, and of links like that of
examples/links.hex, which it makes up. Beside them it runs programs over libmnl and libnl. Packages
that are missing are installed where that can be. Instructions are those of a whole program, less
those of one that only reads the same file.
"""
import argparse
import shutil
import struct
import tempfile
from typing import Callable, List, Optional, Sequence, Tuple

from counting import (
    Command, Count, Rows, beyond_reading, held, instructions, kept, less, nanoseconds, over,
    passes, passes_of_each, peak, resident, shown, table, whole)
from datagrams import (
    DATAGRAM, KINDS, Datagrams, as_lines, attribute, datagrams_of, dump_of, dumped, link,
    link_like, long_route, names_in, notifications, of_one_dump, repeated, short_route, sized)
from programs import BENCH, PROGRAM, TOP, compiled, install, over_ours, over_rust_peer

# The bytes of datagrams of a larger recording, and the hexadecimal digits of one for memory.
LARGE = 400_000
LONG = 10_000_000

# The dumps that `ip` shows from a file, by their message type: what it calls them, and what stands
# before them.
DUMPS = {20: ("address", 0x47361222), 24: ("route", 0x45311224)}

# How many links and routes the dumps have, and how many routes a datagram.
LINKS = 65_536
FEW, MANY = 10_000, 1_000_000
ROUTES = 300

# What the dumps need, as tests/helpers/install_packages.sh takes it.
PACKAGES = [
    "cc", "gcc", "pkg-config", "pkg-config", "valgrind", "valgrind", "/usr/bin/time", "time",
    "/usr/include/libmnl/libmnl.h", "libmnl-dev",
    "/usr/include/libnl3/netlink/netlink.h", "libnl-3-dev",
    "/usr/include/libnl3/netlink/route/link.h", "libnl-route-3-dev"]

JSON = ["--format", "json"]

# Recordings by their names.
Recordings = Sequence[Tuple[str, Datagrams]]


def first_of(datagrams: Datagrams) -> Tuple[int, int, int]:
    """The type, the sequence number and the port of a recording's first message."""
    _, kind, _, sequence, port = struct.unpack_from("<IHHII", datagrams[0])
    return kind, sequence, port


def by_ip(folder: str, datagrams: Datagrams) -> Count:
    """The instructions of `ip` for showing a dump, where it shows dumps of this kind."""
    kind, magic = DUMPS.get(first_of(datagrams)[0], ("", 0))
    if not kind or not shutil.which("ip"):
        return None
    counts = []
    for many in (datagrams, datagrams * 2):
        file = kept(folder, "dump", struct.pack("<I", magic) + b"".join(many))
        with open(file, "rb") as dump:
            counts.append(instructions(["ip", kind, "showdump"], dump.read()))
    return less(counts[1], counts[0])


def small(folder: str, recordings: Recordings) -> None:
    """Reading and writing each recording as it is."""
    mnl, nl = compiled(folder, "libmnl", "libmnl"), compiled(folder, "libnl", "libnl-route-3.0")
    rust = over_rust_peer(folder, ["read"]).get("read")
    peers = [rust, [mnl, "callbacks"] if mnl else None, [nl] if nl else None]
    heads = "netlink-packet-route", "of its", "libmnl, which keeps nothing", "libnl", "write"
    rows: Rows = [("recording", "bytes", "read", *heads)]
    for name, datagrams in recordings:
        size, lines, binary = sum(map(len, datagrams)), as_lines(datagrams), sized(datagrams)
        reading, writing = (passes([BENCH, it], lines) for it in ("read", "write"))
        by_rust, *others = passes_of_each(peers, binary)
        ratio = shown(over(reading, by_rust), 1, "{:.2f}")
        costs = (shown(it, size) for it in (*others, writing))
        rows.append((
            name, f"{size:,}", shown(reading, size), shown(by_rust, size), ratio, *costs))
    table(*rows)


def library(folder: str, recordings: Recordings,
            costs: Callable[[Sequence[Optional[Command]], bytes], List[Count]]) -> None:
    """What the calls of our C library and those of others take of a byte, by instructions or by
    time."""
    ours, mnl = over_ours(folder), compiled(folder, "libmnl", "libmnl")
    checked = compiled(folder, "libmnl_checked", "libmnl")
    nl = compiled(folder, "libnl", "libnl-route-3.0")
    ways: List[Tuple[str, Optional[str], Command]] = [
        ("`rtnlc_scan`", ours, ["scan"]), ("`rtnlc_tape`", ours, ["tape"]),
        ("cursors", ours, ["cursors"]), ("libmnl, checked", checked, ["loops"]),
        ("libmnl, loops", mnl, ["loops"]), ("libmnl, callbacks", mnl, ["callbacks"]),
        ("libnl", nl, [])]
    commands = [[program, *words] if program else None for _, program, words in ways]
    heads = "scan, of libmnl's, checked", "tape, of libmnl's, checked"
    rows: Rows = [("recording", "bytes", *(name for name, _, _ in ways), *heads)]
    for name, datagrams in recordings:
        size = sum(map(len, datagrams))
        found = costs(commands, sized(datagrams))
        scan, tape, _, loop, *_ = found
        ratios = (shown(over(it, loop), 1, "{:.2f}") for it in (scan, tape))
        each = (shown(it, size, "{:.2f}") for it in found)
        rows.append((name, f"{size:,}", *each, *ratios))
    table(*rows)


def one_by_one(recordings: Recordings) -> Recordings:
    """The messages that the kernel could send as notifications, one a datagram."""
    told = ((name, [*notifications(datagrams)]) for name, datagrams in recordings)
    return [(name, it) for name, it in told if it]


def large(folder: str, recordings: Recordings) -> None:
    """Showing, checking and tabulating larger recordings by the whole program."""
    rows: Rows = [("recording, repeated", "bytes of datagrams", "show", "check", "show by `ip`")]
    for name, datagrams in recordings:
        many = repeated(datagrams, LARGE)
        size = sum(map(len, many))
        files = kept(folder, "one", as_lines(many)), kept(folder, "two", as_lines(many * 2))
        rows.append((
            name, f"{size:,}", shown(whole([PROGRAM, "show"], files), size),
            shown(whole([PROGRAM, "check"], files), size), shown(by_ip(folder, many), size)))
    table(*rows)


def dump_options(datagrams: Datagrams) -> Command:
    """The words of `rtnl table` for the dump of a recording."""
    kind, sequence, port = first_of(datagrams)
    return ["table", "--kind", KINDS[kind], "--seq", str(sequence), "--port", str(port)]


def forms(folder: str, recordings: Recordings) -> None:
    """The whole program over each recording once, and what other forms take beside the text of
    `show`."""
    heads = "as JSON", "with `--bytes`", "with `--bytes`, as JSON", "`table`", "`table` as JSON"
    rows: Rows = [("recording", "show", *heads)]
    for name, datagrams in recordings:
        file = kept(folder, "recording", as_lines(datagrams))
        if first_of(datagrams)[0] not in KINDS:
            continue
        dump = [*dump_options(datagrams), "--entries", str(LINKS)]
        shows = ["show", *JSON], ["show", "--bytes"], ["show", "--bytes", *JSON]
        runs = [*shows, dump, [*dump, *JSON]]
        text = instructions([PROGRAM, "show", file])
        others = (over(instructions([PROGRAM, *run, file]), text) for run in runs)
        rows.append((name, shown(text, 1, "{:,.0f}"), *(shown(it, 1, "{:.2f}") for it in others)))
    table(*rows)


def memory(folder: str, recordings: Recordings) -> None:
    """The greatest memory over long inputs."""
    rows: Rows = [("input", "megabytes", "show", "check")]
    inputs = [
        (f"{name}, repeated", as_lines(repeated(datagrams, LONG // 2)))
        for name, datagrams in recordings]
    inputs.append(("lines of one byte", b"00\n" * (16_777_216 // 3)))
    for name, lines in inputs:
        file = kept(folder, "long", lines)
        rows.append((
            name, shown(len(lines), 1_000_000), shown(peak([PROGRAM, "show", file])),
            shown(peak([PROGRAM, "check", file]))))
    table(*rows)


def hostile(folder: str) -> None:
    """Shapes that no kernel sends."""
    chain = b""
    for _ in range(8):
        chain = attribute(0x8001, chain)
    shapes = (
        ("lists in one another, eight levels deep", link(chain * 1_500)),
        ("attributes without a payload", link(attribute(1, b"") * 12_000)),
    )
    rows: Rows = [("shape", "bytes", "read", "show", "check")]
    for name, datagram in shapes:
        size = len(datagram)
        line = as_lines([datagram])
        files = kept(folder, "one", line), kept(folder, "two", line * 2)
        costs = [whole([PROGRAM, it], files) for it in ("show", "check")]
        costs.insert(0, passes([BENCH, "read"], line))
        rows.append((name, f"{size:,}", *(shown(it, size) for it in costs)))
    table(*rows)


def tables(folder: str) -> None:
    """Reading dumps of routes into tables, and showing them."""
    command = [PROGRAM, *dump_options(dump_of(1)), "--entries", str(LINKS)]
    heads = "table", "show", "table, megabytes", "show, megabytes"
    rows: Rows = [("routes", "bytes of datagrams", *heads)]
    for routes in (1_000, 5_000, 40_000):
        datagrams = dump_of(routes)
        size = sum(map(len, datagrams))
        file = kept(folder, "dump", as_lines(datagrams))
        rows.append((
            f"{routes:,}", f"{size:,}", shown(instructions([*command, file]), size),
            shown(instructions([PROGRAM, "show", file]), size), shown(peak([*command, file])),
            shown(peak([PROGRAM, "show", file]))))
    table(*rows)


def streams(folder: str, ours: Optional[str], mnl: Optional[str]) -> None:
    """Routes that go through a stream, and through libmnl's loop."""
    ways = [
        (program, way) if program else None
        for program in (ours, mnl) for way in ("stream", "routes")]
    heads = "stream", "stream, with a look", "libmnl", "libmnl, with a look"
    costs: Rows = [("routes", "bytes", *heads)]
    held_by = "heap and stack, bytes", "all, megabytes"
    places: Rows = [("routes", *(f"{name}: {it}" for name in heads[::2] for it in held_by))]
    for name, made in ("44 bytes", short_route), ("96 bytes", long_route):
        for routes in FEW, MANY:
            datagrams = dumped([made(index) for index in range(routes)], ROUTES)
            size, file = sum(map(len, datagrams)), kept(folder, "dump", sized(datagrams))
            what = f"{routes:,} of {name}"
            found = (beyond_reading(*way, file) if way else None for way in ways)
            costs.append((what, f"{size:,}", *(shown(each, size, "{:.2f}") for each in found)))
            looks = [[*way, file] if way else None for way in ways[1::2]]
            places.append((what, *(it for way in looks for it in (
                shown(held(way, "--stacks=yes") if way else None, 1, "{:,.0f}"),
                shown(resident(way) if way else None, 1, "{:.2f}")))))
    table(*costs)
    table(*places)


def sessions(folder: str, ours: Optional[str], nl: Optional[str]) -> None:
    """Links in the table of a session, and in libnl's cache."""
    recorded = datagrams_of(f"{TOP}/examples/links.hex")[0]
    links = [link_like(recorded, index) for index in range(LINKS)]
    datagrams = dumped(links, DATAGRAM // len(links[0]))
    size, file = sum(map(len, datagrams)), kept(folder, "dump", sized(datagrams))
    heads = "instructions a byte", "heap, megabytes", "heap, bytes a link", "all, megabytes"
    rows: Rows = [("way", *heads)]
    ways = (
        ("session", ours, "session"), ("`nl_cache_add`", nl, "parsed"),
        ("`nl_cache_pickup`", nl, "pickup"))
    for name, program, way in ways:
        if program:
            command = [program, way, file]
            heap = held(command)
            rows.append((
                name, shown(beyond_reading(*command), size, "{:.2f}"), shown(heap, 1_000_000),
                shown(heap, LINKS, "{:,.0f}"), shown(resident(command))))
    print(f"{LINKS:,} links, {size:,} bytes of datagrams:\n")
    table(*rows)


def feeding(folder: str, recordings: Recordings, ours: Optional[str], nl: Optional[str]) -> None:
    """Each recorded dump into the table of a session, beside reading it and libnl's cache."""
    heads = "read", "fed to a session", "of reading", "libnl's cache", "of libnl's"
    rows: Rows = [("recording", "bytes", *heads)]
    for name, recorded in recordings:
        if first_of(recorded)[0] not in KINDS:
            continue
        datagrams = of_one_dump(recorded)
        size, file = sum(map(len, datagrams)), kept(folder, "dump", sized(datagrams))
        reading = passes([BENCH, "read"], as_lines(datagrams))
        fed = beyond_reading(ours, "session", file) if ours else None
        cached = beyond_reading(nl, "parsed", file) if nl else None
        costs = [shown(it, size, "{:.2f}") for it in (reading, fed, cached)]
        ratios = [shown(over(fed, it), 1, "{:.2f}") for it in (reading, cached)]
        rows.append((name, f"{size:,}", *costs[:2], ratios[0], costs[2], ratios[1]))
    table(*rows)


def dumps(recordings: Recordings) -> None:
    """What a session and a stream of our C library take, beside libmnl and libnl."""
    install(*PACKAGES)
    with tempfile.TemporaryDirectory() as folder:
        ours = over_ours(folder, "dumps_rtnlc")
        nl = compiled(folder, "dumps_libnl", "libnl-route-3.0")
        feeding(folder, recordings, ours, nl)
        streams(folder, ours, compiled(folder, "dumps_libmnl", "libmnl"))
        sessions(folder, ours, nl)


def all_tables(recordings: Recordings) -> None:
    """All but those of dumps."""
    with tempfile.TemporaryDirectory() as made:
        print("Instructions a byte of datagrams:\n")
        small(made, recordings)
        library(made, recordings, passes_of_each)
        print("The same, of one message a datagram, as notifications come:\n")
        library(made, one_by_one(recordings), passes_of_each)
        large(made, recordings)
        forms(made, recordings)
        hostile(made)
        tables(made)
        print("Nanoseconds a byte of datagrams:\n")
        library(made, recordings, nanoseconds)
        print("Greatest memory, in megabytes:\n")
        memory(made, recordings)


def main() -> None:
    options = argparse.ArgumentParser(
        description=__doc__, formatter_class=argparse.RawDescriptionHelpFormatter)
    options.add_argument("--dumps", action="store_true")
    options.add_argument("folder", nargs="?", default=f"{TOP}/examples")
    chosen = options.parse_args()
    names, print_tables = names_in(chosen.folder), dumps if chosen.dumps else all_tables
    print_tables([(it, datagrams_of(f"{chosen.folder}/{it}.hex")) for it in names])


if __name__ == "__main__":
    main()
