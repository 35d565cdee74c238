#!/usr/bin/env python3
"""Measures `rtnl follow` beside `ip monitor file` and `tshark -r` over the same datagrams, and
`rtnl show` beside both over each recording, and prints it as the tables of docs/PERFORMANCE.md.

usage: measure/following.py [FOLDER]

FOLDER holds recordings, NAME.hex; with none, examples/. Their datagrams are written as lines for
ours, as a file of rtmon for `ip`, and as a capture of an nlmon device for tshark. Ours is
$RTNL_PROGRAM, or the program that the gate builds. It needs valgrind and GNU time; another program
that is not here has a dash.

The first table is of `follow`. Of the recordings those messages are taken that the kernel could
send as notifications, one a datagram, again and again until there are so many as COUNT says, and
twice as many. Instructions are those that callgrind counts over all datagrams, less those over the
first half; what the kernel does for a program is not among them. Memory is the greatest of a run
over each of the two, as GNU time has it.

The second is of `show`, over the datagrams of each recording that such messages begin:
instructions, less those over an empty input, in all and over the bytes of the text that each
prints, since `ip` prints in part what `show` prints whole. And the processor's time of each whole
program, over the recording once, which is mostly the start of tshark, and again and again until it
has SHOWN bytes, the shortest of some runs. tshark prints every field (-V).
"""
import argparse
import shutil
import subprocess
import tempfile
from typing import Callable, Dict, List, Optional, Sequence, Tuple

from counting import (
    Command, Count, Rows, instructions, kept, less, over, peak, shortest, shown, table)
from datagrams import (
    NOTIFIED, Datagrams, as_lines, as_pcap, as_rtmon, datagrams_of, kind_of, names_in,
    notifications, repeated)
from programs import PROGRAM, TOP, install

COUNT = 2_000
SHOWN = 4_000_000
RUNS = 10
PACKAGES = [
    "valgrind", "valgrind", "/usr/bin/time", "time", "ip", "iproute2", "tshark", "tshark"]

Writer = Callable[[Sequence[bytes]], bytes]
Program = Tuple[Command, Writer]
NOTHING: Datagrams = []
# Each program, with what writes its input.
FOLLOWING: Dict[str, Program] = {
    "`rtnl follow`": ([PROGRAM, "follow"], as_lines),
    "`rtnl follow --format json`": ([PROGRAM, "follow", "--format", "json"], as_lines),
    "`ip monitor file`": (["ip", "monitor", "file"], as_rtmon),
    "`ip -d monitor file`": (["ip", "-d", "monitor", "file"], as_rtmon),
    "`tshark -r`, a line each": (["tshark", "-r"], as_pcap),
    "`tshark -V -r`, whole": (["tshark", "-V", "-r"], as_pcap),
}
SHOW: Program = [PROGRAM, "show"], as_lines
IP = FOLLOWING["`ip -d monitor file`"]
TSHARK = FOLLOWING["`tshark -V -r`, whole"]


def command_over(room: str, program: Program, datagrams: Datagrams) -> Optional[Command]:
    """The command of a program over these datagrams, where it is here."""
    words, written = program
    if shutil.which(words[0]) is None:
        return None
    return [*words, kept(room, f"{written.__name__}{len(datagrams)}", written(datagrams))]


def follow_row(name: str, room: str, taken: Datagrams) -> Tuple[Count, List[Count]]:
    """The instructions that a program takes for the second half, and its memory for each size."""
    commands = [command_over(room, FOLLOWING[name], taken[:size]) for size in (COUNT, 2 * COUNT)]
    counts = [instructions(it) if it else None for it in commands]
    return less(counts[1], counts[0]), [peak(it) if it else None for it in commands]


def following(room: str, one: Datagrams) -> None:
    """`follow` beside others."""
    taken = (one * (2 * COUNT // len(one) + 1))[:2 * COUNT]
    size = sum(map(len, taken[COUNT:]))
    heads = "instructions a byte", "of ours", f"MB over {COUNT:,}", f"MB over {2 * COUNT:,}"
    rows: Rows = [("program", *heads)]
    ours: Count = None
    for name in FOLLOWING:
        cost, memory = follow_row(name, room, taken)
        ours = ours or cost
        ratio = shown(over(cost, ours), 1, "{:.2f}")
        rows.append((name, shown(cost, size), ratio, *(shown(it) for it in memory)))
    table(*rows)


def text_costs(room: str, program: Program, datagrams: Datagrams) -> Tuple[Count, Count]:
    """The instructions of a program, and how many bytes of text it prints of the datagrams."""
    command, empty = (command_over(room, program, it) for it in (datagrams, NOTHING))
    if command is None or empty is None:
        return None, None
    text = subprocess.run(command, stdout=subprocess.PIPE, stderr=subprocess.DEVNULL, check=False)
    return less(instructions(command), instructions(empty)), len(text.stdout)


def time_ratio(room: str, ours: Program, theirs: Program, datagrams: Datagrams) -> Count:
    """The processor's time of a whole program as a ratio to that of another."""
    commands = [command_over(room, it, datagrams) for it in (ours, theirs)]
    return over(*(shortest(it, RUNS) if it else None for it in commands))


def show_row(room: str, name: str, datagrams: Datagrams) -> Sequence[str]:
    """`show` beside others, over one recording."""
    (ours, text), (theirs, their_text) = (text_costs(room, it, datagrams) for it in (SHOW, IP))
    a_byte, their_byte = over(ours, text), over(theirs, their_text)
    many = repeated(datagrams, SHOWN)
    times = (
        time_ratio(room, SHOW, it, these) for it in (IP, TSHARK) for these in (datagrams, many))
    ratios = over(a_byte, their_byte), over(ours, theirs), *times
    return (
        name, f"{sum(map(len, datagrams)):,}", shown(a_byte), shown(their_byte),
        *(shown(it, 1, "{:.3f}" if it and it < 0.1 else "{:.2f}") for it in ratios))


def showing(room: str, recordings: Dict[str, Datagrams]) -> None:
    """`show` beside others."""
    rows: Rows = [(
        "recording", "bytes of datagrams", "`rtnl show`, a byte of text",
        "`ip -d monitor file`, a byte of text", "of `ip`'s", "of `ip`'s, in all",
        "of `ip`'s time, once", "of `ip`'s time, repeated", "of tshark's time, once",
        "of tshark's time, repeated")]
    rows += [show_row(room, name, datagrams) for name, datagrams in recordings.items()]
    table(*rows)


def main() -> None:
    options = argparse.ArgumentParser(
        description=__doc__, formatter_class=argparse.RawDescriptionHelpFormatter)
    options.add_argument("folder", nargs="?", default=f"{TOP}/examples")
    folder = options.parse_args().folder
    found = {it: datagrams_of(f"{folder}/{it}.hex") for it in names_in(folder)}
    told = {
        name: [it for it in datagrams if kind_of(it) in NOTIFIED]
        for name, datagrams in found.items()}
    install(*PACKAGES)
    with tempfile.TemporaryDirectory() as room:
        following(room, [it for datagrams in told.values() for it in notifications(datagrams)])
        showing(room, {name: it for name, it in told.items() if it})


if __name__ == "__main__":
    main()
