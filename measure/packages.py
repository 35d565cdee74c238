#!/usr/bin/env python3
"""Measures programs over our packages beside such over other libraries for the same language, and
prints a table.

usage: measure/packages.py [FOLDER] [--only LANGUAGE]

Each of the programs of measure/packages/ does one thing, and there is one over ours and one over
its peer:

  links   reads a dump of 1,000 links, and prints a line for each
  routes  reads dumps of 100 links, of 50,000 routes of IPv4 and of 50,000 of IPv6, and prints a
          line for each next hop
  watch   reads 100,000 notifications of links, addresses, routes and neighbours, and prints a
          line for each

Ours read a dump in up to three ways: into the table of a session, whose entries they then go over;
in a stream, whose items are kept in a list until the dump is complete, for which Rust, Go and
Python have a type; and in a stream, whose items are printed as they come, as most peers do.

They read the datagrams from a file in place of a socket, and make the requests, which go nowhere.
What a program prints must be what the other one prints. The datagrams are made of messages of a
live kernel, again and again, with names, indexes and destinations of their own: of those in
FOLDER, as measure/record.sh makes it, or else of those that it makes. Links of type vxlan, which
netlink-packet-route 0.12 refuses, are left out.

The columns: lines of code, without comments, blank lines and imports, of the program and of what
it comes to in files that programs share; what ours costs over what the peer's costs, by
instructions as callgrind counts them for Rust and C, by the processor's time for Go and Python,
the shortest of some runs in turn; the same where both look up what they would print, and print
nothing; the greatest memory in megabytes. A cost is that of the whole program less that of the
same program over dumps without an entry.

The packages are those of bindings/, and their library is what pkg-config finds as rtnlc, put
there by `./install --library`. What can't be made has a dash, and lines on standard error.
Packages of Debian that are missing are installed where that can be. All takes some twenty
minutes.
"""
import argparse
import os
import shutil
import subprocess
import sys
import tempfile
from typing import Callable, Dict, Iterable, List, Sequence, Tuple

from counting import (
    Command, Count, Rows, instructions, kept, less, over, peak, seconds, shown, table)
from programs import (
    CRATES, PACKAGES as FOLDER, TOP, files_of, in_rust, install, over_rust_peer, recorded, run)

sys.path.insert(0, FOLDER)
from dumps import LINKS, NOTIFICATIONS, ROUTES, Recording
from lines import lines_of

# Where Debian's packages have what they hold, and what is needed, as
# tests/helpers/install_packages.sh takes it.
GO_PATH, PYTHON = "/usr/share/gocode", "/usr/bin/python3"
PACKAGES = [
    "cc", "gcc", "pkg-config", "pkg-config", "valgrind", "valgrind", "/usr/bin/time", "time",
    "/usr/include/libnl3/netlink/route/link.h", "libnl-route-3-dev",
    f"{CRATES}/netlink-packet-route-0.12.0", "librust-netlink-packet-route-dev",
    "go", "golang-go",
    f"{GO_PATH}/src/github.com/jsimonetti/rtnetlink", "golang-github-jsimonetti-rtnetlink-dev",
    "/usr/lib/python3/dist-packages/pyroute2", "python3-pyroute2"]

# The programs over ours, some of which a language may have not: what they are called, and the one
# over the peer that they stand beside.
OURS = {
    "links": ("links, by a table", "links"),
    "links_list": ("links, by a list", "links"),
    "links_stream": ("links, as a stream", "links"),
    "routes": ("routes, by tables", "routes"),
    "routes_list": ("routes, by lists", "routes"),
    "routes_stream": ("routes, as a stream", "routes"),
    "watch": ("watch", "watch"),
}
PEERS = ["links", "routes", "watch"]
HEADS = (
    "language", "program", "peer", "lines", "its lines", "cost / its cost", "without printing",
    "megabytes", "its megabytes")

# The languages whose programs are timed; those of the others have their instructions counted. They
# are run so often at most, and no more once that took so many seconds. And those whose programs
# print nothing where the environment has QUIET.
TIMED, RUNS, LONG = ("Go", "Python"), 10, 60
HAVE_QUIET = "Rust", "Go", "Python"


def asked(*command: str) -> str:
    """What a command prints, or nothing."""
    if not shutil.which(command[0]):
        return ""
    found = subprocess.run(command, capture_output=True, text=True, check=False)
    return found.stdout.strip() if found.returncode == 0 else ""


def those_of(pattern: str, names: Iterable[str]) -> List[str]:
    """The names by which there are such files."""
    return [it for it in names if all(map(os.path.exists, files_of(pattern.format(it))))]


# The commands of programs by their names.
Made = Dict[str, Command]
# What a program reads, and the same without an entry.
Files = Tuple[str, str]


class Side:
    """The programs over ours or over a peer: the commands of those that could be made, by name,
    the source of each, and the files that they share."""

    def __init__(self, made: Made, source: str, *shared: str) -> None:
        self.made, self.source, self.shared = made, source, shared

    def lines(self, name: str) -> int:
        """How many lines of code a program has."""
        [source] = files_of(self.source.format(name))
        return lines_of(source, files_of(*self.shared))


Sides = Tuple[Side, Side]


def in_c(folder: str, side: str, package: str, names: Iterable[str]) -> Made:
    """The programs in C of a side."""
    flags = asked("pkg-config", "--cflags", "--libs", package).split()
    made: Made = {}
    for name in those_of(f"c/{side}_{{}}.c", names) if flags else ():
        [source], program = files_of(f"c/{side}_{name}.c"), os.path.join(folder, f"{side}_{name}")
        # libnl-route is used by what it adds to libnl as it is loaded, and by no call.
        if run(["cc", "-O2", "-o", program, source, "-Wl,--no-as-needed", *flags]):
            made[name] = [program]
    return made


def c_sides(folder: str) -> Sides:
    """Those in C."""
    ours = in_c(folder, "rtnlc", "rtnlc", OURS)
    peer = in_c(folder, "libnl", "libnl-route-3.0", PEERS)
    shared = [f"c/rtnlc_{name}.h" for name in ("dump", "link", "route")]
    return (
        Side(ours, "c/rtnlc_{}.c", *shared, "../../examples/c/parts.h"),
        Side(peer, "c/libnl_{}.c", "c/libnl_text.h"))


def rust_sides(folder: str) -> Sides:
    """Those in Rust."""
    [package] = files_of("../../bindings/rust/rtnl")
    ours = in_rust(folder, "rtnl", f'rtnl = {{ path = "{package}" }}', [*OURS])
    peer = over_rust_peer(folder, PEERS)
    own = [f"rust/rtnl/{name}.rs" for name in ("common", "link", "route")]
    others = [f"rust/netlink_packet_route/{name}.rs" for name in ("dump", "text")]
    return (
        Side(ours, "rust/rtnl/{}.rs", *own),
        Side(peer, "rust/netlink_packet_route/{}.rs", *others))


def in_go(folder: str, side: str, names: Iterable[str]) -> Made:
    """The programs in Go of a side. Debian's packages for Go lie in a GOPATH, and so do ours."""
    path = os.path.join(folder, "go")
    os.makedirs(os.path.join(path, "src", "rtnl.invalid"), exist_ok=True)
    names_of = ("measure", "rtnl.invalid/rtnlc")
    for name, source in zip(names_of, files_of("go", "../../bindings/go")):
        if not os.path.lexists(os.path.join(path, "src", name)):
            os.symlink(source, os.path.join(path, "src", name))
    way = {
        **os.environ, "GO111MODULE": "off", "GOFLAGS": "", "GOPATH": f"{path}:{GO_PATH}",
        "GOCACHE": os.path.join(folder, "go_cache")}
    made: Made = {}
    for name in those_of(f"go/{side}/{{}}", names) if shutil.which("go") else ():
        program = os.path.join(folder, f"go_{side}_{name}")
        if run(["go", "build", "-o", program, f"measure/{side}/{name}"], env=way):
            made[name] = [program]
    return made


def go_sides(folder: str) -> Sides:
    """Those in Go."""
    ours, peer = (
        Side(in_go(folder, side, names), f"go/{side}/{{}}/main.go", f"go/{side}/text/text.go")
        for side, names in (("rtnlc", [*OURS]), ("rtnetlink", PEERS)))
    return ours, peer


def in_python(side: str, names: Iterable[str]) -> Made:
    """The programs in Python of a side, which are named by what they import."""
    is_there = ["-c", f"import {side}"]
    if not shutil.which(PYTHON) or not run([PYTHON, *is_there], stderr=subprocess.DEVNULL):
        return {}
    return {name: [PYTHON, *files_of(f"python/{side}_{name}.py")] for name in names}


def python_sides(_: str) -> Sides:
    """Those in Python."""
    ours, peer = (
        Side(in_python(side, names), f"python/{side}_{{}}.py", f"python/{side}_dump.py")
        for side, names in (("rtnl", [*OURS]), ("pyroute2", PEERS)))
    return ours, peer


LANGUAGES: Dict[str, Tuple[str, Callable[[str], Sides]]] = {
    "Rust": ("netlink-packet-route", rust_sides),
    "Go": ("jsimonetti/rtnetlink", go_sides),
    "Python": ("pyroute2", python_sides),
    "C": ("libnl", c_sides),
}


def by_instructions(commands: Sequence[Command], file: str, empty: str) -> List[Count]:
    """The instructions of each program over a file, less those over one without an entry."""
    return [less(instructions([*it, file]), instructions([*it, empty])) for it in commands]


def by_time(commands: Sequence[Command], file: str, empty: str) -> List[Count]:
    """The same of the processor's time: the shortest of some runs, in turn."""
    shortest: Dict[Tuple[int, str], float] = {}
    spent = 0.0
    for _ in range(RUNS):
        for index, command in enumerate(commands):
            for read in file, empty:
                took = seconds([*command, read])
                shortest[index, read] = min(shortest.get((index, read), took), took)
                spent += took
        if spent > LONG:
            break
    return [shortest[index, file] - shortest[index, empty] for index in range(len(commands))]


def ratio(language: str, commands: Sequence[Command], files: Files) -> Count:
    """What the first program costs over what the second one costs; none where that isn't known."""
    if language in TIMED:
        ours, peer = by_time(commands, *files)
    elif shutil.which("valgrind"):
        ours, peer = by_instructions(commands, *files)
    else:
        return None
    return over(ours, peer)


def quiet_ratio(language: str, commands: Sequence[Command], files: Files) -> Count:
    """The same where they print nothing."""
    if language not in HAVE_QUIET:
        return None
    os.environ["QUIET"] = "1"
    found = ratio(language, commands, files)
    del os.environ["QUIET"]
    return found


def print_the_same(commands: Sequence[Command], file: str) -> bool:
    """Whether the programs end well, and print the same."""
    runs = [subprocess.run([*it, file], stdout=subprocess.PIPE, check=False) for it in commands]
    return all(it.returncode == 0 and it.stdout == runs[0].stdout != b"" for it in runs)


def row(language: str, name: str, sides: Sides, files: Dict[str, Files]) -> Sequence[str]:
    """What is told of one program."""
    (shown_name, peer_name), (ours, peer) = OURS[name], sides
    commands = [it for it in (ours.made.get(name), peer.made.get(peer_name)) if it]
    costs: List[Count] = [None, None]
    memory: List[Count] = [None, None]
    if len(commands) == 2:
        if not print_the_same(commands, files[peer_name][0]):
            sys.exit(f"{language}: {name} prints other lines than its peer's program, or fails")
        costs = [way(language, commands, files[peer_name]) for way in (ratio, quiet_ratio)]
        memory = [peak([*it, files[peer_name][0]]) for it in commands]
    return (
        language, shown_name, LANGUAGES[language][0], str(ours.lines(name)),
        str(peer.lines(peer_name)), *(shown(it, 1, "{:.2f}") for it in costs),
        *(shown(it) for it in memory))


def written(found: Recording, made: str) -> Dict[str, Files]:
    """What the programs read, by their names, and the same without an entry."""
    ways: Dict[str, Tuple[Callable[[int], bytes], int]] = {
        "links": (found.links, LINKS), "routes": (found.all_routes, ROUTES),
        "watch": (found.notifications, NOTIFICATIONS)}
    return {
        name: (kept(made, name, make(many)), kept(made, f"{name}_empty", make(0)))
        for name, (make, many) in ways.items()}


def main() -> None:
    options = argparse.ArgumentParser(
        description=__doc__, formatter_class=argparse.RawDescriptionHelpFormatter)
    options.add_argument("folder", nargs="?")
    options.add_argument("--only", choices=LANGUAGES, action="append")
    chosen = options.parse_args()
    install(*PACKAGES)
    os.environ["PYTHONPATH"] = os.path.join(TOP, "bindings/python/src")
    library = asked("pkg-config", "--variable=libdir", "rtnlc")
    if library:
        os.environ.update(LD_LIBRARY_PATH=library, RTNLC_LIB_DIR=library)
    rows: Rows = [HEADS]
    with tempfile.TemporaryDirectory() as made:
        files = written(Recording(recorded(chosen.folder, made)), made)
        for language in chosen.only or LANGUAGES:
            sides = LANGUAGES[language][1](made)
            names = those_of(sides[0].source, OURS)
            rows += [row(language, name, sides, files) for name in names]
    table(*rows)


if __name__ == "__main__":
    main()
