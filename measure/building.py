#!/usr/bin/env python3
"""Prints how many instructions it takes to build the request for a route, of many: by our builder,
from Rattle and from C, by the one call of our library for C that puts it, and by libmnl,
netlink-packet-route and pyroute2. Each puts a message into a buffer that stays: a destination, a
priority and one next hop, or a list of two, in the order in which ip(8) sends them. Those that
print what they build come to the same bytes, but for the flag NLA_F_NESTED of a list, which libmnl
sets.

  measure/building.py
"""
import os
import subprocess
import sys
import tempfile
from typing import Dict, List, Optional

sys.dont_write_bytecode = True
from counting import Command, Count, Rows, instructions, less, over, shown, table
from programs import BENCH, CRATES, compiled, files_of, install, over_ours, over_rust_peer

PACKAGES = (
    "valgrind", "valgrind", "cc", "gcc", "cargo", "cargo", "/usr/include/libmnl/libmnl.h",
    "libmnl-dev", f"{CRATES}/netlink-packet-route-0.12.0", "librust-netlink-packet-route-dev",
    "/usr/lib/python3/dist-packages/pyroute2", "python3-pyroute2",
)
WAYS = "one", "two"
# How many requests; of Python fewer, since each takes so long. The bench takes thousands.
REQUESTS, IN_PYTHON, THOUSAND = 100_000, 1_000, 1_000
PLAIN = "libmnl, mnl_attr_put"
# What differs between two programs: libmnl's flag of a list.
FLAGGED, PLAIN_LIST = b"0980", b"0900"


def found(command: Optional[str]) -> Optional[Command]:
    return [command] if command else None


def programs(folder: str) -> Dict[str, Optional[Command]]:
    """Each program by its name."""
    bench: Optional[Command] = [BENCH] if os.path.exists(BENCH) else None
    python = ["/usr/bin/python3", *files_of("python/pyroute2_build.py")]
    has_pyroute2 = not subprocess.run([*python, "one", "1"], stdout=subprocess.DEVNULL,
                                      stderr=subprocess.DEVNULL, check=False).returncode
    return {
        "our builder, from Rattle": bench,
        "our builder, from C": found(over_ours(folder, "building_rtnlc")),
        "our requests, from C": found(over_ours(folder, "requests_rtnlc")),
        PLAIN: found(compiled(folder, "building_libmnl", "libmnl")),
        "libmnl, mnl_attr_put_check": found(compiled(folder, "building_libmnl_checked", "libmnl")),
        "netlink-packet-route": over_rust_peer(folder, ["building"]).get("building"),
        "pyroute2": python if has_pyroute2 else None,
    }


def built(command: Command, way: str) -> bytes:
    """The first request that a program builds; nothing of ours in Rattle, which prints none."""
    ran = subprocess.run([*command, way, "1"], stdin=subprocess.DEVNULL, stdout=subprocess.PIPE,
                         check=True)
    first, *rest = ran.stdout.split()
    return first.replace(FLAGGED, PLAIN_LIST) if rest else b""


def compare(commands: List[Command]) -> None:
    """All build the same requests."""
    for way in WAYS:
        if len({built(it, way) for it in commands} - {b""}) > 1:
            sys.exit("building.py: the programs build other requests")


def of_each(command: Command, way: str) -> Count:
    """The instructions of one request: of many, less those of none."""
    count = IN_PYTHON if command[0].endswith("python3") else REQUESTS
    passes = count // THOUSAND if command[0] == BENCH else count
    whole, none = (instructions([*command, way, str(it)]) for it in (passes, 0))
    return over(less(whole, none), count)


def main() -> None:
    install(*PACKAGES)
    rows: Rows = [("built by", "one next hop", "of libmnl's", "two next hops", "of libmnl's")]
    with tempfile.TemporaryDirectory() as folder:
        those = programs(folder)
        compare([it for it in those.values() if it])
        counts = {name: [of_each(it, way) if it else None for way in WAYS]
                  for name, it in those.items()}
    for name, figures in counts.items():
        cells = [name]
        for figure, of_theirs in zip(figures, counts[PLAIN]):
            cells += [shown(figure, 1, "{:,.0f}"), shown(over(figure, of_theirs), 1, "{:.2f}")]
        rows.append(cells)
    print(f"Instructions a request, of {REQUESTS:,}:\n")
    table(*rows)


if __name__ == "__main__":
    main()
