#!/usr/bin/env python3
"""The requests of rtnl-record dump, beside those that ip(8), bridge(8) and tc(8) send, in
requests.txt, and beside bytes that are written by hand. Its numbers are those of format/, and its
wrong uses are refused before a socket is opened.

  tests/rtnl_record/requests.py          compares
  tests/rtnl_record/requests.py --write  writes requests.txt, by strace

A line of the file is a command, the arguments of rtnl-record dump, and what both send, its sequence
number 0, with tabs between them. Where strace may trace, the commands are run again, and so is
rtnl-record: they only ask. Other versions of iproute2 may send more: then that is left out, and a
line says so. The last line is 'N passed, M failed', and the status is 1 where a case failed.
"""
import os
import shlex
import shutil
import struct
import subprocess
import sys
import tempfile
from functools import lru_cache
from typing import Dict, Iterator, List, NamedTuple, Tuple

sys.dont_write_bytecode = True
HERE = os.path.dirname(os.path.realpath(__file__))
ROOT = os.path.dirname(os.path.dirname(HERE))
sys.path[:0] = [HERE, f"{ROOT}/record", f"{ROOT}/format", f"{ROOT}/tests/helpers"]
import commands
import dump
import kinds
import netlink
import rows
import strace
from answers import DONE, KERNEL, Socket
from counting import counted
from output import Usage

TABLE = f"{HERE}/requests.txt"
STRACE = "strace -f -e trace=network -e read=all -e write=all".split()
# Each kind with the kernel's names of its request and of the head in it.
NAMES = {
    "link": ("GETLINK", "ifinfomsg"), "addr": ("GETADDR", "ifaddrmsg"),
    "route": ("GETROUTE", "rtmsg"), "neigh": ("GETNEIGH", "ndmsg"),
    "rule": ("GETRULE", "fib-rule-hdr"), "nexthop": ("GETNEXTHOP", "nhmsg"),
    "qdisc": ("GETQDISC", "tcmsg"), "class": ("GETTCLASS", "tcmsg"),
    "filter": ("GETTFILTER", "tcmsg"), "netconf": ("GETNETCONF", "netconfmsg"),
    "neightbl": ("GETNEIGHTBL", "ndtmsg"), "mdb": ("GETMDB", "br-port-msg"),
    "vlan": ("GETVLAN", "br-vlan-msg"), "nsid": ("GETNSID", "rtgenmsg"),
    "addrlabel": ("GETADDRLABEL", "ifaddrlblmsg"), "fdb": ("GETNEIGH", "ndmsg"),
}
# Commands of iproute2, and the arguments by which rtnl-record dump asks for the same.
COMMANDS = [
    ("ip -4 addr", "link --family inet"), ("ip link", "link --family packet --ext-mask vf"),
    ("ip link", "link --family 17 --ext-mask 1"), ("bridge link", "link --family bridge"),
    ("bridge vlan", "link --family bridge --ext-mask brvlan"),
    ("bridge -compressvlans vlan", "link --family bridge --ext-mask brvlan-compressed"),
    ("ip addr", "addr"), ("ip -4 addr", "addr --family inet"),
    ("ip -6 addr", "addr --family inet6"), ("ip -4 route show table all", "route --family inet"),
    ("ip -6 route show table all", "route --family inet6"), ("ip neigh", "neigh"),
    ("ip -6 neigh", "neigh --family inet6"), ("ip neigh show proxy", "neigh --proxy"),
    ("ip -4 neigh show proxy", "neigh --proxy --family inet"), ("ip rule", "rule --family inet"),
    ("ip -6 rule", "rule --family inet6"), ("ip nexthop", "nexthop"),
    ("ip -6 nexthop", "nexthop --family inet6"), ("tc qdisc", "qdisc"),
    ("tc class show dev lo", "class --dev lo"), ("tc class show dev lo", "class --dev 1"),
    ("tc filter show dev lo", "filter --dev lo"), ("ip netconf", "netconf"),
    ("ip -6 netconf", "netconf --family inet6"), ("ip -M netconf", "netconf --family mpls"),
    ("ip ntable", "neightbl"), ("ip -4 ntable", "neightbl --family inet"), ("bridge mdb", "mdb"),
    ("bridge -d vlan", "vlan"), ("ip netns list-id", "nsid"), ("ip addrlabel", "addrlabel"),
    ("bridge fdb", "fdb"), ("bridge fdb", "neigh --family bridge"),
]
# Further arguments, and what stands behind the header: the head, and an attribute 29 of 4 bytes.
LINK, MASK = b"\0" * 16, struct.Struct("=HHI")
BY_HAND = [
    ("link", LINK), ("link --ext-mask 0", LINK),
    ("link --ext-mask vf,skip-stats", LINK + MASK.pack(8, 29, 0x9)),
    ("link --ext-mask mrp,mrp", LINK + MASK.pack(8, 29, 0x10)),
    ("link --ext-mask cfm,mst", LINK + MASK.pack(8, 29, 0xE0)),
    ("link --ext-mask 4294967295", LINK + MASK.pack(8, 29, 0xFFFFFFFF)),
    ("route --family ipmr", bytes([128]) + bytes(11)),
    ("route --family ip6mr", bytes([129]) + bytes(11)),
    ("route --family 255", bytes([255]) + bytes(11)),
    ("neigh --proxy --family inet6", bytes([10]) + bytes(9) + b"\x08\0"),
]
FAMILY_OF = "link, addr, route, neigh, rule, nexthop, netconf, neightbl"
WRONG = [
    ("class", "class needs --dev"), ("filter", "filter needs --dev"),
    ("addr --ext-mask vf", "--ext-mask goes with link"),
    ("link --proxy", "--proxy goes with neigh"), ("fdb --proxy", "--proxy goes with neigh"),
    ("qdisc --dev lo", "--dev goes with class, filter"),
    *((f"{it} --family inet", f"--family goes with {FAMILY_OF}")
      for it in ("qdisc", "class --dev lo", "mdb", "vlan", "nsid", "addrlabel", "fdb")),
    ("fdb --family 0", f"--family goes with {FAMILY_OF}"),
    ("addr --ext-mask 0", "--ext-mask goes with link"),
]


class Row(NamedTuple):
    """What a command of iproute2 sends, and the arguments that ask for the same."""

    command: str
    arguments: str
    request: str


BLOCKS = rows.read()


def numbers(name: str) -> Dict[str, int]:
    """The numbers of a block of format/, by the names without what all begin with."""
    block = BLOCKS[name]
    return {row.name[len(block.said["prefix"]):]: row.number for row in block.rows}


REQUESTS = numbers("families")


def kind_of(arguments: str) -> str:
    return arguments.split()[0]


def without_seq(datagram: bytes) -> str:
    return (datagram[:8] + bytes(4) + datagram[12:]).hex()


def played(arguments: str) -> str:
    """What is sent on a socket that is made here."""
    link = Socket([(KERNEL, DONE)])
    asked = commands.parser().parse_args(["dump", *arguments.split()])
    netlink.opened = lambda _: Opened(link)  # type: ignore[assignment,return-value]
    said = [it for it in commands.dumped(asked) if not isinstance(it, bytes)]
    name = "neigh" if kind_of(arguments) == "fdb" else kind_of(arguments)
    wanted = f"seq {dump.SEQ} port {link.getsockname()[0]} kind {name}"
    return without_seq(link.sent) if said == [wanted] else f"{said} for {wanted}"


class Opened:
    """A socket that is there as long as it is asked."""

    def __init__(self, link: Socket) -> None:
        self.link = link

    def __enter__(self) -> Socket:
        return self.link

    def __exit__(self, *_: object) -> None:
        pass


def refused(arguments: str) -> str:
    """Why arguments are refused, before a socket is opened."""
    asked = commands.parser().parse_args(["dump", *arguments.split()])
    netlink.opened = never  # type: ignore[assignment]
    try:
        return f"{[*commands.dumped(asked)]}"
    except Usage as usage:
        return f"{usage}"


def never(_: object) -> None:
    raise AssertionError("a socket is opened")


@lru_cache(maxsize=None)
def sent_by(words: Tuple[str, ...]) -> List[bytes]:
    """The datagrams that a command sends."""
    with tempfile.NamedTemporaryFile() as trace:
        subprocess.run([*STRACE, "-o", trace.name, *words], stderr=subprocess.DEVNULL,
                       stdout=subprocess.DEVNULL, check=False)
        items = [it for it in strace.items(trace) if not f"{it}".startswith("cut: ")]
    return [it for note, it in zip(items, items[1:])
            if isinstance(it, bytes) and f"{note}".endswith("sent")]


def traced(words: List[str], kind: str) -> str:
    """The last request for a kind that a command sends."""
    number = REQUESTS[NAMES[kind][0]]
    found = [it for it in sent_by(tuple(words))
             if struct.unpack_from("=IHH", it)[1:] == (number, 0x301)]
    return without_seq(found[-1]) if found else "none"


def version() -> str:
    ran = subprocess.run(["ip", "-V"], stdout=subprocess.PIPE, text=True, check=True)
    return ran.stdout.split(",")[1].strip()


def kept() -> Tuple[str, List[Row]]:
    """The version of iproute2 in the file, and its rows."""
    with open(TABLE, encoding="utf-8") as file:
        front, *lines = file.read().splitlines()
    return front[2:], [Row(*line.split("\t")) for line in lines]


def write() -> int:
    with open(TABLE, "w", encoding="utf-8") as file:
        print(f"# {version()}", file=file)
        for command, arguments in COMMANDS:
            print(command, arguments, traced(command.split(), kind_of(arguments)), sep="\t",
                  file=file)
    return 0


def same(found: object, wanted: object) -> List[str]:
    return [] if found == wanted else [f"expected {wanted}, found {found}"]


def of_format() -> Iterator[Tuple[str, List[str]]]:
    """The numbers and sizes of record/kinds.py, beside those of format/."""
    yield "all kinds", same([*kinds.KINDS], [*NAMES])
    for kind, (name, head) in NAMES.items():
        row, size = kinds.KINDS[kind], int(BLOCKS[head].said["size"])
        yield f"{kind} of format/", same((row.number, row.size), (REQUESTS[name], size + 3 & ~3))
    families = {**numbers("address-families"), **numbers("rtnl-families")}
    masks = {name.lower().replace("_", "-"): bit for name, bit in numbers("rtext-filter").items()}
    masks["cfm"] = masks.pop("cfm-config") | masks.pop("cfm-status")
    yield "families", same(kinds.FAMILIES, {it: families[it.upper()] for it in kinds.FAMILIES})
    yield "bits of the mask", same(kinds.MASKS, masks)
    attributes = numbers("link-attrs"), numbers("neighbour-flags")
    yield "the mask, the flag", same((kinds.EXT_MASK, kinds.PROXY),
                                     (attributes[0]["EXT_MASK"], attributes[1]["PROXY"]))


def cases() -> Iterator[Tuple[str, List[str]]]:
    yield from of_format()
    theirs, table = kept()
    yield "the commands", same([(it.command, it.arguments) for it in table], COMMANDS)
    yield "a row for each kind", same({kind_of(it.arguments) for it in table}, {*NAMES})
    for row in table:
        yield f"dump {row.arguments}", same(played(row.arguments), row.request)
    for arguments, body in BY_HAND:
        head = struct.pack("=IHHII", 16 + len(body), REQUESTS[NAMES[kind_of(arguments)][0]],
                           0x301, 0, 0)
        yield f"dump {arguments}", same(played(arguments), (head + body).hex())
    for arguments, why in WRONG:
        yield f"wrong: {arguments}", same(refused(arguments), f"{why}; see --help")
    yield from on_sockets(theirs, table)


def on_sockets(theirs: str, table: List[Row]) -> Iterator[Tuple[str, List[str]]]:
    """What strace sees rtnl-record send, and this version of iproute2."""
    if subprocess.run(f"{shlex.join(STRACE)} -o /dev/null true", shell=True, check=False,
                      stderr=subprocess.DEVNULL).returncode:
        print("skipped: what is sent, since strace is not here or may not trace")
        return
    for row in table:
        sent = traced([f"{ROOT}/rtnl-record", "dump", *row.arguments.split()],
                      kind_of(row.arguments))
        yield f"dump {row.arguments}, on a socket", same(sent, row.request)
    if not shutil.which("ip") or theirs != version():
        print(f"skipped: what iproute2 sends, since it is not here in its version {theirs}")
        return
    for row in table:
        sent = traced(row.command.split(), kind_of(row.arguments))
        yield row.command, same(sent, row.request)


def main(words: List[str]) -> int:
    if words not in ([], ["--write"]):
        print(__doc__, file=sys.stderr)
        return 2
    return write() if words else counted(cases())


if __name__ == "__main__":
    sys.exit(main(sys.argv[1:]))
