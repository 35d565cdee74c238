#!/usr/bin/env python3
"""The dumps of nexthops, queueing disciplines and the like by rtnl-record, in a network namespace,
which this changes. The items are those that `ip`, `bridge` and `tc` list. What the kernel refuses
them it refuses rtnl-record. Then a monitor asks for them and hears of changes. The last line is
'N passed, M failed', and the status is 1 where a case failed.
"""
import json
import os
import signal
import socket
import struct
import subprocess
import sys
import tempfile
import time
from typing import Any, Callable, Dict, Iterator, List, NamedTuple, Tuple

sys.dont_write_bytecode = True
HERE = os.path.dirname(os.path.realpath(__file__))
sys.path[:0] = [HERE, f"{HERE}/../helpers"]
from asked_live import (DONE, ROOT, RUNNING, Message, Recorder, address, attributes, blocks,
                        messages, same)
from counting import counted

# What is made there, by the program that makes it. `blue` stands for a process in another
# namespace.
MADE = {
    "ip": """link set lo up
link add one type veth peer name two
link add br0 type bridge
link set two master br0
link set one up
link set two up
link set br0 up
link add ve0 type veth peer name ve0p netns blue
addr add 192.0.2.1/24 dev one
addr add 2001:db8::1/64 dev one nodad
nexthop add id 11 via 192.0.2.2 dev one
nexthop add id 12 blackhole
nexthop add id 20 group 11
nexthop add id 30 via 2001:db8::2 dev one
neigh add 192.0.2.9 lladdr 02:00:00:00:00:09 dev one
neigh add proxy 192.0.2.77 dev one
neigh add proxy 2001:db8::77 dev one
addrlabel add prefix 2001:db8:99::/48 label 99""",
    "tc": """qdisc add dev one root handle 1: htb default 10
class add dev one parent 1: classid 1:10 htb rate 10mbit
class add dev one parent 1: classid 1:2a htb rate 20mbit
filter add dev one parent 1: protocol ip prio 7 u32 match ip dst 10.1.0.9/32 flowid 1:10
filter add dev one parent 1: protocol ip prio 9 u32 match ip dst 10.1.0.9/32 flowid 1:2a
qdisc add dev two handle ffff: ingress""",
    "bridge": """fdb add 02:00:00:00:00:aa dev two master static
mdb add dev br0 port two grp 239.1.1.1 permanent""",
}
FAMILIES = {2: "inet", 10: "inet6", 28: "mpls"}
MARKS = {-1: "all", -2: "default"}  # NETCONFA_IFINDEX_ALL and NETCONFA_IFINDEX_DEFAULT
PATIENCE = 10.0
# The hardware address of a forwarding entry that is made amid a monitor.
NEW = bytes.fromhex("0200000000bb")
AF_SPEC, STATS = 26, 3  # IFLA_AF_SPEC and IFLA_INET6_STATS


def run(*words: str) -> "subprocess.CompletedProcess[str]":
    return subprocess.run(words, stdout=subprocess.PIPE, stderr=subprocess.PIPE, text=True,
                          check=False)


def listed(*words: str) -> List[Dict[str, Any]]:
    """What a command lists as JSON."""
    found: List[Dict[str, Any]] = json.loads(run(*words).stdout or "[]")
    return found


def make(program: str, changes: str) -> None:
    subprocess.run([program, "-batch", "-"], input=changes, text=True, check=True,
                   stderr=subprocess.DEVNULL)


def names() -> Dict[int, str]:
    return {it["ifindex"]: it["ifname"] for it in listed("ip", "-j", "link")}


def number(data: bytes) -> int:
    return int.from_bytes(data, sys.byteorder, signed=len(data) == 4)


def index(body: bytes) -> str:
    """The name of the link whose index stands behind the first four bytes of a head."""
    return names().get(number(body[4:8]), "none")


def handle(data: bytes) -> str:
    """A handle of tc(8), as it prints it."""
    value = struct.unpack("=I", data)[0]
    return f"{value >> 16:x}:" + (f"{value & 0xFFFF:x}" if value & 0xFFFF else "")


class Kind(NamedTuple):
    """The arguments of a dump, the type of its items, the size of their head; what the items are
    by a tool, and what one is by its body and its attributes; and whether there are any."""

    arguments: str
    kind: int
    size: int
    by_tool: Callable[[], List[Any]]
    item: Callable[[bytes, Dict[int, bytes]], Any]
    one: object


def netconf(_: bytes, rest: Dict[int, bytes]) -> Any:
    at = number(rest[1])
    return MARKS.get(at) or names()[at]


def table_of(_: bytes, rest: Dict[int, bytes]) -> Any:
    at = number(attributes(rest[6]).get(1, bytes(4)))
    return rest[1].rstrip(b"\0").decode(), names().get(at, "")


def groups_of(body: bytes, rest: Dict[int, bytes]) -> int:
    """How many groups stand in the lists of a bridge."""
    lists, count = rest.get(1, b""), 0
    while lists:
        length = struct.unpack_from("=H", lists)[0]
        infos, lists = lists[4:length], lists[length + 3 & ~3:]
        while infos:
            infos = infos[struct.unpack_from("=H", infos)[0] + 3 & ~3:]
            count += 1
    return count


def groups_by_bridge() -> List[int]:
    return [len(it["mdb"]) for it in listed("bridge", "-j", "mdb") if it["mdb"]]


def classes() -> List[str]:
    lines = run("tc", "class", "show", "dev", "one").stdout.splitlines()
    return [line.split()[2] for line in lines]


def rows(command: str, *keys: str) -> Callable[[], List[Any]]:
    """Of each object that a command lists the values of these keys, or one alone."""
    def found() -> List[Any]:
        values = [tuple(it.get(key, "") for key in keys) for it in listed(*command.split())]
        return [it[0] for it in values] if len(keys) == 1 else values
    return found


KINDS = [
    Kind("nexthop", 104, 8, rows("ip -j nexthop", "id"), lambda _, rest: number(rest[1]), 20),
    Kind("qdisc", 36, 20, rows("tc -j qdisc", "dev", "handle"),
         lambda body, _: (index(body), handle(body[8:12]) if any(body[8:12]) else "0:"),
         ("two", "ffff:")),
    Kind("class --dev one", 40, 20, classes, lambda body, _: handle(body[8:12]), "1:2a"),
    Kind("filter --dev one", 44, 20, rows("tc -j filter show dev one", "pref", "parent"),
         lambda body, _: (number(body[16:20]) >> 16, handle(body[12:16])), (9, "1:")),
    Kind("netconf --family inet", 80, 4, rows("ip -4 -j netconf", "interface"), netconf, "one"),
    Kind("netconf --family inet6", 80, 4, rows("ip -6 -j netconf", "interface"), netconf, "two"),
    Kind("neightbl", 64, 4, rows("ip -j ntable", "name", "dev"), table_of, ("arp_cache", "one")),
    Kind("nsid", 88, 4, rows("ip -j netns list-id", "nsid"), lambda _, rest: number(rest[1]), 0),
    Kind("addrlabel", 72, 12, rows("ip -j addrlabel", "address", "prefixlen", "label"),
         lambda body, rest: (by_ip(address(rest[1])), body[2], number(rest[2])),
         ("2001:db8:99::", 48, 99)),
    Kind("fdb", 28, 12, rows("bridge -j fdb", "mac", "ifname"),
         lambda body, rest: (rest[2].hex(":"), index(body)), ("02:00:00:00:00:aa", "two")),
    Kind("neigh --proxy", 28, 12, rows("ip -j neigh show proxy", "dst", "dev"),
         lambda body, rest: (address(rest[1]), index(body)), ("192.0.2.77", "one")),
    # The kernel's answers have the type of the request.
    Kind("mdb", 86, 8, groups_by_bridge, groups_of, None),
]


def by_ip(text: str) -> str:
    """An address of IPv4 within IPv6 as ip(8) prints it."""
    return "::ffff:0.0.0.0" if text == "::ffff:0:0" else text


def recorded(*words: str) -> Tuple[int, List[Message], str]:
    """The status of a dump, its messages, and what is said."""
    ran = run(f"{ROOT}/rtnl-record", "dump", *words)
    lines = [it for it in ran.stdout.splitlines() if it[0] != "#"]
    return ran.returncode, [it for line in lines for it in messages(line)], ran.stderr


def items_of(kind: Kind, found: List[Message]) -> List[Any]:
    """What the items of a dump are; its end is none."""
    bodies = [it.body for it in found if it.kind != DONE]
    return [kind.item(it, attributes(it[kind.size:])) for it in bodies]


def judged(kind: Kind) -> List[str]:
    status, found, said = recorded(*kind.arguments.split())
    items = sorted(items_of(kind, found))
    wrong = same((status, 0), (said, ""), (items, sorted(kind.by_tool())),
                 ({it.kind for it in found[:-1]}, {kind.kind}), (found[-1].kind, DONE))
    return wrong + ([] if kind.one in items or kind.one is None and items else ["it is missing"])


def settled(kind: Kind) -> List[str]:
    """The same, once the kernel's own changes between both lists are over."""
    end = time.monotonic() + PATIENCE
    wrong = judged(kind)
    while wrong and time.monotonic() < end:
        time.sleep(0.5)
        wrong = judged(kind)
    return wrong


def refused() -> List[str]:
    """What the kernel refuses bridge(8) it refuses a dump; else both have the same ports."""
    status, found, said = recorded("vlan")
    theirs = run("bridge", "-d", "-j", "vlan")
    if theirs.returncode:
        error = "rtnl-record: the kernel answered with error 95, Operation not supported\n"
        return same((status, 1), (said, error), ("not supported" in theirs.stderr, True))
    ports = {index(it.body) for it in found if it.kind == 112}
    return same((status, 0), (ports, {it["ifname"] for it in json.loads(theirs.stdout)}))


def without_stats() -> List[str]:
    """The mask leaves the counters of IPv6 out, which are there without it."""
    def has_them(message: Message) -> bool:
        families = attributes(attributes(message.body[16:])[AF_SPEC])
        return STATS in attributes(families[socket.AF_INET6])

    def heard(*words: str) -> List[bool]:
        return [has_them(it) for it in recorded("link", *words)[1] if it.kind == 16]
    links = len(names())
    return same((heard(), [True] * links), (heard("--ext-mask", "skip-stats"), [False] * links))


def monitored(folder: str) -> Iterator[Tuple[str, List[str]]]:
    """A monitor dumps such kinds, and hears of a change of each."""
    asked = ["nexthop", "class", "fdb", "nsid"]
    words = ["--dev", "one", "--dump", ",".join(asked), *asked, "netconf"]
    recorder = Recorder(folder, *words)
    recorder.until("", len(asked))
    dumped = recorder.comments()
    yield "a line for each dump", same((dumped, [
        f"# seq {seq} kind {kind}" for seq, kind in enumerate(asked, 1)]))
    kinds = {it.arguments.split()[0]: it for it in KINDS}
    for name, (_, behind) in zip(asked, blocks(recorder.lines)[1:]):
        answers = [it for it in behind if it.seq == asked.index(name) + 1]
        found = items_of(kinds[name], answers)
        yield f"{name}, dumped by a monitor", same((sorted(found), sorted(kinds[name].by_tool())))
    recorder.say("filter\n")
    recorder.until("", len(asked) + 1)
    at = len(recorder.lines)
    make("ip", "nexthop add id 40 blackhole")
    make("tc", "class add dev one parent 1: classid 1:30 htb rate 1mbit")
    make("bridge", f"fdb add {NEW.hex(':')} dev two master static")
    with open("/proc/sys/net/ipv4/conf/one/rp_filter", "w", encoding="ascii") as file:
        file.write("1")
    status = recorder.ended(signal.SIGINT)
    told = [it for line in recorder.lines[at:] if line[0] != "#" for it in messages(line)
            if it.kind != 28 or NEW in it.body]
    yield "changes", same(([it.kind for it in told], [104, 40, 28, 80]), (status, 0),
                          (recorder.said(), ""))


def cases() -> Iterator[Tuple[str, List[str]]]:
    other = subprocess.Popen(["unshare", "-n", "sh", "-c", "echo; exec sleep 600"],
                             stdout=subprocess.PIPE)
    RUNNING.append(other)
    assert other.stdout and other.stdout.readline()
    for program, changes in MADE.items():
        make(program, changes.replace("blue", f"{other.pid}"))
    for kind in KINDS:
        yield kind.arguments, settled(kind)
    yield "vlan", refused()
    yield "a mask", without_stats()
    with tempfile.TemporaryDirectory() as folder:
        yield from monitored(folder)


if __name__ == "__main__":
    try:
        STATUS = counted(cases())
    finally:
        for ran in RUNNING:
            ran.kill()
    sys.exit(STATUS)
