"""The three programs that read, over the kernel, in a network namespace that this process has
alone: links, addresses, routes and neighbours are made there by ip(8), `ip -j` says what the dumps
are to hold, and what `watch` is to hear are the changes that ip(8) makes beside it.
"""
import json
import os
import signal
import subprocess
import tempfile
import time
from typing import IO, Any, Callable, Dict, Iterator, List, Tuple

from kernel import PATIENCE, Command, run
from played import Case, ends

# Links that each kernel has, and such as it may lack, by the words with which they are made.
BRIDGES, PAIRS, OTHERS = 8, 7, 24
KINDS = [("dummy", "NAME type dummy"), ("macvlan", "link left0 NAME type macvlan mode bridge"),
         ("vlan", "link left1 NAME type vlan id {}")]
ADDRESSES, ROUTES, NEIGHBOURS = 200, 5000, 540
# Each so-manieth route has many next hops.
MANY = 40
# How many routes are added while `watch` is stopped: more notifications than its buffer takes.
FLOOD = 4000
LENGTHS = {"inet": 32, "inet6": 128}


def ip(*words: str) -> str:
    ran = subprocess.run(["ip", *words], capture_output=True, text=True, check=False)
    if ran.returncode:
        raise OSError(f"ip {' '.join(words)}: {ran.stderr}")
    return ran.stdout


def said(*words: str) -> List[Dict[str, Any]]:
    found: List[Dict[str, Any]] = json.loads(ip("-N", "-j", *words) or "[]")
    return found


def batch(lines: List[str]) -> None:
    """Runs lines of ip(8), all in one process."""
    ran = subprocess.run(["ip", "-batch", "-"], input="".join(f"{it}\n" for it in lines),
                         capture_output=True, text=True, check=False)
    if ran.returncode:
        raise OSError(f"ip -batch: {ran.stderr[:1000]}")


def quiet() -> None:
    """No address of IPv6 waits for an answer before it is used, or is made by itself."""
    for name in ("all", "default"):
        for key, value in (("accept_dad", 0), ("accept_ra", 0), ("addr_gen_mode", 1)):
            try:
                with open(f"/proc/sys/net/ipv6/conf/{name}/{key}", "w", encoding="ascii") as file:
                    file.write(f"{value}")
            except OSError:
                pass


def links() -> List[str]:
    """Makes some 30 links of the types that this kernel has, and answers the names of those that
    addresses can be on."""
    made = ["lo"]
    for at in range(BRIDGES):
        made.append(f"br{at}")
        ip("link", "add", made[-1], "address", f"02:00:00:00:01:{at:02x}", "type", "bridge")
        ip("link", "set", made[-1], "mtu", f"{1280 + 20 * at}")
    for at in range(PAIRS):
        ip("link", "add", f"left{at}", "type", "veth", "peer", "name", f"right-of-pair{at}")
        made += [f"left{at}", f"right-of-pair{at}"]
    for at in range(OTHERS):
        name, how = f"{KINDS[at % 3][0]}{at}", KINDS[at % 3][1].format(at + 2)
        try:
            ip("link", "add", *how.replace("NAME", name).split())
        except OSError:
            continue  # this kernel has none of these
        made.append(name)
    # One half of them is up, of the pairs also both ends; one is a port of a bridge.
    for name in made[::2] + ["left0", "left1"]:
        ip("link", "set", name, "up")
    ip("link", "set", "right-of-pair6", "master", "br0")
    return made


def addresses(names: List[str]) -> List[str]:
    half = ADDRESSES // 2
    lines = [f"addr add 10.{at}.0.1/24 dev {names[at % len(names)]}" for at in range(half)]
    return lines + [f"addr add 2001:db8:{at:x}::1/64 dev {names[at % len(names)]} nodad"
                    for at in range(half)]


def ways(at: int, family: str, names: List[str]) -> str:
    """Where a route leads: to one next hop, or to two or three."""
    via = {"inet": "10.{}.0.77", "inet6": "2001:db8:{:x}::77"}[family]
    ups = [it for it in range(ADDRESSES // 2) if names[it % len(names)] in Kernel.up]
    gateways = [(via.format(it), names[it % len(names)])
                for it in (ups[(at + 7 * turn) % len(ups)] for turn in range(3))]
    if at % MANY == 0:
        return "".join(f" nexthop via {it} dev {name} weight {turn + 1}"
                       for turn, (it, name) in enumerate(gateways[:2 + at // MANY % 2]))
    # Some have no gateway.
    gateway, name = gateways[0]
    return f" dev {name}" if at % 7 == 0 else f" via {gateway} dev {name}"


def routes(names: List[str]) -> List[str]:
    lines = []
    for at in range(ROUTES):
        family = "inet" if at % 5 < 3 else "inet6"
        table = (254, 254, 100, 1000, 4294967295)[at % 11 % 5]
        if family == "inet":
            to = f"{100 + at // 8192}.{at // 32 % 256}.{at % 32 * 8}.0/{24 + at % 9}"
        else:
            to = f"2001:dba:{at:x}::/{48 + at % 80}"
        kind = "unreachable " if at % 997 == 3 else ""
        way = "" if kind else ways(at, family, names)
        lines.append(f"route add {kind}{to} table {table}{way}")
    return lines


def neighbours(names: List[str]) -> List[str]:
    return [f"neigh add 10.{at % 100}.0.{100 + at // 100} lladdr 02:00:00:01:{at // 256:02x}:"
            f"{at % 256:02x} dev {names[at % 100 % len(names)]} nud permanent"
            for at in range(NEIGHBOURS)]


# ---- What `ip -j` says ----

def link_lines() -> str:
    found = said("link", "show")
    return "".join(f"{it['ifname']} {it.get('operstate', '-')} {it.get('mtu', '-')} "
                   f"{it.get('address', '-')}\n" for it in found)


def gateway_in(way: Dict[str, Any]) -> str:
    found: str = way.get("gateway") or way.get("via", {}).get("host") or "-"
    return found


def destination_in(route: Dict[str, Any], family: str) -> str:
    to: str = route["dst"]
    return to if to == "default" or "/" in to else f"{to}/{LENGTHS[family]}"


def route_lines() -> str:
    lines = []
    for family in LENGTHS:
        for it in said("-f", family, "route", "show", "table", "all"):
            front, table = destination_in(it, family), it.get("table", "254")
            lines += [f"{front} {gateway_in(way)} {way.get('dev', '-')} {table}\n"
                      for way in it.get("nexthops") or [it]]
    return "".join(lines)


def agrees(command: Command, facts: Callable[[], str]) -> List[str]:
    """What is not so of what a program prints of the kernel's table, which is the same before and
    behind it."""
    for _ in range(5):
        before = facts()
        ended = run(command)
        if facts() == before:
            return [*ends(ended, before, "", 0), *([] if before else ["nothing was there"])]
        time.sleep(0.5)
    return ["the kernel's table does not come to rest"]


# ---- What is heard of changes ----

def change(name: str) -> List[Tuple[str, str]]:
    """Words of ip(8), and what is heard of what they do. INDEX and STATE are those of the link, as
    `ip -j` has them then."""
    peer = f"{name}-peer"
    return [
        (f"link add {name} type veth peer name {peer}", f"new link {name} STATE"),
        (f"link set {peer} up", f"new link {peer} LOWERLAYERDOWN"),
        (f"link set {name} up", f"new link {name} UP"),
        (f"addr add 192.0.2.7/24 dev {name}", "new addr 192.0.2.7/24 INDEX"),
        (f"-6 addr add 2001:db8:ffff::7/64 dev {name} nodad",
         "new addr 2001:db8:ffff::7/64 INDEX"),
        (f"neigh add 192.0.2.9 lladdr 02:00:00:00:00:99 dev {name} nud permanent",
         "new neigh 192.0.2.9 02:00:00:00:00:99 INDEX"),
        (f"-6 neigh add 2001:db8:ffff::9 lladdr 02:00:00:00:00:98 dev {name} nud permanent",
         "new neigh 2001:db8:ffff::9 02:00:00:00:00:98 INDEX"),
        (f"route add 203.0.113.0/25 via 192.0.2.9 dev {name}",
         "new route 203.0.113.0/25 192.0.2.9 INDEX"),
        (f"-6 route add 2001:db8:eeee::/48 via 2001:db8:ffff::9 dev {name}",
         "new route 2001:db8:eeee::/48 2001:db8:ffff::9 INDEX"),
        (f"route add default via 192.0.2.9 dev {name} table 77",
         "new route default 192.0.2.9 INDEX"),
        ("route del 203.0.113.0/25", "del route 203.0.113.0/25 192.0.2.9 INDEX"),
        ("-6 route del 2001:db8:eeee::/48",
         "del route 2001:db8:eeee::/48 2001:db8:ffff::9 INDEX"),
        (f"neigh del 192.0.2.9 dev {name}", "del neigh 192.0.2.9 - INDEX"),
        (f"addr del 192.0.2.7/24 dev {name}", "del addr 192.0.2.7/24 INDEX"),
        (f"link del {name}", f"del link {name} DOWN"),
    ]


def joined(process: "subprocess.Popen[str]") -> List[str]:
    """The words of /proc/net/netlink about the socket of a process that has joined groups, once
    there is one: its port id is that of the process."""
    for _ in range(PATIENCE * 10):
        with open("/proc/net/netlink", encoding="ascii") as lines:
            rows = [line.split() for line in lines]
        for row in rows:
            if row[1:3] == ["0", f"{process.pid}"] and int(row[3], 16):
                return row
        if process.poll() is not None:
            break
        time.sleep(0.1)
    return []


def soon(holds: Callable[[], bool]) -> bool:
    end = time.monotonic() + PATIENCE
    while not holds() and time.monotonic() < end:
        time.sleep(0.05)
    return holds()


class Watching:
    """A run of `watch`, which ends with the block."""

    def __init__(self, command: Command, folder: str) -> None:
        self.output = open(f"{folder}/output", "w+", encoding="utf-8")
        self.errors = open(f"{folder}/errors", "w+", encoding="utf-8")
        # A shell in the background has its commands ignore an interrupt, and so those of a test.
        self.process = subprocess.Popen(
            command, stdin=subprocess.DEVNULL, stdout=self.output, stderr=self.errors, text=True,
            preexec_fn=lambda: signal.signal(signal.SIGINT, signal.SIG_DFL))
        self.is_joined = bool(joined(self.process))

    def text(self, of: IO[str]) -> str:
        with open(of.name, encoding="utf-8") as file:
            return file.read()

    def lines(self) -> List[str]:
        """The whole lines so far."""
        return self.text(self.output).split("\n")[:-1]

    def __enter__(self) -> "Watching":
        return self

    def __exit__(self, *_: object) -> None:
        if self.process.poll() is None:
            self.process.kill()
        self.process.wait()
        self.output.close()
        self.errors.close()


def hears_each(watching: Watching, name: str) -> List[str]:
    """Makes the changes, one once the one before was heard; what was not heard ends them. A link's
    index and state are said by `ip -j` when it was made."""
    place, index = 0, ""
    for words, line in change(name):
        ip(*words.split())
        if not index:
            link = said("link", "show", name)[0]
            index = f"{link['ifindex']}"
            line = line.replace("STATE", link["operstate"])
        line = line.replace("INDEX", index)
        if not soon(lambda: line in watching.lines()[place:]):
            return [f"{line!r} is not in {watching.lines()[place:]}"]
        place += watching.lines()[place:].index(line) + 1
    return []


def hears(watching: Watching) -> List[str]:
    """What is not so of what is printed beside changes, and of the end by an interrupt."""
    wrong = hears_each(watching, "watched")
    if wrong:
        ip("link", "del", "watched")
    watching.process.send_signal(signal.SIGINT)
    if not soon(lambda: watching.process.poll() is not None):
        return [*wrong, "it goes on behind an interrupt"]
    errors = watching.text(watching.errors)
    return [*wrong, *([f"errors {errors!r}"] if errors else [])]


def dropped(process: "subprocess.Popen[str]") -> int:
    row = joined(process)
    return int(row[8]) if row else 0


def loses(watching: Watching) -> List[str]:
    """What is not so of the end behind more notifications than the socket takes."""
    pid = watching.process.pid
    os.kill(pid, signal.SIGSTOP)
    to = [f"198.18.{at // 256}.{at % 256}/32 dev lo table 99" for at in range(FLOOD)]
    batch([f"route add {it}" for it in to])
    has_dropped = dropped(watching.process) > 0
    os.kill(pid, signal.SIGCONT)
    batch([f"route del {it}" for it in to])
    if not has_dropped:
        return ["the kernel has dropped none"]
    if not soon(lambda: watching.process.poll() is not None):
        return ["it goes on"]
    errors, status = watching.text(watching.errors), watching.process.returncode
    is_so = (errors, status) == ("watch: lost datagrams\n", 5)
    return [] if is_so else [f"errors {errors!r}, status {status}"]


class Kernel:
    """The namespace with all that is made in it. Routes lead over the links that are up."""

    up: List[str] = []

    def __init__(self) -> None:
        quiet()
        names = links()
        batch(addresses(names))
        Kernel.up = [it["ifname"] for it in said("link", "show")
                     if "LOWER_UP" in it["flags"] and it["ifname"] != "lo"]
        batch(routes(names))
        batch(neighbours(names))
        time.sleep(1)
        counts = [len(said(*words)) for words in (["link"], ["addr"], ["neigh"])]
        hops = route_lines().count("\n")
        print(f"in the namespace: {counts[0]} links, {counts[2]} neighbours, {hops} next hops")

    def watches(self, name: str, command: Command,
                goes: Callable[[Watching], List[str]]) -> Case:
        with tempfile.TemporaryDirectory() as folder, Watching(command, folder) as watching:
            wrong = goes(watching) if watching.is_joined else [
                f"it has joined no group: {watching.text(watching.errors)!r}"]
        return f"watch: {name}", wrong

    def cases(self, commands: Dict[str, Command]) -> Iterator[Case]:
        yield "links of the kernel", agrees(commands["links"], link_lines)
        yield "routes of the kernel", agrees(commands["routes"], route_lines)
        yield self.watches("changes in the kernel", commands["watch"], hears)
        yield self.watches("lost datagrams", commands["watch"], loses)
