"""`rtnl-record monitor link address route | rtnl follow` in a network namespace of its own, beside
`ip monitor` there, while `ip` makes a link, addresses and routes, changes them and takes them away:
what is printed of each change is there soon behind it, and both have the same events in the same
order."""
import ipaddress
import os
import re
import select
import subprocess
import time
from typing import NamedTuple

import proved
from proved import ROOT

PROGRAM = proved.program()
RECORDER = [f"{ROOT}/rtnl-record", "monitor", "link", "address", "route"]
BESIDE = ["ip", "-o", "monitor", "label", "link", "address", "route"]
# How long the text of a change may take, and how long anything may, in seconds: a machine may have
# much else to do.
SOON, PATIENCE = 5, 30
# The groups of links, and of addresses and routes of both families, in /proc/net/netlink.
GROUPS = 1 << 0 | 1 << 4 | 1 << 8 | 1 << 6 | 1 << 10
KINDS = "unicast", "local", "broadcast", "anycast", "multicast"
TABLES = {"local": 255, "main": 254}
WAYS = "-n", "-rn"


class Link(NamedTuple):
    """What a message says of a link, by fields that `ip` prints too."""

    type: str
    index: int
    name: str
    is_up: bool


class Addr(NamedTuple):
    """What it says of an address."""

    type: str
    index: int
    address: str


class Route(NamedTuple):
    """What it says of a route."""

    type: str
    kind: str
    destination: str
    gateway: str
    table: int


# Each change, as `ip` is told it, and a part of what it must notify of.
CHANGES = [
    ("link add d0 type {}", "newlink", {"name": "d0", "is_up": False}),
    ("link set d0 up", "newlink", {"name": "d0", "is_up": True}),
    ("addr add 192.0.2.1/24 dev d0", "newaddr", {"address": "192.0.2.1/24"}),
    ("addr add 2001:db8::1/64 dev d0 nodad", "newaddr", {"address": "2001:db8::1/64"}),
    (
        "route add 198.51.100.0/24 via 192.0.2.2",
        "newroute",
        {"destination": "198.51.100.0/24", "gateway": "192.0.2.2"},
    ),
    (
        "route replace 198.51.100.0/24 via 192.0.2.3",
        "newroute",
        {"destination": "198.51.100.0/24", "gateway": "192.0.2.3"},
    ),
    ("route add default via 192.0.2.9", "newroute", {"destination": "default"}),
    (
        "route add 2001:db8:1::/48 via 2001:db8::2",
        "newroute",
        {"destination": "2001:db8:1::/48", "gateway": "2001:db8::2"},
    ),
    ("route del 198.51.100.0/24", "delroute", {"destination": "198.51.100.0/24"}),
    ("route del default", "delroute", {"destination": "default"}),
    ("addr del 192.0.2.1/24 dev d0", "deladdr", {"address": "192.0.2.1/24"}),
    ("addr del 2001:db8::1/64 dev d0", "deladdr", {"address": "2001:db8::1/64"}),
    ("link set d0 down", "newlink", {"name": "d0", "is_up": False}),
    ("link del d0", "dellink", {"name": "d0"}),
    # One message, by whose text all others have come.
    ("link set lo txqueuelen 999", "newlink", {"name": "lo"}),
]


def network(address, length=None):
    """An address with its length, in its short form."""
    text = str(ipaddress.ip_address(address))
    return text if length is None else f"{text}/{length}"


def attribute(text, number):
    """The value of an attribute of the message itself, or no text."""
    found = re.search(rf"^    attr {number} \w+ - \w+ (\S+)$", text, re.M)
    return found[1] if found else ""


def event_of(text):
    """The event that a message of ours prints, or none."""
    head = re.match(r"message \d+ (new|del)(link|addr|route) .*\n  \w+ (.*)\n", text)
    if not head:
        return None
    kind, body = head[1] + head[2], dict(re.findall(r"(\w+) (\S+)", head[3]))
    if head[2] == "link":
        is_up = "UP" in head[3].split(" change ")[0].split(" ")[-1].split(",")
        return Link(kind, int(body["index"]), attribute(text, 3), is_up)
    if head[2] == "addr":
        address = attribute(text, 2) or attribute(text, 1)
        full = network(address, body["prefix"]) if address else ""
        return Addr(kind, int(body["index"]), full)
    to, via = attribute(text, 1), attribute(text, 5)
    return Route(
        kind,
        KINDS[int(body["type"]) - 1],
        network(to, body["dst_len"]) if to else "default",
        network(via) if via else "",
        int(attribute(text, 15) or body["table"]),
    )


def events(text):
    """The events of what `rtnl follow` printed, in whole lines."""
    whole = text[: text.rfind("\n") + 1]
    messages = re.split(r"^(?=message |datagram )", whole, flags=re.M)
    found = [event_of(it) for it in messages if it.startswith("message ")]
    return [it for it in found if it]


def event_beside(line):
    """The event that a line of `ip monitor` prints."""
    label, is_gone, text = re.match(r"\[(\w+)\](Deleted )?(.*)", line).groups()
    kind = ("del" if is_gone else "new") + label.lower()
    if label == "LINK":
        index, name, flags = re.match(r"(\d+): ([^:@]+)[:@].*?<(.*?)>", text).groups()
        return Link(kind, int(index), name, "UP" in flags.split(","))
    if label == "ADDR":
        index, address, length = re.match(r"(\d+): \S+ +inet6? ([^/ ]+)/(\d+) ", text).groups()
        return Addr(kind, int(index), network(address, length))
    words = text.split()
    way = words.pop(0) if words[0] in KINDS else KINDS[0]
    to, after = words[0], dict(zip(words[1:], words[2:]))
    if to != "default":
        address, _, length = to.partition("/")
        to = network(address, length or ipaddress.ip_address(address).max_prefixlen)
    table = after.get("table", "main")
    return Route(kind, way, to, after.get("via", ""), TABLES.get(table) or int(table))


def events_beside(text):
    return [event_beside(it) for it in text.splitlines()]


class Heard:
    """What a command prints, as it comes."""

    def __init__(self, command, read):
        self.run = subprocess.Popen(command, stdin=read, stdout=subprocess.PIPE)
        self.text = ""

    def hear(self, seconds):
        """Takes what comes, if anything does in time. It answers whether more can come."""
        if not select.select([self.run.stdout], [], [], seconds)[0]:
            return True
        part = os.read(self.run.stdout.fileno(), 65536)
        self.text += part.decode()
        return part != b""

    def hear_until(self, is_there, patience):
        """The seconds until something of the text is there, or none."""
        begun = time.monotonic()
        while not is_there(self.text):
            left = begun + patience - time.monotonic()
            if left <= 0 or not self.hear(left):
                return None
        return time.monotonic() - begun

    def end(self):
        """The status, of a command whose input has ended or that was told to end."""
        while self.hear(PATIENCE):
            pass
        self.run.stdout.close()
        return self.run.wait(PATIENCE)


def listeners():
    """How many sockets of this namespace hear all of these groups."""
    with open("/proc/self/net/netlink", encoding="ascii") as sockets:
        rows = [it.split() for it in sockets][1:]
    return sum(it[1] == "0" and int(it[3], 16) & GROUPS == GROUPS for it in rows)


def soon(is_so):
    """It is so before long."""
    until = time.monotonic() + PATIENCE
    while not is_so() and time.monotonic() < until:
        time.sleep(0.02)
    return is_so()


def link_type():
    """What a link can be made of here, or nothing."""
    for it in ("veth peer name d1", "dummy"):
        made = [*"ip link add d0 type".split(), *it.split()]
        if subprocess.run(made, stderr=subprocess.DEVNULL).returncode == 0:
            subprocess.run(["ip", "link", "del", "d0"], check=True)
            return it
    return None


def is_change(event, kind, part):
    return event.type == kind and part.items() <= event._asdict().items()


def heard_change(followed, telling, change, kind, part):
    """The seconds until the text of a change is there, or none."""
    before = len(events(followed.text))
    try:
        telling.stdin.write(change + "\n")
    except BrokenPipeError:
        return None
    return followed.hear_until(
        lambda text: any(is_change(it, kind, part) for it in events(text)[before:]), SOON
    )


def changed(followed, made):
    """A case of each change, whose text must come soon; the greatest delay is printed."""
    # One `ip` makes all changes, so that none waits for the start of another.
    telling = subprocess.Popen(["ip", "-batch", "-"], stdin=subprocess.PIPE, text=True, bufsize=1)
    longest = 0
    for change, *wanted in CHANGES:
        change = change.format(made)
        delay = heard_change(followed, telling, change, *wanted)
        longest = max(longest, delay or 0)
        yield f"live: {change}", [] if delay is not None else ["it did not come"]
    telling.communicate()
    yield "live: all changes", [f"status {telling.returncode}"] if telling.returncode else []
    print(f"live: the greatest delay of a change is {longest * 1000:.1f} milliseconds")


def compared(followed, beside):
    """Both have the same events in the same order."""
    found = events(followed.text)
    beside.hear_until(lambda text: len(events_beside(text)) >= len(found), PATIENCE)
    wanted = events_beside(beside.text)
    pairs = zip(found, wanted)
    wrong = [f"the first: {mine}, by ip {theirs}" for mine, theirs in pairs if mine != theirs][:1]
    if len(found) != len(wanted) or not wanted:
        wrong.append(f"{len(found)}, by ip {len(wanted)}")
    yield "live: all events", wrong


def cases():
    """The cases; they change the network of the namespace that this runs in."""
    made = link_type()
    if made is None:
        print("skipped: following live, since no link can be made here")
        return
    recorder = subprocess.Popen(RECORDER, stdout=subprocess.PIPE)
    followed, beside = Heard([PROGRAM, "follow"], recorder.stdout), Heard(BESIDE, None)
    recorder.stdout.close()
    try:
        yield "live: both listen", [] if soon(lambda: listeners() == 2) else ["they do not"]
        yield from changed(followed, made)
    finally:
        recorder.terminate()
        statuses = recorder.wait(PATIENCE), followed.end()
    yield from compared(followed, beside)
    beside.run.terminate()
    beside.end()
    yield "live: it ends", [] if statuses == (0, 0) else [f"{statuses}"]


def way_in():
    """How a command is run in a namespace of its own, where there can be one."""
    for way in WAYS:
        try:
            tried = ["unshare", way, "ip", "link", "set", "lo", "up"]
            if subprocess.run(tried, stderr=subprocess.DEVNULL).returncode == 0:
                return ["unshare", way]
        except OSError:
            return None
    return None
