"""Random changes of a network namespace, as lines for ip(8) and bridge(8).

A line that begins with `-6` is for `ip -6`: in a batch ip takes no option. It knows the version of
IP by an address, but not that of a rule.
"""
import random
from typing import Callable, Dict, List

# Devices that stay, each with a network of IPv4 and one of IPv6.
DEVICES = [f"d{at}" for at in range(4)]
# Ports of the bridge that stay.
PORTS = [f"p{at}" for at in range(3)]

Change = Callable[[random.Random], str]


def pair(device: str, peer: str, *between: str) -> List[str]:
    """Adds a device with its peer, and sets both up behind the lines `between`."""
    return [
        f"link add {device} type veth peer name {peer}",
        *between,
        f"link set {peer} up",
        f"link set {device} up",
    ]


def setting() -> List[str]:
    """What is there before the changes: enough for dumps of several parts."""
    lines: List[str] = ["link set lo up", "link add b0 type bridge", "link set b0 up"]
    for at, device in enumerate(DEVICES):
        lines += pair(device, f"e{at}")
        lines += [
            f"addr add 10.{at}.0.1/16 dev {device}",
            f"addr add fd00:{at}::1/64 dev {device} nodad",
        ]
    for at, port in enumerate(PORTS):
        lines += pair(port, f"q{at}", f"link set {port} master b0")
    lines += [f"route add 172.16.{at}.0/24 via 10.{at % 4}.0.7" for at in range(200)]
    lines += [f"route add fd01:{at:x}::/64 via fd00:{at % 4}::7" for at in range(150)]
    lines += [
        f"neigh add 10.{at % 4}.1.{at} lladdr 02:00:00:00:00:{at:02x} dev d{at % 4} nud permanent"
        for at in range(200)
    ]
    rules = (f"rule add from 10.{at}.0.0/16 table {100 + at} pref {2000 + at}" for at in range(40))
    return [*lines, *rules]


def link(choose: random.Random) -> str:
    at = choose.randrange(4)
    return choose.choice(
        [
            f"link set d{at} mtu {choose.randrange(1300, 1500)}",
            f"link add t{at} type veth peer name u{at}",
            f"link del t{at}",
            f"link set u{at} master b0",
            f"link set u{at} nomaster",
            f"link set u{at} up",
            f"link set u{at} address 02:00:00:00:10:{choose.randrange(256):02x}",
        ]
    )


def down(choose: random.Random) -> str:
    return f"link set {choose.choice(DEVICES)} {choose.choice(['down', 'up', 'up'])}"


def address(choose: random.Random) -> str:
    at, host = choose.randrange(4), choose.randrange(20, 26)
    word = choose.choice(["add", "add", "del"])
    return choose.choice(
        [
            f"addr {word} 10.{at}.0.{host}/{choose.choice([16, 24, 32])} dev d{at}",
            f"addr {word} fd00:{at}::{host}/64 dev d{at} nodad",
        ]
    )


def gone_address(choose: random.Random) -> str:
    at = choose.randrange(4)
    return f"addr {choose.choice(['del', 'add'])} 10.{at}.0.1/16 dev d{at}"


def gateway(choose: random.Random, version: int) -> str:
    at, host = choose.randrange(4), choose.randrange(2, 6)
    return f"via 10.{at}.0.{host}" if version == 4 else f"via fd00:{at}::{host}"


def route(choose: random.Random) -> str:
    at, word = choose.randrange(30), choose.choice(["add", "add", "del"])
    if choose.random() < 0.5:
        return f"route {word} 192.168.{at}.0/24 {gateway(choose, 4)}"
    return f"route add fd02:{at:x}::/64 {gateway(choose, 6)} metric {choose.choice([50, 60])}"


def open_route(choose: random.Random) -> str:
    """A change that leaves open which route it is of."""
    word, version = choose.choice(["append", "replace", "prepend", "del"]), choose.choice([4, 6])
    at = choose.randrange(30)
    prefix = f"192.168.{at}.0/24" if version == 4 else f"fd02:{at:x}::/64"
    hops = " ".join(f"nexthop {gateway(choose, version)}" for _ in range(2))
    way = choose.choice([gateway(choose, version), f"dev {choose.choice(DEVICES)}", hops])
    return f"route {word} {prefix} {way}"


def neighbour(choose: random.Random) -> str:
    at, host = choose.randrange(4), choose.randrange(50, 56)
    where = choose.choice([f"10.{at}.0.{host}", f"fd00:{at}::{host}"])
    if choose.random() < 0.3:
        return f"neigh del {where} dev d{at}"
    state, last = choose.choice(["permanent", "stale"]), choose.randrange(256)
    mac = f"02:00:00:00:30:{last:02x}"
    return f"neigh replace {where} lladdr {mac} dev d{at} nud {state}"


def rule(choose: random.Random) -> str:
    version, pref = choose.choice(["", "-6 "]), choose.randrange(1000, 1010)
    if choose.random() < 0.4:
        return f"{version}rule del pref {pref}"
    what = choose.choice(["from all", "from all iif d1", "from all fwmark 0x1/0xff"])
    return f"{version}rule add {what} table {choose.choice([77, 78, 300])} pref {pref}"


def speed(choose: random.Random) -> str:
    return f"link set {choose.choice(DEVICES)} mtu {choose.randrange(1300, 1500)}"


def new_address(choose: random.Random) -> str:
    """Of IPv6: with one of IPv4 the kernel tells of a route that is appended."""
    at, host = choose.randrange(4), choose.randrange(20, 26)
    return f"addr add fd00:{at}::{host}/64 dev d{at} nodad"


# What leaves nothing open, whatever came before; and all changes.
TOLD: List[Change] = [speed, new_address, route, neighbour, rule]
ALL: List[Change] = [link, down, address, gone_address, route, open_route, neighbour, rule]


def told(choose: random.Random, count: int) -> List[str]:
    return [choose.choice(TOLD)(choose) for _ in range(count)]


def any_change(choose: random.Random, count: int) -> List[str]:
    return [choose.choice(ALL)(choose) for _ in range(count)]


def standing() -> List[str]:
    """What is there before a doubtful change: devices with IPv4 alone, since they have less room
    than IPv6 needs, and routes through them; routes of IPv6 with one hop, and with two."""
    lines = [
        "link add o0 mtu 1200 type veth peer name o1 mtu 1200",
        "link set o1 up",
        "link set o0 up",
        "addr add 10.9.0.1/16 dev o0",
    ]
    for at, device in enumerate(DEVICES):
        lines += [f"link set {device} up", f"addr add fd00:{at}::1/64 dev {device} nodad"]
    for at in range(10):
        lines += [
            f"route add 172.17.{at}.0/24 via 10.9.0.7",
            f"route add fd03:{at}::/64 via fd00:0::7",
            f"route add fd04:{at}::/64 nexthop via fd00:0::7 nexthop via fd00:1::7",
        ]
    return lines


# Changes of which each leaves open in one way which routes there are, behind those of `standing`.
DOUBTFUL: List[List[str]] = [
    ["link set o0 down"],
    ["addr del 10.9.0.1/16 dev o0"],
    [f"route replace 172.17.{at}.0/24 via 10.9.0.8" for at in range(10)],
    [f"route append fd03:{at}::/64 via fd00:1::7" for at in range(10)],
    [f"route del fd04:{at}::/64 via fd00:0::7" for at in range(10)],
    ["link del o0"],
]


def doubtful(seed: int) -> List[str]:
    """Those of one such way."""
    return DOUBTFUL[seed % len(DOUBTFUL)]


def forwarding(choose: random.Random, count: int) -> List[str]:
    """Changes of the bridge's forwarding entries, for bridge(8): new, at another port, or gone."""
    lines: List[str] = []
    for _ in range(count):
        where = f"02:00:00:00:50:{choose.randrange(12):02x} dev {choose.choice(PORTS)} master"
        state = choose.choice(["static", "dynamic"])
        lines.append(choose.choice([f"fdb replace {where} {state}", f"fdb del {where}"]))
    return lines


def flood(choose: random.Random) -> List[str]:
    """More notifications than a socket has room for, if nobody receives them. The neighbours stay
    permanent: of too many others the kernel clears some away, in all namespaces at once."""
    mac = f"02:00:00:00:40:{choose.randrange(256):02x}"
    places = [f"10.0.2.{at % 250} lladdr {mac} dev d0" for at in range(500)]
    return [f"neigh replace {it} nud {state}" for it in places for state in ("stale", "permanent")]
