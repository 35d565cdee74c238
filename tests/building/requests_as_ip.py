#!/usr/bin/env python3
"""Puts what ip(8) sends for the commands of ip_sends.txt by the five calls for requests that change
something, and compares every byte of it. The commands that no such call has are named, with what
they would take.

  tests/building/requests_as_ip.py PUT_REQUEST

PUT_REQUEST is put_request.c, compiled. The last line is 'N passed, M failed'; the status is 1 where
a case failed.
"""
import os
import socket
import struct
import subprocess
import sys
from typing import Dict, Iterator, List, Tuple, Union

sys.dont_write_bytecode = True
HERE = os.path.dirname(os.path.realpath(__file__))
sys.path[:0] = [HERE, f"{HERE}/../helpers"]
from counting import counted

Value = Union[int, str, bytes]
ADD, REPLACE, CHANGE, APPEND, PREPEND, SET, DELETE = range(7)
INET, INET6 = socket.AF_INET, socket.AF_INET6
LO, ONE, OTHER = 1, 10, 11
# The numbers that are put beside a field `has_`.
OPTIONAL = {"mtu", "master", "link", "up", "priority", "oif", "vlan", "mark", "mask", "target",
            "suppress_prefix_length"}


def line(of: str, operation: int, /, **fields: Value) -> str:
    """A line of put_request.c. An optional number that is said is there."""
    words = [of, str(operation)]
    for name, value in fields.items():
        shown = value.hex() if isinstance(value, bytes) else str(value)
        words.append(f"{name}={shown}")
        if name in OPTIONAL and not isinstance(value, bytes):
            words.append(f"has_{name}=1")
    return " ".join(words)


def ip(words: str) -> bytes:
    return socket.inet_pton(INET6 if ":" in words else INET, words)


def mac(words: str) -> bytes:
    return bytes.fromhex(words.replace(":", ""))


def attr(number: int, payload: bytes) -> bytes:
    return struct.pack("<HH", 4 + len(payload), number) + payload + bytes(-len(payload) % 4)


def set_link(**fields: Value) -> str:
    return line("link", SET, index=ONE, **fields)


def add_link(name: str, kind: str, **fields: Value) -> str:
    return line("link", ADD, name=name.encode(), kind=kind.encode(), **fields)


PEER = attr(1, bytes(16) + attr(3, b"other11\0"))
LINKS = {
    "link set dev one up": set_link(up=1),
    "link set dev one down": set_link(up=0),
    "link set dev one mtu 1400": set_link(mtu=1400),
    "link set dev one up mtu 1400": set_link(mtu=1400, up=1),
    "link set dev one down name three": set_link(up=0, name=b"three"),
    "link set dev one address 02:00:00:00:00:01": set_link(address=mac("02:00:00:00:00:01")),
    "link set dev one master other": set_link(master=OTHER),
    "link set dev one nomaster": set_link(master=0),
    "link add dummy0 type dummy": add_link("dummy0", "dummy"),
    "link add name dummy1 mtu 1400 type dummy": add_link("dummy1", "dummy", mtu=1400),
    "link add name dummy2 up type dummy": add_link("dummy2", "dummy", up=1),
    "link add name bridge0 type bridge": add_link("bridge0", "bridge"),
    "link add link one name one.5 type vlan id 5":
        add_link("one.5", "vlan", link=ONE, data=attr(1, b"\5\0")),
    "link add name one10 type veth peer name other11": add_link("one10", "veth", data=PEER),
    "link add name vrf0 type vrf table 1000":
        add_link("vrf0", "vrf", data=attr(1, struct.pack("<I", 1000))),
    "link delete dev one": line("link", DELETE, index=ONE),
    "link delete one type veth": line("link", DELETE, index=ONE, kind=b"veth"),
}


def on(local: str, operation: int = ADD, **fields: Value) -> str:
    """An address of IPv4 or IPv6 on the first link."""
    own = {"family": INET6 if ":" in local else INET, "prefix_length": 64 if ":" in local else 24,
           "index": ONE}
    return line("addr", operation, local=ip(local), **{**own, **fields})


def lifetimes(preferred: int, valid: int) -> Dict[str, Value]:
    return {"preferred": preferred, "valid": valid, "has_lifetimes": 1}


ADDRESSES = {
    "address add 192.0.2.10/24 dev one": on("192.0.2.10"),
    "address add 192.0.2.11/24 broadcast 192.0.2.255 dev one":
        on("192.0.2.11", broadcast=ip("192.0.2.255")),
    "address add 192.0.2.13 peer 203.0.113.1/32 dev one":
        on("192.0.2.13", peer=ip("203.0.113.1"), prefix_length=32),
    "address add 192.0.2.14/24 dev one label one:14": on("192.0.2.14", label=b"one:14"),
    "address add 192.0.2.15/24 dev one scope link": on("192.0.2.15", scope=253),
    "address add 192.0.2.16/24 dev one valid_lft 3600 preferred_lft 1800":
        on("192.0.2.16", **lifetimes(1800, 3600)),
    "address add 192.0.2.17/24 dev one noprefixroute": on("192.0.2.17", flags=0x200),
    "address add 127.0.0.2/8 dev lo": on("127.0.0.2", prefix_length=8, scope=254, index=LO),
    "address add 2001:db8::10/64 dev one": on("2001:db8::10"),
    "address add 2001:db8::11/64 dev one nodad": on("2001:db8::11", flags=2),
    "address add 2001:db8::12 peer 2001:db8:2::1/128 dev one":
        on("2001:db8::12", peer=ip("2001:db8:2::1"), prefix_length=128),
    "address replace 192.0.2.10/24 dev one": on("192.0.2.10", REPLACE),
    "address change 192.0.2.10/24 dev one valid_lft 60 preferred_lft 30":
        on("192.0.2.10", CHANGE, **lifetimes(30, 60)),
    "address delete 192.0.2.10/24 dev one": on("192.0.2.10", DELETE),
    "address delete 2001:db8::10/64 dev one": on("2001:db8::10", DELETE),
}


def route(prefix: str, via: str = "", operation: int = ADD, **fields: Value) -> str:
    """A route to a prefix, or the default one, with a gateway if there is one."""
    to, _, length = prefix.partition("/")
    own: Dict[str, Value] = {"family": INET6 if ":" in prefix else INET, "table": 254}
    if operation == DELETE:
        own["scope"] = 0 if ":" in prefix else 255
    else:
        own.update(protocol=3, route_type=1)
    if to:
        own.update(destination=ip(to), destination_length=int(length))
    if via:
        own["gateway"] = ip(via)
    return line("route", operation, **{**own, **fields})


def hop(index: int, weight: int, via: str = "") -> str:
    return f"{index}:0:{weight - 1}:{ip(via).hex() if via else '-'}"


GATEWAY, GATEWAY6 = "192.0.2.254", "2001:db8::fe"
ROUTES = {
    "route add 10.1.0.0/16 via 192.0.2.254": route("10.1.0.0/16", GATEWAY),
    "route add 10.2.0.0/16 via 192.0.2.254 dev one": route("10.2.0.0/16", GATEWAY, oif=ONE),
    "route add 10.3.0.0/16 dev one": route("10.3.0.0/16", oif=ONE, scope=253),
    "route add default via 192.0.2.254": route("", GATEWAY),
    "route add default dev one metric 50": route("", priority=50, oif=ONE, scope=253),
    "route add 10.4.0.0/16 via 192.0.2.254 src 192.0.2.1 metric 100":
        route("10.4.0.0/16", GATEWAY, preferred_source=ip("192.0.2.1"), priority=100),
    "route add 10.5.0.0/16 via 192.0.2.254 table 100": route("10.5.0.0/16", GATEWAY, table=100),
    "route add 10.6.0.0/16 via 192.0.2.254 table 1000": route("10.6.0.0/16", GATEWAY, table=1000),
    "route add 10.7.0.0/16 via 192.0.2.254 mtu 1400 advmss 1360":
        route("10.7.0.0/16", GATEWAY, metrics="2:1400,8:1360"),
    "route add 10.8.0.0/16 via 192.0.2.254 mtu lock 1400":
        route("10.8.0.0/16", GATEWAY, metrics="2:1400,1:4"),
    "route add 10.9.0.0/16 nexthop via 192.0.2.254 weight 1 nexthop via 198.51.100.254 weight 10":
        route("10.9.0.0/16", hops=f"{hop(0, 1, GATEWAY)},{hop(0, 10, '198.51.100.254')}"),
    "route add 10.10.0.0/16 nexthop via 192.0.2.254 dev one weight 2 nexthop dev other weight 256":
        route("10.10.0.0/16", hops=f"{hop(ONE, 2, GATEWAY)},{hop(OTHER, 256)}"),
    "route add 10.11.0.0/16 via 192.0.2.254 dev one onlink":
        route("10.11.0.0/16", GATEWAY, oif=ONE, flags=4),
    "route add 10.12.0.0/16 via 192.0.2.254 proto static":
        route("10.12.0.0/16", GATEWAY, protocol=4),
    "route add 10.13.0.0/16 dev one scope link": route("10.13.0.0/16", oif=ONE, scope=253),
    "route add 10.14.0.0/16 tos 0x10 via 192.0.2.254": route("10.14.0.0/16", GATEWAY, tos=16),
    "route add blackhole 10.16.0.0/16": route("10.16.0.0/16", route_type=6),
    "route add unreachable 10.17.0.0/16 metric 200":
        route("10.17.0.0/16", route_type=7, priority=200),
    "route add prohibit 10.18.0.0/16 table 4294967294":
        route("10.18.0.0/16", route_type=8, table=4294967294),
    "route add local 10.19.0.0/16 dev lo":
        route("10.19.0.0/16", route_type=2, table=255, scope=254, oif=LO),
    "route add 10.20.0.1 via 192.0.2.254": route("10.20.0.1/32", GATEWAY),
    "route replace 10.1.0.0/16 via 192.0.2.253": route("10.1.0.0/16", "192.0.2.253", REPLACE),
    "route append 10.1.0.0/16 via 192.0.2.252": route("10.1.0.0/16", "192.0.2.252", APPEND),
    "route change 10.1.0.0/16 via 192.0.2.251": route("10.1.0.0/16", "192.0.2.251", CHANGE),
    "route prepend 10.1.0.0/16 via 192.0.2.250": route("10.1.0.0/16", "192.0.2.250", PREPEND),
    "route delete 10.1.0.0/16": route("10.1.0.0/16", "", DELETE),
    "route delete 10.6.0.0/16 table 1000": route("10.6.0.0/16", "", DELETE, table=1000),
    "route delete 10.4.0.0/16 via 192.0.2.254 metric 100":
        route("10.4.0.0/16", GATEWAY, DELETE, priority=100),
    "route add 2001:db8:10::/48 via 2001:db8::fe": route("2001:db8:10::/48", GATEWAY6),
    "route add 2001:db8:11::/48 via 2001:db8::fe dev one metric 100 table 1000":
        route("2001:db8:11::/48", GATEWAY6, oif=ONE, priority=100, table=1000),
    "route add 2001:db8:12::/48 nexthop via 2001:db8::fe weight 1 nexthop via 2001:db8:1::fe "
    "weight 5":
        route("2001:db8:12::/48", hops=f"{hop(0, 1, GATEWAY6)},{hop(0, 5, '2001:db8:1::fe')}"),
    "route add 2001:db8:13::/48 dev one mtu 1400 hoplimit 20":
        route("2001:db8:13::/48", oif=ONE, metrics="2:1400,10:20"),
    "route add 2001:db8:14::/48 from 2001:db8:15::/48 via 2001:db8::fe":
        route("2001:db8:14::/48", GATEWAY6, source=ip("2001:db8:15::"), source_length=48),
    "route add unreachable 2001:db8:16::/48": route("2001:db8:16::/48", route_type=7),
    "route delete 2001:db8:10::/48": route("2001:db8:10::/48", "", DELETE),
}


def near(last: int, operation: int = ADD, lladdr: int = 0, **fields: Value) -> str:
    """A neighbour 192.0.2.LAST of the first link."""
    own: Dict[str, Value] = {"family": INET, "destination": ip(f"192.0.2.{last}"), "state": 0x80}
    if lladdr:
        own["link_address"] = mac(f"02:00:00:00:00:{lladdr}")
    return line("neigh", operation, index=ONE, **{**own, **fields})


NEIGHBOURS = {
    "neighbour add 192.0.2.20 lladdr 02:00:00:00:00:20 dev one": near(20, lladdr=20),
    "neighbour add 192.0.2.21 lladdr 02:00:00:00:00:21 dev one nud permanent":
        near(21, lladdr=21),
    "neighbour add 192.0.2.22 lladdr 02:00:00:00:00:22 dev one nud reachable":
        near(22, lladdr=22, state=2),
    "neighbour add proxy 192.0.2.23 dev one": near(23, flags=8),
    "neighbour add 2001:db8::20 lladdr 02:00:00:00:00:20 dev one router":
        near(20, lladdr=20, family=INET6, destination=ip("2001:db8::20"), flags=0x80),
    "neighbour replace 192.0.2.20 lladdr 02:00:00:00:00:24 dev one nud stale":
        near(20, REPLACE, 24, state=4),
    "neighbour change 192.0.2.20 lladdr 02:00:00:00:00:25 dev one": near(20, CHANGE, 25),
    "neighbour delete 192.0.2.20 dev one": near(20, DELETE),
    "neighbour delete 192.0.2.20 lladdr 02:00:00:00:00:25 dev one": near(20, DELETE, 25),
    "neighbour delete proxy 192.0.2.23 dev one": near(23, DELETE, flags=8),
}


def rule(operation: int = ADD, source: str = "", to: str = "", **fields: Value) -> str:
    """A rule, of prefixes if there are some."""
    own: Dict[str, Value] = {"family": INET6 if ":" in source else INET,
                             "action": 0 if operation == DELETE else 1}
    for name, prefix in ("source", source), ("destination", to):
        address, _, length = prefix.partition("/")
        if prefix:
            own.update({name: ip(address), f"{name}_length": int(length)})
    return line("rule", operation, **{**own, **fields})


SOURCE, DENIED, SOURCE6 = "192.0.2.0/24", "203.0.113.0/24", "2001:db8::/32"
RULES = {
    "rule add from 192.0.2.0/24 table 100": rule(source=SOURCE, table=100),
    "rule add from 192.0.2.0/24 to 198.51.100.0/24 table 1000 priority 100":
        rule(source=SOURCE, to="198.51.100.0/24", table=1000, priority=100),
    "rule add to 198.51.100.0/24 table 100 priority 101":
        rule(to="198.51.100.0/24", table=100, priority=101),
    "rule add fwmark 0x10 table 100 priority 102": rule(mark=16, table=100, priority=102),
    "rule add fwmark 0x10/0xff table 1000 priority 103":
        rule(mark=16, mask=255, table=1000, priority=103),
    "rule add iif one table 100 priority 104": rule(iif=b"one", table=100, priority=104),
    "rule add oif other table main priority 105": rule(oif=b"other", table=254, priority=105),
    "rule add not from 192.0.2.0/24 table 100 priority 106":
        rule(source=SOURCE, table=100, priority=106, invert=1),
    "rule add from 203.0.113.0/24 blackhole priority 107":
        rule(source=DENIED, action=6, priority=107),
    "rule add from 203.0.113.0/24 unreachable priority 108":
        rule(source=DENIED, action=7, priority=108),
    "rule add tos 0x10 table 100 priority 109": rule(tos=16, table=100, priority=109),
    "rule add from 203.0.113.0/24 goto 200 priority 110":
        rule(source=DENIED, action=2, target=200, priority=110),
    "-6 rule add from 2001:db8::/32 table 100 priority 100":
        rule(source=SOURCE6, table=100, priority=100),
    "-6 rule add from 2001:db8::/32 fwmark 0x10/0xff table 1000 priority 101":
        rule(source=SOURCE6, mark=16, mask=255, table=1000, priority=101),
    "rule delete priority 100": rule(DELETE, priority=100),
    "rule delete from 192.0.2.0/24 table 100": rule(DELETE, SOURCE, table=100),
    "rule delete fwmark 0x10/0xff table 1000 priority 103":
        rule(DELETE, mark=16, mask=255, table=1000, priority=103),
    "-6 rule delete from 2001:db8::/32 table 100 priority 100":
        rule(DELETE, SOURCE6, table=100, priority=100),
}
FROM_ALL = "-6 rule add from all table main suppress_prefixlength 0 priority 111"
SUPPRESSED = rule(family=INET6, table=254, suppress_prefix_length=0, priority=111)
# What the calls have no field for, or put in another order. An empty FRA_SRC says what none says,
# and ip sends none where `from` is left out.
WITHOUT = {
    "link set dev one txqueuelen 500": "IFLA_TXQLEN",
    "link set dev one alias uplink": "IFLA_IFALIAS",
    "address add 192.0.2.12/24 broadcast + dev one": "IFA_BROADCAST behind IFA_ADDRESS",
    "route add 10.15.0.0/16 via inet6 2001:db8::fe dev one": "RTA_VIA",
    "route add 2001:db8:17::/48 via 2001:db8::fe pref high": "RTA_PREF",
    "route add 2001:db8:18::/48 dev one expires 600": "RTA_EXPIRES",
    FROM_ALL: "an empty FRA_SRC",
    "rule add uidrange 1000-2000 table 100 priority 112": "FRA_UID_RANGE",
    "rule add ipproto tcp dport 80-90 table 100 priority 113": "FRA_IP_PROTO, FRA_DPORT_RANGE",
    "rule add l3mdev priority 114": "FRA_L3MDEV",
}
REQUESTS = {**LINKS, **ADDRESSES, **ROUTES, **NEIGHBOURS, **RULES}


def cases(program: str) -> Iterator[Tuple[str, List[str]]]:
    with open(f"{HERE}/ip_sends.txt", encoding="utf-8") as file:
        rows = dict(row.split("\t") for row in file.read().splitlines()[1:])
    yield "the commands", sorted(set(rows) ^ {*REQUESTS, *WITHOUT})
    lines = [*REQUESTS.values(), SUPPRESSED]
    ran = subprocess.run([program], input="".join(f"{it}\n" for it in lines),
                         stdout=subprocess.PIPE, text=True, check=True)
    *put, suppressed = ran.stdout.splitlines()
    for command, found in zip(REQUESTS, put):
        sent = rows.get(command, "")
        yield command, [] if found == sent else [f"ip sends {sent}, put is {found}"]
    sent = bytes.fromhex(rows[FROM_ALL])
    sent = bytes([sent[0] - 4]) + sent[1:28] + sent[32:]
    yield f"{FROM_ALL}, without it", [] if suppressed == sent.hex() else [f"put is {suppressed}"]


def main(words: List[str]) -> int:
    if len(words) != 1:
        print("usage: tests/building/requests_as_ip.py PUT_REQUEST", file=sys.stderr)
        return 2
    return counted(cases(words[0]))


if __name__ == "__main__":
    sys.exit(main(sys.argv[1:]))
