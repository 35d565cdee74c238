#!/usr/bin/env python3
"""What ip(8) sends for each of the commands below: strace records it in a network namespace of its
own, where `one` has the index 10 and `other` 11.

  tests/building/ip_sends.py          compares it with ip_sends.txt
  tests/building/ip_sends.py --write  writes ip_sends.txt

A line of the file is a command, a tab, and the last request that ip sends for it, in hexadecimal,
its sequence number 0. Other versions of iproute2 may send more: then nothing is compared, and a
line says so. The last line is 'N passed, M failed'; the status is 1 where a case failed.
"""
import os
import subprocess
import sys
import tempfile
from typing import Dict, Iterator, List, Tuple

sys.dont_write_bytecode = True
HERE = os.path.dirname(os.path.realpath(__file__))
ROOT = f"{HERE}/../.."
sys.path[:0] = [HERE, f"{HERE}/../helpers"]
from counting import counted
from namespace import entered

TABLE = f"{HERE}/ip_sends.txt"
STRACE = "strace -f -e trace=network -e read=all -e write=all".split()
MADE = """link set lo up
link add name one index 10 type veth peer name other index 11
link set one up
link set other up
address add 192.0.2.1/24 dev one
address add 198.51.100.1/24 dev other
address add 2001:db8::1/64 dev one nodad
address add 2001:db8:1::1/64 dev other nodad"""
# What the kernel here refuses is sent all the same.
COMMANDS = """link set dev one up
link set dev one down
link set dev one mtu 1400
link set dev one up mtu 1400
link set dev one down name three
link set dev one address 02:00:00:00:00:01
link set dev one txqueuelen 500
link set dev one master other
link set dev one nomaster
link set dev one alias uplink
link add dummy0 type dummy
link add name dummy1 mtu 1400 type dummy
link add name dummy2 up type dummy
link add name bridge0 type bridge
link add link one name one.5 type vlan id 5
link add name one10 type veth peer name other11
link add name vrf0 type vrf table 1000
link delete dev one
link delete one type veth
address add 192.0.2.10/24 dev one
address add 192.0.2.11/24 broadcast 192.0.2.255 dev one
address add 192.0.2.12/24 broadcast + dev one
address add 192.0.2.13 peer 203.0.113.1/32 dev one
address add 192.0.2.14/24 dev one label one:14
address add 192.0.2.15/24 dev one scope link
address add 192.0.2.16/24 dev one valid_lft 3600 preferred_lft 1800
address add 192.0.2.17/24 dev one noprefixroute
address add 127.0.0.2/8 dev lo
address add 2001:db8::10/64 dev one
address add 2001:db8::11/64 dev one nodad
address add 2001:db8::12 peer 2001:db8:2::1/128 dev one
address replace 192.0.2.10/24 dev one
address change 192.0.2.10/24 dev one valid_lft 60 preferred_lft 30
address delete 192.0.2.10/24 dev one
address delete 2001:db8::10/64 dev one
route add 10.1.0.0/16 via 192.0.2.254
route add 10.2.0.0/16 via 192.0.2.254 dev one
route add 10.3.0.0/16 dev one
route add default via 192.0.2.254
route add default dev one metric 50
route add 10.4.0.0/16 via 192.0.2.254 src 192.0.2.1 metric 100
route add 10.5.0.0/16 via 192.0.2.254 table 100
route add 10.6.0.0/16 via 192.0.2.254 table 1000
route add 10.7.0.0/16 via 192.0.2.254 mtu 1400 advmss 1360
route add 10.8.0.0/16 via 192.0.2.254 mtu lock 1400
route add 10.9.0.0/16 nexthop via 192.0.2.254 weight 1 nexthop via 198.51.100.254 weight 10
route add 10.10.0.0/16 nexthop via 192.0.2.254 dev one weight 2 nexthop dev other weight 256
route add 10.11.0.0/16 via 192.0.2.254 dev one onlink
route add 10.12.0.0/16 via 192.0.2.254 proto static
route add 10.13.0.0/16 dev one scope link
route add 10.14.0.0/16 tos 0x10 via 192.0.2.254
route add 10.15.0.0/16 via inet6 2001:db8::fe dev one
route add blackhole 10.16.0.0/16
route add unreachable 10.17.0.0/16 metric 200
route add prohibit 10.18.0.0/16 table 4294967294
route add local 10.19.0.0/16 dev lo
route add 10.20.0.1 via 192.0.2.254
route replace 10.1.0.0/16 via 192.0.2.253
route append 10.1.0.0/16 via 192.0.2.252
route change 10.1.0.0/16 via 192.0.2.251
route prepend 10.1.0.0/16 via 192.0.2.250
route delete 10.1.0.0/16
route delete 10.6.0.0/16 table 1000
route delete 10.4.0.0/16 via 192.0.2.254 metric 100
route add 2001:db8:10::/48 via 2001:db8::fe
route add 2001:db8:11::/48 via 2001:db8::fe dev one metric 100 table 1000
route add 2001:db8:12::/48 nexthop via 2001:db8::fe weight 1 nexthop via 2001:db8:1::fe weight 5
route add 2001:db8:13::/48 dev one mtu 1400 hoplimit 20
route add 2001:db8:14::/48 from 2001:db8:15::/48 via 2001:db8::fe
route add unreachable 2001:db8:16::/48
route add 2001:db8:17::/48 via 2001:db8::fe pref high
route add 2001:db8:18::/48 dev one expires 600
route delete 2001:db8:10::/48
neighbour add 192.0.2.20 lladdr 02:00:00:00:00:20 dev one
neighbour add 192.0.2.21 lladdr 02:00:00:00:00:21 dev one nud permanent
neighbour add 192.0.2.22 lladdr 02:00:00:00:00:22 dev one nud reachable
neighbour add proxy 192.0.2.23 dev one
neighbour add 2001:db8::20 lladdr 02:00:00:00:00:20 dev one router
neighbour replace 192.0.2.20 lladdr 02:00:00:00:00:24 dev one nud stale
neighbour change 192.0.2.20 lladdr 02:00:00:00:00:25 dev one
neighbour delete 192.0.2.20 dev one
neighbour delete 192.0.2.20 lladdr 02:00:00:00:00:25 dev one
neighbour delete proxy 192.0.2.23 dev one
rule add from 192.0.2.0/24 table 100
rule add from 192.0.2.0/24 to 198.51.100.0/24 table 1000 priority 100
rule add to 198.51.100.0/24 table 100 priority 101
rule add fwmark 0x10 table 100 priority 102
rule add fwmark 0x10/0xff table 1000 priority 103
rule add iif one table 100 priority 104
rule add oif other table main priority 105
rule add not from 192.0.2.0/24 table 100 priority 106
rule add from 203.0.113.0/24 blackhole priority 107
rule add from 203.0.113.0/24 unreachable priority 108
rule add tos 0x10 table 100 priority 109
rule add from 203.0.113.0/24 goto 200 priority 110
-6 rule add from all table main suppress_prefixlength 0 priority 111
rule add uidrange 1000-2000 table 100 priority 112
rule add ipproto tcp dport 80-90 table 100 priority 113
rule add l3mdev priority 114
-6 rule add from 2001:db8::/32 table 100 priority 100
-6 rule add from 2001:db8::/32 fwmark 0x10/0xff table 1000 priority 101
rule delete priority 100
rule delete from 192.0.2.0/24 table 100
rule delete fwmark 0x10/0xff table 1000 priority 103
-6 rule delete from 2001:db8::/32 table 100 priority 100""".splitlines()


def version() -> str:
    ran = subprocess.run(["ip", "-V"], capture_output=True, text=True, check=True)
    return ran.stdout.split(",")[1].strip()


def ip(*words: str) -> None:
    subprocess.run(["ip", *words], check=True)


def without_seq(datagram: bytes) -> str:
    return (datagram[:8] + bytes(4) + datagram[12:]).hex()


def last_request(command: str) -> str:
    """The last datagram that ip sends for a command; those in front ask for what it needs."""
    with tempfile.NamedTemporaryFile() as trace:
        subprocess.run([*STRACE, "-o", trace.name, "ip", *command.split()],
                       stderr=subprocess.DEVNULL, stdout=subprocess.DEVNULL, check=False)
        lines = subprocess.run([f"{ROOT}/rtnl-record", "strace", trace.name],
                               capture_output=True, text=True, check=True).stdout.splitlines()
    said = [it for it in lines if not it.startswith("# cut")]
    sent = [data for note, data in zip(said, said[1:]) if note == "# sent"]
    return without_seq(bytes.fromhex(sent[-1]))


def found() -> Iterator[Tuple[str, str]]:
    """Each command with what ip sends, in the links that are made for it."""
    for line in MADE.splitlines():
        ip(*line.split())
    for command in COMMANDS:
        request = last_request(command)
        yield command, request
        # The links stay as they are.
        if command.startswith("link"):
            subprocess.run(["ip", "link", "set", "three", "name", "one"], check=False,
                           stderr=subprocess.DEVNULL)
            if command.startswith("link delete"):
                ip(*MADE.splitlines()[1].split())
            for name in ("one", "other"):
                ip("link", "set", name, "up", "mtu", "1500")


def kept() -> Tuple[str, Dict[str, str]]:
    """The version of ip in the file, and its rows."""
    with open(TABLE, encoding="utf-8") as file:
        front, *rows = file.read().splitlines()
    return front.removeprefix("# "), dict(row.split("\t") for row in rows)


def write() -> int:
    with open(TABLE, "w", encoding="utf-8") as file:
        print(f"# {version()}", file=file)
        for command, request in found():
            print(command, request, sep="\t", file=file)
    return 0


def cases() -> Iterator[Tuple[str, List[str]]]:
    theirs, rows = kept()
    if theirs != version():
        print(f"skipped: what ip sends, since it is {version()}, and the rows are of {theirs}")
        return
    yield "the commands", [] if list(rows) == COMMANDS else ["the file has others"]
    for command, request in found():
        wanted = rows.get(command, "")
        yield command, [] if request == wanted else [f"expected {wanted}, found {request}"]


def main(words: List[str]) -> int:
    if words not in ([], ["--write"]):
        print(__doc__, file=sys.stderr)
        return 2
    if not entered(__file__, words, "what ip sends"):
        return counted([])
    return write() if words else counted(cases())


if __name__ == "__main__":
    sys.exit(main(sys.argv[1:]))
