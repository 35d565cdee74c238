"""Requests as calls of the builder for C, in the names of the kernel's headers: lines that put.c
reads, and the datagrams that it builds of them."""
import socket
import struct
import subprocess
from typing import List, Sequence

Calls = List[str]

REQUEST, ACK, REPLACE, EXCL, CREATE, APPEND = 1, 4, 0x100, 0x200, 0x400, 0x800
SET = REQUEST | ACK
ADD = SET | CREATE | EXCL
INET, INET6 = socket.AF_INET, socket.AF_INET6
NESTED = 0x8000

NEWLINK, DELLINK, NEWADDR, DELADDR, NEWROUTE, DELROUTE = 16, 17, 20, 21, 24, 25
NEWNEIGH, DELNEIGH, NEWRULE, DELRULE = 28, 29, 32, 33

IFLA_ADDRESS, IFLA_IFNAME, IFLA_MTU, IFLA_LINK, IFLA_MASTER, IFLA_TXQLEN = 1, 3, 4, 5, 10, 13
IFLA_LINKINFO, IFLA_IFALIAS, IFLA_INFO_KIND, IFLA_INFO_DATA = 18, 20, 1, 2
IFLA_VLAN_ID, IFLA_VRF_TABLE, VETH_INFO_PEER = 1, 1, 1
IFA_ADDRESS, IFA_LOCAL, IFA_LABEL, IFA_BROADCAST, IFA_CACHEINFO, IFA_FLAGS = 1, 2, 3, 4, 6, 8
RTA_DST, RTA_SRC, RTA_OIF, RTA_GATEWAY, RTA_PRIORITY, RTA_PREFSRC = 1, 2, 4, 5, 6, 7
RTA_METRICS, RTA_MULTIPATH, RTA_TABLE, RTA_VIA, RTA_PREF, RTA_EXPIRES = 8, 9, 15, 18, 20, 23
RTAX_LOCK, RTAX_MTU, RTAX_ADVMSS, RTAX_HOPLIMIT = 1, 2, 8, 10
NDA_DST, NDA_LLADDR = 1, 2
FRA_DST, FRA_SRC, FRA_IIFNAME, FRA_GOTO, FRA_PRIORITY, FRA_FWMARK = 1, 2, 3, 4, 6, 10
FRA_SUPPRESS_PREFIXLEN, FRA_TABLE, FRA_FWMASK, FRA_OIFNAME, FRA_L3MDEV = 14, 15, 16, 17, 19
FRA_UID_RANGE, FRA_IP_PROTO, FRA_DPORT_RANGE = 20, 22, 24


def u8(kind: int, value: int) -> Calls:
    return [f"u8 {kind} {value}"]


def u32(kind: int, value: int) -> Calls:
    return [f"u32 {kind} {value}"]


def text(kind: int, word: str) -> Calls:
    return [f"text {kind} {word}"]


def raw(kind: int, data: bytes) -> Calls:
    return [f"put {kind} {data.hex() or '-'}"]


def address(kind: int, words: str) -> Calls:
    """An address of IPv4 or IPv6, or one of a link."""
    if words.count(":") == 5 and len(words) == 17:
        return raw(kind, bytes.fromhex(words.replace(":", "")))
    return raw(kind, socket.inet_pton(INET6 if ":" in words else INET, words))


def nested(kind: int, *inner: Calls) -> Calls:
    return [f"open {kind}", *(line for part in inner for line in part), "close"]


def hop(index: int, weight: int, *inner: Calls, flags: int = 0) -> Calls:
    inside = (line for part in inner for line in part)
    return [f"hop {flags} {weight - 1} {index}", *inside, "close"]


def message(kind: int, flags: int, head: bytes, parts: Sequence[Calls], seq: int = 0) -> Calls:
    inside = (line for part in parts for line in part)
    return [f"begin {kind} {flags} {seq} 0 {head.hex()}", *inside, "end"]


def link(kind: int, flags: int, *parts: Calls, index: int = 0, state: int = 0,
         change: int = 0) -> Calls:
    """RTM_NEWLINK or RTM_DELLINK; `state` and `change` are ifi_flags and ifi_change."""
    return message(kind, flags, struct.pack("<BxHiII", 0, 0, index, state, change), parts)


def addr(kind: int, flags: int, *parts: Calls, length: int, index: int, family: int = INET,
         state: int = 0, scope: int = 0) -> Calls:
    return message(kind, flags, struct.pack("<BBBBI", family, length, state, scope, index), parts)


def route(kind: int, flags: int, *parts: Calls, family: int = INET, length: int = 0,
          source: int = 0, tos: int = 0, table: int = 254, protocol: int = 3, scope: int = 0,
          sort: int = 1, state: int = 0) -> Calls:
    head = struct.pack("<BBBBBBBBI", family, length, source, tos, table, protocol, scope, sort,
                       state)
    return message(kind, flags, head, parts)


def neigh(kind: int, flags: int, *parts: Calls, index: int, family: int = INET,
          state: int = 0x80, marks: int = 0) -> Calls:
    return message(kind, flags, struct.pack("<BxxxiHBB", family, index, state, marks, 0), parts)


def rule(kind: int, flags: int, *parts: Calls, family: int = INET, to: int = 0, source: int = 0,
         tos: int = 0, table: int = 0, action: int = 1, state: int = 0) -> Calls:
    head = struct.pack("<BBBBBxxBI", family, to, source, tos, table, action, state)
    return message(kind, flags, head, parts)


def built(program: str, requests: Sequence[Calls], *words: str) -> List[str]:
    """What put.c builds of each: hexadecimal digits, or `refused` and why."""
    lines = "".join("".join(f"{line}\n" for line in it) + "finish\n" for it in requests)
    ran = subprocess.run([program, *words], input=lines, stdout=subprocess.PIPE, text=True,
                         check=True)
    return ran.stdout.splitlines()
