"""The groups of notifications of rtnetlink, by their names in linux/rtnetlink.h."""
from typing import Dict, List, Tuple

# RTNLGRP_ and a name, from number 1 on.
NAMES: Tuple[str, ...] = tuple("""
link notify neigh tc ipv4_ifaddr ipv4_mroute ipv4_route ipv4_rule ipv6_ifaddr ipv6_mroute
ipv6_route ipv6_ifinfo decnet_ifaddr nop2 decnet_route decnet_rule nop4 ipv6_prefix ipv6_rule
nd_useropt phonet_ifaddr phonet_route dcb ipv4_netconf ipv6_netconf mdb mpls_route nsid
mpls_netconf ipv4_mroute_r ipv6_mroute_r nexthop brvlan mctp_ifaddr tunnel stats ipv4_mcaddr
ipv6_mcaddr ipv6_acaddr
""".split())
NUMBERS: Dict[str, int] = {name: number for number, name in enumerate(NAMES, 1)}
# Words for more than one group, and for kinds of dumps; those of ip-monitor and of bridge(8), where
# a group has no such name.
ALL = "all"
WORDS: Dict[str, Tuple[str, ...]] = {
    ALL: NAMES,
    "address": ("ipv4_ifaddr", "ipv6_ifaddr"),
    "route": ("ipv4_route", "ipv6_route", "mpls_route"),
    "rule": ("ipv4_rule", "ipv6_rule"),
    "netconf": ("ipv4_netconf", "ipv6_netconf", "mpls_netconf"),
    "qdisc": ("tc",),
    "class": ("tc",),
    "filter": ("tc",),
    "vlan": ("brvlan",),
    "fdb": ("neigh",),
}


def named(words: List[str]) -> List[str]:
    """The groups of these words, each once."""
    found = [name for word in words for name in WORDS.get(word, (word,))]
    return sorted(set(found), key=NUMBERS.__getitem__)
