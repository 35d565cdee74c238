#!/usr/bin/env python3
"""Compares what the module of jq says of the recordings in examples/rich/6.1 with what ip said.

  as_ip.py FOLDER <LINES

Lines are what as_ip.jq makes of the recordings: an array of a name of a file in FOLDER, without its
.jsonl, and an object for each of its lines. Those are of `ip -d -s -j` on that machine. Each value
of ip is compared with the one of the same name, where there is one: a name of ip stands for ours
where OTHER has it. A number and the name of it are the same, whatever its letters, and so are true
and 1. The last line counts what was compared.
"""
import collections
import json
import re
import sys
from typing import Any, Counter, Dict, Iterator, List, Tuple

# Names of ip, where the kernel's differ.
OTHER = {"remote": "group", "hairpin": "mode", "root_block": "protect", "fastleave": "fast_leave",
         "flood": "unicast_flood", "mcast_to_unicast": "mcast_to_ucast", "prefix": "6rd_prefix",
         "bcqueuelen": "bc_queue_len", "usedbcqueuelen": "bc_queue_len_used",
         "peer_notify_delay": "peer_notif_delay"}
# What ages, and what only ip has words for.
LEFT_OUT = re.compile(r"timer|topology_change|^ageing_time$|^ad_lacp_active$|^proto$|^[io]key$")


def plain(value: Any) -> str:
    """A value as the letters and digits that it is told apart by."""
    if isinstance(value, dict) and set(value) == {"prio", "addr"}:
        value = f"{value['prio']:04x}.{value['addr']}"
    if isinstance(value, bool):
        value = int(value)
    if isinstance(value, str) and re.fullmatch(r"0x[0-9a-f]+", value):
        value = int(value, 16)
    text = str(value).lower()
    return "0" if text in ("any", "0.0.0.0", "::") else re.sub(r"[^0-9a-z]", "", text)


def is_same(theirs: Any, ours: Any) -> bool:
    said = [ours["name"], ours["number"]] if isinstance(ours, dict) and "name" in ours else [ours]
    return plain(theirs) in map(plain, said)


def pairs(theirs: Dict[str, Any], ours: Dict[str, Any]) -> Iterator[Tuple[str, Any, Any]]:
    """The values of ip, each with its name and ours."""
    names = {name.lower(): value for name, value in ours.items()}
    for name, value in theirs.items():
        mine = next((names[it] for it in (name, OTHER.get(name, "")) if it in names), None)
        if LEFT_OUT.search(name) or mine is None:
            continue
        if isinstance(value, dict) and isinstance(mine, dict) and "number" not in mine:
            yield from ((f"{name}.{it[0]}", *it[1:]) for it in pairs(value, mine))
        elif not isinstance(value, (dict, list)) and value is not None:
            yield name, value, mine


def main() -> int:
    ours: Dict[str, List[Dict[str, Any]]] = collections.defaultdict(list)
    for line in sys.stdin:
        name, it = json.loads(line)
        ours[name].append(it)
    counts: Counter[str] = collections.Counter()
    wrong = 0
    for name, mine in ours.items():
        with open(f"{sys.argv[1]}/{name}.jsonl", encoding="utf-8") as file:
            theirs = [json.loads(line) for line in file]
        if name == "addrs":
            mine.sort(key=lambda it: (it["dev"], it["local"]))
        wrong += len(theirs) != len(mine)
        for at, (one, other) in enumerate(zip(theirs, mine)):
            for key, value, found in pairs(one, other):
                counts[name] += 1
                if not is_same(value, found):
                    wrong += 1
                    print(f"{name} {at + 1}: {key} is {value}, not {found}")
    print(", ".join(f"{count} of {name}" for name, count in counts.items()))
    return int(wrong > 0)


if __name__ == "__main__":
    sys.exit(main())
