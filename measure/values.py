#!/usr/bin/env python3
"""Counts the attributes that rtnl shows a value of, in the JSON of recordings.

  measure/values.py [--missing FILE] RECORDING..

Each attribute counts that holds no others: once by its kind, which is the type of its message, the
path of numbers to it and what chose its set, and by each time it occurs. Messages with the same
payload count once. It has a value where its payload is shown otherwise than as hexadecimal digits,
or where there is no payload. FILE gets a line for each kind that has none.
"""
import argparse
import collections
import json
import os
import subprocess
import sys
from typing import Any, Dict, Iterator, List, Tuple

ROOT = os.path.dirname(os.path.dirname(os.path.realpath(__file__)))
# The bodies that have attributes, and where the kind is said that chooses the set inside.
BODIES = ("link", "addr", "route", "neigh", "rule", "data", "error", "done")
CHOOSERS = {"DATA": "KIND", "SLAVE_DATA": "SLAVE_KIND", "XSTATS": "KIND", "ENCAP": "ENCAP_TYPE",
            "OPTIONS": "KIND", "STATS": "KIND", "APP": "KIND"}
Kind = Tuple[str, ...]
Leaf = Tuple[Kind, bool]


def is_attribute(it: Any) -> bool:
    return isinstance(it, dict) and "number" in it and bool({"data", "items", "value"} & set(it))


def said(it: Dict[str, Any]) -> Any:
    return it.get("data", it.get("items", it.get("value")))


def has_value(it: Dict[str, Any]) -> bool:
    """Whether a payload is shown as what it means, in all its parts."""
    if "data" in it or it.get("form", "hex") != "hex":
        return True
    return it["value"] == ""


def leaves(attrs: List[Any], path: Kind) -> Iterator[Leaf]:
    """The attributes that hold no others, each with its kind."""
    beside = {it["name"]: said(it) for it in attrs if is_attribute(it)}
    for it in attrs:
        if "attrs" in it and not is_attribute(it):
            yield from leaves(it["attrs"], (*path, "hop"))
            continue
        chosen = beside.get(CHOOSERS.get(it["name"], ""), "")
        name = f"{it['number']} {it['name']}" + (f" of {plain(chosen)}" if chosen else "")
        yield from inside(it, (*path, name))


def plain(chosen: Any) -> str:
    return str(chosen["name"] if isinstance(chosen, dict) else chosen)


def inside(it: Dict[str, Any], path: Kind) -> Iterator[Leaf]:
    """The attributes in one, or itself. What stands behind the fields of a struct counts too."""
    held = said(it)
    if isinstance(held, dict) and "attrs" in held:
        yield from leaves(held["attrs"], path)
        held = {name: part for name, part in held.items() if name != "attrs"}
    if isinstance(held, list) and held and all(is_attribute(at) or "attrs" in at
                                               for at in held if isinstance(at, dict)) \
            and isinstance(held[0], dict) and (is_attribute(held[0]) or "attrs" in held[0]):
        yield from leaves(held, path)
    else:
        yield path, has_value(it)


def message_leaves(message: Dict[str, Any]) -> Iterator[Leaf]:
    """The attributes of a message, or its whole payload where that isn't read."""
    kind = (message.get("kind") or message["type"],)
    body = next((message[it] for it in BODIES if it in message), None)
    if isinstance(body, dict) and "attrs" in body:
        family = ("of a bridge",) if "link" in message and body["family"] == 7 else ()
        yield from leaves(body["attrs"], (*kind, *family))
    elif isinstance(body, dict) and "data" in body:
        yield from leaves(body["data"], kind)
    elif "bytes" in message and message["bytes"]:
        yield (*kind, f"type {message['message']}"), False


def messages(path: str) -> Iterator[Dict[str, Any]]:
    command = [f"{ROOT}/rtnl", "show", "--format", "json", path]
    with subprocess.Popen(command, stdout=subprocess.PIPE, text=True) as program:
        for line in program.stdout or ():
            yield from json.loads(line).get("messages", [])


def main() -> None:
    parser = argparse.ArgumentParser(description=__doc__.partition("\n")[0])
    parser.add_argument("--missing", metavar="FILE")
    parser.add_argument("recordings", nargs="+", metavar="RECORDING")
    given = parser.parse_args()
    seen = set()
    shown: Dict[Kind, List[int]] = collections.defaultdict(lambda: [0, 0])
    for message in (it for path in given.recordings for it in messages(path)):
        payload = json.dumps({name: part for name, part in message.items()
                              if name not in ("seq", "port", "flags", "flag_names")})
        if payload not in seen:
            seen.add(payload)
            for kind, value in message_leaves(message):
                shown[kind][value] += 1
    kinds = [kind for kind, (without, _) in shown.items() if not without]
    counts = [sum(it[at] for it in shown.values()) for at in (0, 1)]
    print(f"{len(seen)} messages")
    share = 100 * len(kinds) / len(shown)
    print(f"kinds with a value: {len(kinds)} of {len(shown)}, {share:.1f} %")
    print(f"occurrences: {counts[1]} of {sum(counts)}, {100 * counts[1] / sum(counts):.1f} %")
    if given.missing:
        with open(given.missing, "w", encoding="utf-8") as file:
            for kind, (without, value) in sorted(shown.items()):
                if without:
                    file.write(f"{' / '.join(kind)}: {without} without, {value} with\n")


if __name__ == "__main__":
    sys.exit(main())
