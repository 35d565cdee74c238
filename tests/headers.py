#!/usr/bin/env python3
"""Compares names and numbers with the kernel's headers, by the C compiler: those of attributes in
crates/*/specs and what else they have of the headers, of message types, the fields of the structs
that `show --bytes` names, with their places and sizes, and all groups of notifications, in
record/groups.py. What these headers do not have yet is counted, and no failure. The last line is
'N passed, M failed', and the status is 1 where one differs.
"""
import os
import re
import subprocess
import sys
from typing import Iterator, List, NamedTuple, Optional, Sequence, Tuple

sys.dont_write_bytecode = True
TESTS = os.path.dirname(os.path.realpath(__file__))
sys.path[:0] = [f"{TESTS}/../record", f"{TESTS}/helpers"]
import groups
import reference
from counting import counted

ROOT = os.path.dirname(TESTS)
HEADERS = ("netlink", "rtnetlink", "if_link", "if_addr", "neighbour", "fib_rules")
INCLUDES = ["#include <stddef.h>", "#include <sys/socket.h>"]
INCLUDES += [f"#include <linux/{name}.h>" for name in HEADERS]
# What else of the headers stands in specs/ as a number.
FIXED = {
    "NUMBERS": "(NLA_TYPE_MASK & 0xffff) + 1",
    "NLA_F_NESTED": "NLA_F_NESTED",
    "NLA_F_NET_BYTEORDER": "NLA_F_NET_BYTEORDER",
    "AF_BRIDGE": "AF_BRIDGE",
    "IDENTIFYING_FLAGS": "(NTF_SELF | NTF_MASTER | NTF_PROXY)",
}
STRUCTS = "nlmsghdr rtnexthop ifinfomsg ifaddrmsg rtmsg ndmsg fib_rule_hdr".split()
FIELD = re.compile(r'\("(\w+)", (\d), ')


class Attribute(NamedTuple):
    """An attribute with a name, and the style of its payload, if printed text has the name."""

    context: str
    number: int
    name: str
    style: Optional[str]


def attributes() -> Iterator[Attribute]:
    """Each attribute that has a name."""
    others = reference.tables("Further")
    for context in reference.PREFIXES:
        for number, (name, style) in reference.ATTRIBUTES[context].items():
            yield Attribute(context, number, name, style)
        for number, name, _ in others.get(f"further_{context}", []):
            yield Attribute(context, number, name, None)


def numbered() -> Iterator[Tuple[str, str, str]]:
    """The name of each attribute, what it is in the headers, and that they are older than it."""
    for it in attributes():
        prefix = reference.PREFIXES[it.context]
        name = f"{prefix}{it.name}"
        yield name, f"{name} == {it.number}", f"__{prefix}MAX <= {it.number}"


def structs() -> Iterator[Tuple[str, str, str]]:
    """The name of each field of each struct, and where it is in the headers."""
    text = open(f"{ROOT}/crates/rtnl/src/bytes/structs.rt", encoding="utf-8").read()
    for name in STRUCTS:
        body = re.search(rf"\b{name}\b(?:\(names.*?\{{|\W*: .*?=)(.*?)\n(?:\];|\}})", text, re.S | re.I)
        if body is None:
            yield f"struct {name}", "0", "0"
            continue
        place = 0
        for field, size in FIELD.findall(body[1]):
            at = f"offsetof(struct {name}, {field}) == {place}"
            yield f"{name}.{field}", f"{at} && sizeof(((struct {name} *)0)->{field}) == {size}", "0"
            place += int(size)
        yield f"struct {name}", f"sizeof(struct {name}) == {place}", "0"


def notified() -> Iterator[Tuple[str, str, str]]:
    """The name of each group of notifications, and that there are no more than those."""
    for name, number in groups.NUMBERS.items():
        group = f"RTNLGRP_{name.upper().replace('DECNET', 'DECnet')}"
        yield group, f"{group} == {number}", f"__RTNLGRP_MAX <= {number}"
    yield "RTNLGRP_MAX", f"RTNLGRP_MAX <= {len(groups.NAMES)}", "0"


def refused(
    says: List[str], includes: Sequence[str] = INCLUDES, options: Sequence[str] = ()
) -> List[int]:
    """Which of these the compiler does not find so."""
    front = len(includes) + 1
    lines = [*includes, *(f'_Static_assert({it}, "");' for it in says)]
    ran = subprocess.run(
        ["cc", *options, "-x", "c", "-fsyntax-only", "-fmax-errors=0", "-"],
        input="\n".join(lines) + "\n", capture_output=True, text=True, check=False)
    found = {int(line) - front for line in re.findall(r"<stdin>:(\d+):\d+: error: ", ran.stderr)}
    if ran.returncode and not found or any(it < 0 for it in found):
        sys.exit(ran.stderr[-2000:])
    return sorted(found)


def main() -> int:
    types = reference.TYPES.items()
    cases = [*numbered(), *((name, f"{name} == {number}", "0") for number, name in types)]
    cases += ((name, f"{says} == {reference.FIXED[name]}", "0") for name, says in FIXED.items())
    cases += [*structs(), *notified()]
    others = [cases[at] for at in refused([holds for _, holds, _ in cases])]
    wrong = [others[at][0] for at in refused([is_newer for _, _, is_newer in others])]
    print("newer than these headers:", *(name for name, _, _ in others if name not in wrong))
    return counted((name, ["not so there"] if name in wrong else []) for name, *_ in cases)


if __name__ == "__main__":
    sys.exit(main())
