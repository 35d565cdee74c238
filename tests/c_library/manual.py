#!/usr/bin/env python3
"""Compares the manual page of the library for C, or a file that is named, with the header: the
declarations of all calls, the fields of all structs and what each code is. Differences are
printed, and the status is 1 where there are some. With --example the program under EXAMPLES is
printed instead, behind the headers that it includes.
"""
import os
import re
import sys
from typing import List, Set

ROOT = f"{os.path.dirname(os.path.realpath(__file__))}/../.."
PAGE, HEADER = "share/man/man3/rtnlc.3", "include/rtnlc.h"
COMMENT = re.compile(r"/\*.*?\*/", re.S)
MACRO = re.compile(r"^\s*#.*$|\bRTNLC_(READS|WRITES)\([^()]*\)", re.M)
DECLARED = re.compile(r"([\w ]+\b[ *]*)\b(rtnlc_\w+)\(([^()]*)\);")
STRUCT = re.compile(r"^struct rtnlc_\w+ \{.*?^\};", re.M | re.S)
CODE = re.compile(r"^\t(RTNLC_\w+) = \d+,?(?:\s+/\* (.*?) \*/)?$", re.M | re.S)
# Of the page: a type with the call behind it, and a code with its text.
CALL = re.compile(r"^\.Ft (.*)\n\.F[no] (\w+)((?: .*|\n\.Fa .*)*)", re.M)
SHOWN = re.compile(r"^\.It Dv (\w+)\n((?:[^.].*\n)*)", re.M)
INCLUDED = ["linux/rtnetlink.h", "rtnlc.h", "stdio.h", "sys/socket.h"]


def text_of(path: str) -> str:
    with open(path, encoding="utf-8") as text:
        return text.read()


def plain(text: str) -> str:
    """A piece of C with one blank between words, and none around signs."""
    return re.sub(r" ?([^\w ]) ?", r"\1", " ".join(text.split()))


def of_header(header: str) -> Set[str]:
    """What the header says: declarations, structs and codes, one in each line."""
    code = MACRO.sub("", COMMENT.sub("", header))
    found = {plain(it[0]) for it in DECLARED.finditer(code)}
    found |= {plain(it) for it in STRUCT.findall(code)}
    enum = re.search(r"^enum rtnlc_code \{(.*?)^\};", header, re.M | re.S)
    for name, lines in CODE.findall(enum[1] if enum else ""):
        says = re.sub(r"\n\s*\*", " ", lines)
        found.add(f"{name}: {' '.join(says.split()).lower()}" if says else name)
    return found


def displays(page: str) -> List[str]:
    """The displays of the page, as they are printed."""
    found = re.findall(r"^\.Bd .*?\n(.*?)^\.Ed", page, re.M | re.S)
    return [it.replace("\\e", "\\") for it in found]


def of_page(page: str) -> Set[str]:
    """What the page says of the same."""
    found = set()
    for kind, call, whole in CALL.findall(page):
        words = re.findall(r'"([^"]*)"|(?<=[ ])(\w+)$', whole, re.M)
        found.add(plain(f"{kind.strip(chr(34))} {call}({', '.join(a or b for a, b in words)});"))
    for display in displays(page):
        found |= {plain(it) for it in STRUCT.findall(display)}
    codes = re.search(r"^\.Sh RETURN VALUES\n(.*?)^\.Sh ", page, re.M | re.S)
    for name, says in SHOWN.findall(codes[1] if codes else ""):
        found.add(name if name == "RTNLC_OK" else f"{name}: {' '.join(says.split()).lower()[:-1]}")
    return found


def main() -> int:
    words = sys.argv[1:]
    page = text_of(words[-1] if words and words[-1] != "--example" else f"{ROOT}/{PAGE}")
    if words[:1] == ["--example"]:
        print(*(f"#include <{it}>" for it in INCLUDED), displays(page)[-1], sep="\n", end="")
        return 0
    declared, shown = of_header(text_of(f"{ROOT}/{HEADER}")), of_page(page)
    for line in sorted(declared - shown):
        print(f"not on the page: {line}")
    for line in sorted(shown - declared):
        print(f"not in the header: {line}")
    return 1 if declared != shown or len(declared) < 60 else 0


if __name__ == "__main__":
    sys.exit(main())
