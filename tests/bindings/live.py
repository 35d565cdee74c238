#!/usr/bin/env python3
"""Runs the programs `links`, `routes`, `watch`, `link_up` and `route_add` of each language, over a
kernel that is played from the recordings of examples/, and over the kernel itself in a network
namespace of its own, where the machine allows one: there `ip -j` says what is to be printed, and
what has changed.

  tests/bindings/live.py NAME LINKS ROUTES WATCH LINK_UP ROUTE_ADD [NAME ..]..

NAME is a language, and behind it stand the commands of its programs, each the words of a shell.
The last line is 'N passed, M failed'; the status is 1 where a case failed, 2 where this is called
wrongly.
"""
import os
import shlex
import subprocess
import sys
from typing import Dict, Iterator, List, Tuple

sys.dont_write_bytecode = True
HERE = os.path.dirname(os.path.realpath(__file__))
sys.path[:0] = [HERE, f"{HERE}/../helpers"]
import changing
import in_kernel
import played
from counting import counted
from kernel import Command
from played import Case

PROGRAMS = "links", "routes", "watch", "link_up", "route_add"
WORDS = 1 + len(PROGRAMS)
# In the environment of a run that is in its own namespace.
INSIDE = "RTNL_IN_NAMESPACE"


def all_cases(languages: List[Tuple[str, Dict[str, Command]]]) -> Iterator[Case]:
    kernel = os.environ.get(INSIDE) == "1" and in_kernel.Kernel()
    for name, commands in languages:
        cases = [played.cases(commands), changing.played_cases(commands)]
        if kernel:
            cases += [kernel.cases(commands), changing.kernel_cases(commands)]
        for case in (case for part in cases for case in part):
            yield f"{name}: {case[0]}", case[1]


# What the kernel must have, for a namespace with links in it.
LEAST = """ip link set lo up && ip link add one type veth peer name other &&
ip link add bridge type bridge"""


def namespace() -> List[str]:
    """The words that run a command in a network namespace of its own, if there are such."""
    for words in (["unshare", "-n"], ["unshare", "-rn"]):
        ran = subprocess.run([*words, "sh", "-c", LEAST], check=False,
                             stdout=subprocess.DEVNULL, stderr=subprocess.DEVNULL)
        if ran.returncode == 0:
            return words
    return []


def main(words: List[str]) -> int:
    if not words or len(words) % WORDS:
        print("usage: tests/bindings/live.py NAME LINKS ROUTES WATCH LINK_UP ROUTE_ADD ..",
              file=sys.stderr)
        return 2
    if INSIDE not in os.environ:
        front = namespace()
        if front:
            os.environ[INSIDE] = "1"
            os.execvp(front[0], [*front, sys.executable, __file__, *words])
        print("skipped: the programs over the kernel, since no network namespace with a bridge and"
              " a pair of links can be made here")
    groups = [words[at:at + WORDS] for at in range(0, len(words), WORDS)]
    languages = [(name, dict(zip(PROGRAMS, map(shlex.split, commands))))
                 for name, *commands in groups]
    return counted(all_cases(languages))


if __name__ == "__main__":
    sys.exit(main(sys.argv[1:]))
