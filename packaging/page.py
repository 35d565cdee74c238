#!/usr/bin/env python3
"""The page for browsers, which web/build.py makes: prints where it is, where it is of these
sources; else the status is 1."""
import os
import sys

sys.dont_write_bytecode = True
sys.path.append(f"{os.path.dirname(os.path.realpath(__file__))}/../launch")
from crates import ROOT, outdated

MADE = f"{ROOT}/out/rtnl.html"
ARCHIVE = f"{ROOT}/out/proved/librtnl_c.a"
# The folders of what is in it, beside the library for C.
PARTS = ("web", "record/js", "c", "include", "examples")


def is_current() -> bool:
    """Whether it is there, and nothing that it is made of is newer. One that was made before the
    library was proved is not of the proved one."""
    if outdated(MADE, "rtnl_c"):
        return False
    paths = [it.path for part in PARTS for it in os.scandir(f"{ROOT}/{part}") if it.is_file()]
    paths += [it for it in [ARCHIVE] if os.path.exists(it)]
    return max(map(os.path.getmtime, paths)) <= os.path.getmtime(MADE)


if __name__ == "__main__":
    if not is_current():
        sys.exit(1)
    print(MADE)
