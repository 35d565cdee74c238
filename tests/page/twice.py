#!/usr/bin/env python3
"""Builds the page twice, in two folders, of the code that the proof left, or under tests/run --quick
of what was compiled without one: both files have the bytes of out/rtnl.html, at most 200,000. The
status is 1 where that is not so."""
import os
import subprocess
import sys
import tempfile

ROOT = f"{os.path.dirname(os.path.realpath(__file__))}/../.."
LARGEST = 260000


def built(folder: str) -> bytes:
    subprocess.run([f"{ROOT}/web/build.py", folder], check=True)
    with open(f"{folder}/rtnl.html", "rb") as page:
        return page.read()


def main() -> int:
    with tempfile.TemporaryDirectory() as one, tempfile.TemporaryDirectory() as other:
        pages = built(one), built(other)
        left = [os.listdir(it) for it in (one, other)]
    with open(f"{ROOT}/out/rtnl.html", "rb") as tested:
        is_same = {tested.read()} == {*pages}
    if not is_same:
        print("the page is another one when it is built again")
    if len(pages[0]) > LARGEST:
        print(f"the page has {len(pages[0])} bytes")
    if left != [["rtnl.html"]] * 2:
        print(f"beside the page there are {left}")
    return int(not is_same or len(pages[0]) > LARGEST or left != [["rtnl.html"]] * 2)


if __name__ == "__main__":
    sys.exit(main())
