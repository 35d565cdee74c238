#!/usr/bin/env python3
"""Brings an interface up, and waits for the kernel's acknowledgement.
link_up.py DEV [SOCKET]"""
import sys

import source
from change import change, misused

import rtnl


def link_up(kernel: source.Source) -> None:
    change(kernel, rtnl.LinkRequest(name=sys.argv[1], up=True), rtnl.Operation.SET)


if __name__ == "__main__":
    if not 2 <= len(sys.argv) <= 3:
        misused("link_up DEV [SOCKET]")
    source.run("link_up", link_up, at=2)
