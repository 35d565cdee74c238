"""A capture that is made by hand, and what rtnl-record makes of it: one run of the program, with
few seconds and ten times the memory of the longest line, whatever lengths the capture names."""
import os
import resource
import subprocess
import sys
from typing import List, NamedTuple

sys.dont_write_bytecode = True
ROOT = os.path.dirname(os.path.dirname(os.path.dirname(os.path.realpath(__file__))))
sys.path.insert(0, f"{ROOT}/record")
from source import LONGEST_LINE

# The status of a case of which only the time counts.
ANY = -1
SECONDS, MEMORY = 5, 10 * LONGEST_LINE

# Two datagrams of one message each, a DONE and a NOOP, in little order.
ONE = bytes.fromhex("1400000003000200010000003930000000000000")
TWO = bytes.fromhex("10000000010000000200000000000000")
LINES = f"{ONE.hex()}\n{TWO.hex()}\n"


class Case(NamedTuple):
    name: str
    words: List[str]
    capture: bytes
    status: int
    output: str
    errors: str = ""


def said(*lines: str) -> str:
    return "".join(f"rtnl-record: standard input: {it}\n" for it in lines)


def judged(case: Case, seconds: int = SECONDS) -> List[str]:
    """What a run gave otherwise than it should."""
    def bound() -> None:
        resource.setrlimit(resource.RLIMIT_AS, (MEMORY, MEMORY))
    try:
        ran = subprocess.run([sys.executable, f"{ROOT}/rtnl-record", *case.words],
                             input=case.capture, stdout=subprocess.PIPE, stderr=subprocess.PIPE,
                             timeout=seconds, preexec_fn=bound)
    except subprocess.TimeoutExpired:
        return [f"no end within {seconds} seconds"]
    if case.status == ANY:
        return [] if ran.returncode in (0, 1) and b"Traceback" not in ran.stderr else ["a crash"]
    found = (ran.returncode, ran.stdout.decode(), ran.stderr.decode())
    expected = (case.status, case.output, case.errors)
    return [f"{it!r:.300} for {other!r:.300}" for it, other in zip(found, expected) if it != other]
