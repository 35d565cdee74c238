"""Counts cases for the scripts in Python."""
import os
import sys
from typing import Iterable, List, Tuple

# Whether all is tried, as the gate does.
IS_WHOLE = not os.environ.get("RTNL_QUICK")


def whole(what: str) -> bool:
    """The same; tests/run --quick leaves this out, and a line on standard error says so."""
    if not IS_WHOLE:
        print(f"left out: {what}", file=sys.stderr)
    return IS_WHOLE


def counted(cases: Iterable[Tuple[str, List[str]]]) -> int:
    """Prints what is wrong with each case of these names, and last how many passed and failed.
    Returns the exit status."""
    passed = failed = 0
    for name, wrong in cases:
        passed, failed = passed + (not wrong), failed + bool(wrong)
        for line in wrong:
            print(f"failed: {name}: {line}")
    print(f"{passed} passed, {failed} failed")
    return 1 if failed else 0
