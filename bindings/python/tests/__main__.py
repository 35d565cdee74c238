"""Runs the tests beside this file, or those of the modules that are named, without `test_`:

  PYTHONPATH=src python3 tests [--except] [MODULE ..]

RTNL is the path of the program `rtnl`, and RTNLC_PREFIX where the library is installed. A line
says what failed or was skipped, and why. The last line is 'N passed, M failed', and the status is
1 where a test failed.
"""
import os
import sys
import unittest
from typing import List

HERE = os.path.dirname(os.path.abspath(__file__))


def modules(words: List[str]) -> List[str]:
    """The modules that are named, or with --except the others."""
    names = sorted(it[:-3] for it in os.listdir(HERE) if it.startswith("test_"))
    wanted = {f"test_{it}" for it in words if it != "--except"}
    if wanted - {*names}:
        sys.exit(f"there is no {' '.join(sorted(wanted - {*names}))}")
    is_except = "--except" in words or not wanted
    return [it for it in names if (it in wanted) != is_except]


def name_of(test: object) -> str:
    return str(test).replace("\n", " ")


def main(words: List[str]) -> int:
    sys.path.insert(0, HERE)
    suite = unittest.defaultTestLoader.loadTestsFromNames(modules(words))
    count = suite.countTestCases()
    result = unittest.TestResult()
    suite.run(result)
    for test, text in [*result.failures, *result.errors]:
        print(text, f"failed: {name_of(test)}", sep="\n")
    for test, reason in result.skipped:
        print(f"skipped: {name_of(test)}: {reason}")
    bad = {name_of(getattr(it, "test_case", it)) for it, _ in [*result.failures, *result.errors]}
    print(f"{count - len(result.skipped) - len(bad)} passed, {len(bad)} failed")
    return 1 if bad or not count else 0


if __name__ == "__main__":
    sys.exit(main(sys.argv[1:]))
