#!/usr/bin/env python3
"""Measures what programs do before they first read standard input, beside `cat`, and prints it as
the table of docs/PERFORMANCE.md.

usage: measure/start.py

Standard input is a pipe into which nothing is written. callgrind counts the instructions until the
program waits there for its first byte; strace has the calls of the system up to that read, and
those up to the program's end where the pipe gives a line. Ours is $RTNL_PROGRAM, or the program
that the gate builds. The first table is in the locale C, for which nothing is loaded, and the
second in the one of the environment, whose files `cat` loads.
"""
import argparse
import os
import re
import subprocess
import tempfile
import time
from typing import Dict, List, Optional

from counting import CALLGRIND, COLLECTED, Command, Rows, over, shown, table
from programs import PROGRAM, install

PACKAGES = ["valgrind", "valgrind", "strace", "strace"]
LINE = b"00\n"
PROGRAMS: Dict[str, Command] = {
    "`cat`": ["cat"],
    "`rtnl check`": [PROGRAM, "check"],
    "`rtnl show`": [PROGRAM, "show"],
    "`rtnl follow`": [PROGRAM, "follow"],
    "`rtnl table`": [PROGRAM, "table", "--kind", "link", "--seq", "1", "--port", "2"],
}
# A read of standard input, as the kernel has the call that a process is in, and as strace has it.
WAITS = re.compile(r"^0 0x0 ")
FIRST_READ = re.compile(r"^read\(0, ", re.M)
Environment = Dict[str, str]
# In seconds.
PATIENCE, BREATH = 60.0, 0.05


def wait_for_read(process: "subprocess.Popen[bytes]") -> None:
    """Waits until the process waits for a byte of standard input."""
    until = time.monotonic() + PATIENCE
    while time.monotonic() < until and process.poll() is None:
        with open(f"/proc/{process.pid}/syscall", encoding="ascii") as call:
            if WAITS.match(call.read()):
                return
        time.sleep(BREATH)
    raise SystemExit("start.py: a program does not read standard input")


def instructions_before(command: Command, env: Environment) -> Optional[int]:
    """Those before the first read: it is ended while it waits there."""
    counted = [*CALLGRIND, "--callgrind-out-file=/dev/null", *command]
    with subprocess.Popen(counted, stdin=subprocess.PIPE, stdout=subprocess.DEVNULL,
                          stderr=subprocess.PIPE, env=env) as process:
        wait_for_read(process)
        process.terminate()
        found = COLLECTED.search(process.communicate()[1])
    return int(found.group(1)) if found else None


def calls(command: Command, env: Environment) -> List[str]:
    """The calls of the system, of which the first starts the program."""
    with tempfile.NamedTemporaryFile("r", encoding="utf-8", errors="replace") as log:
        subprocess.run(["strace", "-o", log.name, *command], input=LINE, env=env,
                       stdout=subprocess.DEVNULL, stderr=subprocess.DEVNULL, check=False)
        return [it for it in log.read().splitlines() if re.match(r"\w+\(", it)]


def starts(env: Environment) -> None:
    """Prints what each program does in this environment."""
    rows: Rows = [("", "instructions", "of `cat`'s", "calls", "of `cat`'s", "calls in all")]
    beside: List[float] = []
    for name, command in PROGRAMS.items():
        counted, made = instructions_before(command, env), calls(command, env)
        before = next(index for index, it in enumerate(made) if FIRST_READ.match(it))
        beside = beside or [counted or 0, before]
        ratios = [shown(over(it, cat), 1, "{:.2f}") for it, cat in zip((counted, before), beside)]
        rows.append((
            name, shown(counted, 1, "{:,.0f}"), ratios[0], str(before), ratios[1], str(len(made))))
    table(*rows)


def main() -> None:
    argparse.ArgumentParser(
        description=__doc__,
        formatter_class=argparse.RawDescriptionHelpFormatter).parse_args()
    install(*PACKAGES)
    own = {**os.environ}
    for env in {**own, "LC_ALL": "C"}, own:
        print(f"LC_ALL={env.get('LC_ALL', '')} LANG={env.get('LANG', '')}\n")
        starts(env)


if __name__ == "__main__":
    main()
