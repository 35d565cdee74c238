#!/usr/bin/env python3
"""Changes what the kernel has, in the network namespace that this runs in, and reads what the
program of examples/c/mirror.c prints meanwhile: a line for each change. The time is taken before
ip(8) is asked for a change and when its line has come. Then the program is stopped until the kernel
drops messages: it says so of its tables, and dumps them again. The slowest change is printed, and
the status is 1 where one took more than a second.
"""
import queue
import signal
import socket
import subprocess
import sys
import threading
import time
from typing import List, NamedTuple, Set, Tuple

LIMIT, PATIENCE = 1.0, 10.0
TABLES = {"links", "addresses", "routes", "neighbours", "rules"}
# Changes of which a socket's buffer takes more than this many bytes.
MANY = [f"addr {verb} 192.0.2.{at}/32 dev lo" for at in range(1, 255) for verb in ("add", "del")]
OF_MANY = 100000
ROUTE = "198.51.100.0/24 via 192.0.2.2 dev lo"
RULE = "from 192.0.2.0/24 table 100"
# What ip(8) is asked for, and how the lines begin that say so, with what else stands in them.
CHANGES = [
    ("link set lo up", [("~ link ", "UP,LOOPBACK")]),
    ("addr add 192.0.2.1/24 dev lo", [("+ addr ", "ADDRESS - ipv4 192.0.2.1")]),
    (f"route add {ROUTE}", [("+ route ", "DST - ipv4 198.51.100.0")]),
    ("neigh add 192.0.2.2 dev lo lladdr 02:00:00:00:00:01 nud permanent", [("+ neigh ", "PERM")]),
    (f"rule add {RULE}", [("+ rule ", "src_len 24")]),
    (f"rule del {RULE}", [("- rule ", "src_len 24")]),
    (f"route del {ROUTE}", [("- route ", "DST - ipv4 198.51.100.0")]),
    ("addr del 192.0.2.1/24 dev lo",
     [("- addr ", "ADDRESS - ipv4 192.0.2.1"), ("? routes stale: silent", ""), ("= routes ", "")]),
    ("link set lo down", [("~ link ", "LOOPBACK"), ("- neigh ", "PERM")]),
    ("link set lo up", [("~ link ", "UP,LOOPBACK")]),
]


class Line(NamedTuple):
    when: float
    text: str


class Lines:
    """What a program prints, and when each line came."""

    def __init__(self, program: "subprocess.Popen[str]") -> None:
        self.came: "queue.Queue[Line]" = queue.Queue()
        threading.Thread(target=self.read, args=(program,), daemon=True).start()

    def read(self, program: "subprocess.Popen[str]") -> None:
        assert program.stdout
        for text in program.stdout:
            self.came.put(Line(time.monotonic(), text.rstrip("\n")))

    def until(self, begins: str, has: str, end: float) -> Line:
        """The next line that begins so and has this. Those before it are passed over."""
        seen: List[str] = []
        while True:
            try:
                line = self.came.get(timeout=max(0.0, end - time.monotonic()))
            except queue.Empty:
                raise TimeoutError(f"no line {begins}..{has} but {seen}") from None
            if line.text.startswith(begins) and has in line.text:
                return line
            seen.append(line.text)


def slowest(lines: Lines) -> Tuple[float, str]:
    """How long the slowest change took, and which it was."""
    found = (0.0, "")
    for change, expected in CHANGES:
        asked = time.monotonic()
        subprocess.run(["ip", *change.split()], check=True)
        for begins, has in expected:
            line = lines.until(begins, has, asked + LIMIT)
        found = max(found, (line.when - asked, change))
    return found


def recovers(lines: Lines, program: "subprocess.Popen[str]") -> None:
    """What comes while the program is stopped is lost; behind it all tables become current."""
    with socket.socket(socket.AF_NETLINK, socket.SOCK_RAW) as other:
        held = other.getsockopt(socket.SOL_SOCKET, socket.SO_RCVBUF)
    batch = "\n".join(MANY * (2 + held // OF_MANY))
    program.send_signal(signal.SIGSTOP)
    subprocess.run(["ip", "-batch", "-"], input=batch, text=True, check=True)
    program.send_signal(signal.SIGCONT)
    end = time.monotonic() + PATIENCE
    lost: Set[str] = set()
    current: Set[str] = set()
    while lost < TABLES - {"routes"} or current < TABLES:
        line = lines.until("", "", end)
        words = line.text.split()
        lost |= {words[1]} if line.text.endswith(" stale: lost") else set()
        current |= {words[1]} if words[0] == "=" else set()


def main() -> int:
    with subprocess.Popen(sys.argv[1:], stdout=subprocess.PIPE, text=True) as program:
        try:
            lines = Lines(program)
            for _ in TABLES:
                lines.until("= ", "", time.monotonic() + PATIENCE)
            seconds, change = slowest(lines)
            recovers(lines, program)
        except (TimeoutError, subprocess.CalledProcessError) as error:
            print(error, file=sys.stderr)
            return 1
        finally:
            program.terminate()
    print(f"changes printed: {len(CHANGES)}, the slowest in {1000 * seconds:.1f} ms, {change}")
    return 0


if __name__ == "__main__":
    sys.exit(main())
