"""Has `rtnl mirror` keep what mirrors of the program of rtnl_rows keep, and compares its tables with
theirs: the entries in their order, as the second reading prints their bytes, and why each table is
stale.
"""
import json
import struct
import subprocess
import sys
from typing import Any, Dict, List, NamedTuple, Tuple

sys.dont_write_bytecode = True
import reference
from reference_lines import body_object
from recording import AF_BRIDGE, KINDS
from replaying import Answer, Keeper, answers, early_of, lines_of, of_bridge, steps

MULTI = 2
LIMITS = ["--entries", "65536", "--waiting", "65536"]
# Why it is stale, or that it is current, and its entries in their order.
Table = Tuple[str, List[Any]]


def body_of(kind: str, data: bytes) -> Any:
    """What is printed of an entry of these bytes."""
    length, number = struct.calcsize("<IHHII") + len(data), reference.NEW[kind]
    message = struct.pack("<IHHII", length, number, MULTI, 0, 0) + data
    [(_, body)] = reference.read(message, "<")
    return body_object(*body, "<")


def expected(answer: Answer) -> Dict[str, Table]:
    """The tables of a mirror of rtnl_rows, as the program is to print them."""
    return {
        kind: (
            answer.states[kind].removesuffix(", a dump runs"),
            [body_of(kind, bytes.fromhex(it)) for it in answer.tables[kind].values()],
        )
        for kind in KINDS
    }


def printed(program: str, lines: List[str], family: int) -> Dict[str, Table]:
    """The tables that the program prints of a recording."""
    asks = [program, "mirror", "--format", "json", "--family", str(family), *LIMITS]
    text = "".join(f"{it}\n" for it in lines)
    done = subprocess.run(
        asks, input=text, stdout=subprocess.PIPE, stderr=subprocess.DEVNULL, text=True, check=False
    )
    found: Dict[str, Table] = {}
    entries: List[Any] = []
    for line in map(json.loads, done.stdout.splitlines()):
        if "table" in line:
            found[line["table"]] = line.get("stale", "current"), entries
            entries = []
        elif "entry" in line:
            entries.append([*line.values()][1])
    return found


class Programs(NamedTuple):
    """What keeps mirrors: the program of rtnl_rows, and the one that is tested."""

    keeper: Keeper
    program: str

    def differences(self, lines: List[str], family: int = 0) -> List[str]:
        """The kinds of which they have other tables."""
        [answer] = answers(self.keeper, [[*steps(lines, family)]])
        one, other = expected(answer), printed(self.program, lines, family)
        return [f"{kind} differs" for kind in KINDS if one[kind] != other.get(kind)]


def compare(programs: Programs, run: str) -> List[str]:
    """What differs over what the socket of a run was told, and over its bridge."""
    found = programs.differences(early_of(run)) + programs.differences(lines_of(f"{run}/events"))
    return found + programs.differences(of_bridge(run, "late", lines_of(f"{run}/events")), AF_BRIDGE)
