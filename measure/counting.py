"""What the scripts of this folder share: how instructions, time and memory are counted, and how a
table is printed."""
import os
import re
import resource
import subprocess
import tempfile
from typing import Dict, Iterable, List, Optional, Sequence, Tuple

# How many passes are timed, and how often.
PASSES = 50
RUNS = 100

CALLGRIND = ["valgrind", "--tool=callgrind"]
COLLECTED = re.compile(rb"Collected : (\d+)")

Command = List[str]
# A figure, or none where what it would be of is not here.
Count = Optional[float]
# Those of a table, of which the first has the heads.
Rows = List[Sequence[str]]


def instructions(command: Sequence[str], given: bytes = b"") -> Optional[int]:
    """How many instructions the command takes; none where it fails."""
    run = subprocess.run(
        [*CALLGRIND, "--callgrind-out-file=/dev/null", *command],
        input=given, stdout=subprocess.DEVNULL, stderr=subprocess.PIPE, check=False)
    found = COLLECTED.search(run.stderr)
    return int(found.group(1)) if found and run.returncode in (0, 1) else None


def less(whole_run: Count, part: Count) -> Count:
    """What is left of a figure without a part of it."""
    return None if whole_run is None or part is None else whole_run - part


def over(figure: Count, other: Count) -> Count:
    """A figure as a ratio to another."""
    return None if figure is None or not other else figure / other


def passes(command: Sequence[str], given: bytes) -> Count:
    """The instructions of one pass of a program that takes the number of passes."""
    one, three = (instructions([*command, count], given) for count in ("1", "3"))
    return over(less(three, one), 2)


def passes_of_each(commands: Sequence[Optional[Command]], given: bytes) -> List[Count]:
    """The instructions of one pass of each such program."""
    return [passes(command, given) if command else None for command in commands]


def whole(command: Sequence[str], files: Iterable[str]) -> Count:
    """The instructions of a program over the second file, less those over the first."""
    first, second = (instructions([*command, file]) for file in files)
    return less(second, first)


def beyond_reading(program: str, way: str, file: str) -> Count:
    """The instructions of a program over a file, less those for reading it."""
    return less(*(instructions([program, it, file]) for it in (way, "read")))


def seconds(command: Sequence[str], given: bytes = b"") -> float:
    """The processor time of a program."""
    begun = resource.getrusage(resource.RUSAGE_CHILDREN)
    subprocess.run(command, input=given, stdout=subprocess.DEVNULL, stderr=subprocess.DEVNULL,
                   check=True)
    ended = resource.getrusage(resource.RUSAGE_CHILDREN)
    return ended.ru_utime + ended.ru_stime - begun.ru_utime - begun.ru_stime


def shortest(command: Sequence[str], runs: int) -> float:
    """The least processor time of some runs of a program."""
    return min(seconds(command) for _ in range(runs))


def nanoseconds(commands: Sequence[Optional[Command]], given: bytes) -> List[Count]:
    """The processor time of one pass of each such program: of many passes less one, each the
    shortest of many runs, which are made in turn."""
    least: Dict[Tuple[str, ...], float] = {}
    for _ in range(RUNS):
        for command in filter(None, commands):
            for count in (1, 1 + PASSES):
                key = *command, str(count)
                least[key] = min(least.get(key, 1e9), seconds(key, given))
    return [
        (least[*it, str(1 + PASSES)] - least[*it, "1"]) / PASSES * 1e9 if it else None
        for it in commands]


def peak(command: Sequence[str], *before: str) -> Count:
    """The greatest memory of a command, in megabytes."""
    if not os.path.exists("/usr/bin/time"):
        return None
    timed = [*before, "/usr/bin/time", "-f", "%M", *command]
    run = subprocess.run(
        timed, stdin=subprocess.DEVNULL, stdout=subprocess.DEVNULL, stderr=subprocess.PIPE,
        check=False)
    return int(run.stderr.split()[-1]) * 1024 / 1_000_000


def resident(command: Sequence[str]) -> Count:
    """The greatest memory of a command, in megabytes: of ten runs, whose parts lie at the same
    addresses."""
    found = [it for it in (peak(command, "setarch", "-R") for _ in range(10)) if it is not None]
    return max(found, default=None)


def held(command: Sequence[str], *options: str) -> Count:
    """The greatest memory that a program has from malloc, or with --stacks=yes and its stack, in
    bytes."""
    massif = ["valgrind", "--tool=massif", "--peak-inaccuracy=0.0", *options]
    snapshot = r"^mem_heap_B=(\d+)\nmem_heap_extra_B=(\d+)\nmem_stacks_B=(\d+)$"
    with tempfile.NamedTemporaryFile("r", encoding="ascii") as file:
        run = subprocess.run(
            [*massif, f"--massif-out-file={file.name}", *command],
            stdout=subprocess.DEVNULL, stderr=subprocess.DEVNULL, check=False)
        found = re.findall(snapshot, file.read(), re.M)
    return max(sum(map(int, it)) for it in found) if run.returncode == 0 else None


def kept(folder: str, name: str, contents: bytes) -> str:
    """A file with these contents."""
    path = f"{folder}/{name}"
    with open(path, "wb") as file:
        file.write(contents)
    return path


def shown(number: Count, size: float = 1, form: str = "{:.1f}") -> str:
    """A number over a size, or a dash."""
    return "-" if number is None else form.format(number / size)


def table(*rows: Sequence[str]) -> None:
    """Prints rows, the first of them the heads."""
    for index, row in enumerate(rows):
        print("| " + " | ".join(row) + " |")
        if index == 0:
            print("|---" * len(row) + "|")
    print(flush=True)
