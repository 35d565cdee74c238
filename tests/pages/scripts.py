"""What tests/pages.py tests of the scripts: what says in its first line by which program it is run
can be executed, as tests/run and the pages call it, and nothing else can.
"""
from typing import Dict, Iterator, List

from repository import SCRIPTS, Check, Fault, Repository


def wrong_modes(repository: Repository, listing: str) -> Iterator[str]:
    """The files of the listing that can be executed and don't say how, or the other way round."""
    rows = [it.split(" ", 2) for it in repository.texts[listing].splitlines()]
    if not rows:
        yield "there is no script"
    for can_run, says_how, path in rows:
        if can_run == "-":
            yield f"{path} begins with #!, and can't be executed: chmod +x, or drop that line"
        elif says_how == "-":
            yield f"{path} can be executed, and doesn't begin with #!"


FAULTS: Dict[Check, List[Fault]] = {
    wrong_modes: [
        Fault("a script that may not be executed", SCRIPTS, SCRIPTS, "x #! tests/mirrors.py\n",
              "- #! tests/mirrors.py\n"),
        Fault("a script without its first line", SCRIPTS, SCRIPTS, "x #! tests/run\n",
              "x - tests/run\n"),
    ],
}
