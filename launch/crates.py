"""The crates of the repository, as crates.txt lists them."""
import contextlib
import os
from typing import Dict, List, NamedTuple, Optional, Sequence

ROOT = os.path.dirname(os.path.dirname(os.path.realpath(__file__)))
FILE = "crates.txt"
# What the proof of the library for C takes, where rt ci has built all that it stands on.
LEFT_OF_CI = "some 5 minutes of processor time"


class NotBuilt(Exception):
    """A library that a script stands on is not built from its sources."""


class Crate(NamedTuple):
    """A line of crates.txt: the crate's name, the libraries that it names, and the line itself."""

    name: str
    uses: List[str]
    line: str


Crates = Dict[str, Crate]


def listed(root: str = ROOT) -> Crates:
    """The crates, in the order of the file."""
    found = {}
    with open(f"{root}/{FILE}", encoding="utf-8") as lines:
        for line in lines:
            names, _, uses = line.partition("#")[0].partition(":")
            if names.strip():
                name = names.split()[0]
                found[name] = Crate(name, uses.split(), line)
    return found


def below(crates: Crates, name: str) -> List[str]:
    """The repository's libraries below a crate, each behind those that it names."""
    found: List[str] = []
    for used in crates[name].uses:
        if used in crates:
            found += [it for it in (*below(crates, used), used) if it not in found]
    return found


def library(name: str) -> str:
    """The folder of a built library, which is there and was not put there before its sources.

    Its files may be older, since rt takes them from an earlier run that proved the same sources; so
    the time is that of the folder's own entry, which nothing sets back.
    """
    folder = f"crates/{name}/out/rlib/{name}.rlib"
    if not os.path.isfile(f"{ROOT}/{folder}/format"):
        raise NotBuilt(f"{folder} is missing: run rt ci, or rt lib in crates/{name}")
    source = newer(name, os.stat(f"{ROOT}/{folder}").st_ctime)
    if source:
        raise NotBuilt(f"{folder} is older than {source}: run rt ci, or rt lib in crates/{name}")
    return f"{ROOT}/{folder}"


def is_built(name: str) -> bool:
    """Whether a library is built of its sources, as rt builds what it has proved."""
    with contextlib.suppress(NotBuilt):
        return bool(library(name))
    return False


def newer(name: str, time: float, *parts: str) -> Optional[str]:
    """A file or a folder of a crate's src/, or of these parts too, that is newer than this time."""
    for part in ("src", *parts):
        for at, _, names in os.walk(f"{ROOT}/crates/{name}/{part}"):
            for path in (at, *(f"{at}/{it}" for it in names)):
                if os.path.getmtime(path) > time:
                    return os.path.relpath(path, ROOT)
    return None


def outdated(made: str, *names: str, parts: Sequence[str] = (),
             scripts: Sequence[str] = ()) -> Optional[str]:
    """What is newer than what is made of these crates and of those below, or by the scripts of
    these folders; or its own name, where it is missing. What is compiled without a proof is made of
    no other part than src/."""
    if not os.path.isfile(made):
        return os.path.relpath(made, ROOT)
    time, crates = os.path.getmtime(made), listed()
    files_of = (it.path for at in scripts for it in os.scandir(f"{ROOT}/{at}"))
    for path in (f"{ROOT}/{FILE}", *(it for it in files_of if it.endswith(".py"))):
        if os.path.getmtime(path) > time:
            return os.path.relpath(path, ROOT)
    whole = dict.fromkeys(it for name in names for it in (*below(crates, name), name))
    return next(filter(None, (newer(it, time, *parts) for it in whole)), None)
