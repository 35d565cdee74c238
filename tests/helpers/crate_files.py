"""The files of the crates, for the scripts of the tests."""
import os
from typing import Iterator

from crates import ROOT


def files(name: str, part: str, root: str = ROOT) -> Iterator[str]:
    """The files of a part of a crate, as src, by their paths in the repository, in order."""
    for at, folders, names in os.walk(f"{root}/crates/{name}/{part}"):
        folders.sort()
        for it in sorted(names):
            yield os.path.relpath(f"{at}/{it}", root)
