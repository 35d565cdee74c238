"""The files of a package, in memory, and the archive of them: one content gives the same bytes."""
import gzip
import io
import os
import stat
import subprocess
import tempfile
from typing import Dict, Iterable, Iterator, NamedTuple

from steps import Failed


class File(NamedTuple):
    """A file's bytes and mode, or of a link what it points to."""

    text: bytes
    mode: int
    is_link: bool = False


Tree = Dict[str, File]


def read(folder: str) -> Tree:
    """The files below a folder, by their paths from there."""
    found: Tree = {}
    for at, _, names in os.walk(folder):
        for name in names:
            path = f"{at}/{name}"
            place = os.path.relpath(path, folder)
            if os.path.islink(path):
                found[place] = File(os.fsencode(os.readlink(path)), 0o777, True)
                continue
            with open(path, "rb") as file:
                found[place] = File(file.read(), stat.S_IMODE(os.stat(path).st_mode))
    return found


def folders(places: Iterable[str]) -> Iterator[str]:
    """The folders in which the files are, each before those in it."""
    found = set()
    for place in places:
        while "/" in place:
            place = place.rpartition("/")[0]
            found.add(place)
    return iter(sorted(found))


def packed(text: bytes) -> bytes:
    """As gzip -9n packs it."""
    to = io.BytesIO()
    with gzip.GzipFile("", "wb", 9, to, mtime=0) as file:
        file.write(text)
    return to.getvalue()


def write(tree: Tree, folder: str, time: int) -> None:
    """Writes the files and folders below a folder, all of this time."""
    for place in folders(tree):
        os.makedirs(f"{folder}/{place}", 0o755)
    for place, file in tree.items():
        path = f"{folder}/{place}"
        if file.is_link:
            os.symlink(file.text, path)
        else:
            with open(path, "wb") as to:
                to.write(file.text)
            os.chmod(path, file.mode)
        os.utime(path, (time, time), follow_symlinks=False)
    for place in [*folders(tree)][::-1]:
        os.utime(f"{folder}/{place}", (time, time))
    os.utime(folder, (time, time))


def archive(tree: Tree, name: str, time: int) -> bytes:
    """The archive NAME.tar.gz, in which all is root's, sorted and of this time, below NAME. It has
    no entry for a folder, so that none that is there is changed where it is unpacked."""
    with tempfile.TemporaryDirectory() as room:
        os.mkdir(f"{room}/{name}", 0o755)
        write(tree, f"{room}/{name}", time)
        words = ["tar", "-C", room, "--create", "--format=gnu", "--owner=root:0", "--group=root:0"]
        words += ["--", *(f"{name}/{it}" for it in sorted(tree, key=lambda it: it.split("/")))]
        ran = subprocess.run(words, stdout=subprocess.PIPE, stderr=subprocess.PIPE, check=False)
    if ran.returncode:
        raise Failed(f"tar failed: {os.fsdecode(ran.stderr).strip()}")
    return packed(ran.stdout)
