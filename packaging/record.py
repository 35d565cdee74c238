"""The record of what was installed under a prefix: share/rtnl/installed.

A line for each folder that was made there, one for each file with its sum, and one more for a
program that is not proved. A folder is named by its path from the prefix, which is `.` itself; an
older record has its whole path. What will be made has its line before it is, so a file has two
lines while another is put in its place, and a run that is cut leaves nothing but what has one.
"""
import os
import re
import stat
from typing import Dict, Iterable, List, Optional

from folders import READ, Folder, sum_of
from rows import RECORD

# A longer one is none of ours.
LONGEST = 1 << 20
SUM = re.compile(r"[0-9a-f]{64}|link:[^\s/]+")
CONTROL = re.compile(r"[\x00-\x1f\x7f]")


class NotOurs(Exception):
    """What stands in the record's place is not believed, and why."""


def is_place(path: str) -> bool:
    """It is a path from a folder to what is below it, and leads nowhere else."""
    return not {"", ".", ".."} & {*path.split("/")} and not CONTROL.search(path)


class Record:
    """What was installed: the folders that were made, and the files with their sums, in order."""

    def __init__(self, prefix: str) -> None:
        self.prefix = prefix
        self.folders: List[str] = []
        self.sums: Dict[str, List[str]] = {}
        self.unproved = ""
        # It has no bytes, as a power cut left those of older versions.
        self.is_empty = False
        # The sum of the record as it stands there, where it does.
        self.written: List[str] = []

    def take(self, line: str) -> bool:
        """Takes a line, and says whether it is one of a record."""
        sort, _, rest = line.partition(" ")
        if sort == "file":
            found, _, place = rest.partition(" ")
            self.sums.setdefault(place, []).append(found)
            return bool(SUM.fullmatch(found)) and is_place(place)
        if sort == "unproved":
            self.unproved = rest
            return is_place(rest)
        if sort != "folder" or CONTROL.search(rest):
            return False
        if rest.startswith("/"):
            # Folders above the prefix are left.
            rest = os.path.relpath(rest, self.prefix)
            if rest.startswith(".."):
                return True
        self.folders.append(rest)
        return rest == "." or is_place(rest)

    def add_folders(self, places: Iterable[str]) -> None:
        self.folders += [it for it in places if it not in self.folders]

    def add_sum(self, place: str, found: str) -> None:
        """Adds a file, or its sum beside that of an older one."""
        self.sums[place] = [*dict.fromkeys([*self.sums.get(place, []), found])]

    def text(self) -> bytes:
        lines = [f"folder {it}" for it in self.folders]
        lines += [f"file {found} {place}" for place, sums in self.sums.items() for found in sums]
        lines += [f"unproved {self.unproved}"] if self.unproved else []
        return "".join(f"{it}\n" for it in lines).encode(errors="surrogateescape")

    def write(self, folder: Folder) -> None:
        """Writes it into its folder, where it outlives a power cut."""
        text = self.text()
        folder.put(RECORD, text, "644", self.written)
        folder.sync([RECORD, *self.folders])
        self.written = [sum_of(text, "644")]


def stop_on(status: os.stat_result) -> None:
    """Ends where this is not a file that root or the caller wrote."""
    if not stat.S_ISREG(status.st_mode):
        raise NotOurs("is not a file")
    if status.st_uid not in (0, os.geteuid()):
        raise NotOurs("is another user's")
    if status.st_mode & stat.S_IWOTH:
        raise NotOurs("can be written by every user")


def bytes_of(folder: Folder) -> Optional[bytes]:
    """The bytes of the record that root or the caller wrote; none where there is no record."""
    try:
        with folder.holder(RECORD) as (fd, name):
            # A pipe or a device isn't opened; what is opened is looked at again.
            stop_on(os.stat(name, dir_fd=fd, follow_symlinks=False))
            with open(os.open(name, READ, dir_fd=fd), "rb") as file:
                stop_on(os.fstat(file.fileno()))
                return file.read(LONGEST + 1)
    except FileNotFoundError:
        return None


def read(folder: Folder, prefix: str) -> Optional[Record]:
    """The record under a prefix; none where there is none. It is believed as a whole or not."""
    text = bytes_of(folder)
    if text is None:
        return None
    record = Record(prefix)
    record.written = [sum_of(text, "644")]
    record.is_empty = not text
    lines = text.decode(errors="surrogateescape").split("\n")
    if len(text) > LONGEST or lines.pop() != "":
        raise NotOurs("is no record of this script")
    for number, line in enumerate(lines, 1):
        if not record.take(line):
            raise NotOurs(f"is no record of this script, by its line {number}")
    return record
