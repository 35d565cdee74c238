#!/usr/bin/env python3
"""Cuts an installation, or a removal, before each step in which it changes a file or a folder, and
looks at what the next runs make of that: one that installs and one that removes, or one that
removes alone. In the end all is there that was there before, and nothing else.

  cut.py FOLDER CASE kill|power

A run is ended as by kill -9; with `power`, files whose bytes were not synced lose them too, as
where the power goes. The case is one of those in CASES below. Runs are of the scripts' own
functions, over files that are made here, in a folder that is new.
"""
import os
import shutil
import signal
import stat
import sys
from typing import Any, Callable, Dict, List, Set, Tuple

sys.dont_write_bytecode = True
ROOT = os.path.dirname(os.path.dirname(os.path.dirname(os.path.realpath(__file__))))
sys.path[:0] = [f"{ROOT}/packaging", f"{ROOT}/launch"]
import installing
from rows import Row

ROWS = [Row("built/one", "bin/one", "755"), Row("built/two", "share/two/deep/two", "644"),
        Row("built/link", "lib/link", "link")]
CHANGING = ["mkdir", "rmdir", "link", "symlink", "unlink", "rename", "fchmod", "fsync"]
NOTHING = b"install: nothing is installed under "


class Steps:
    """Stands in front of what changes files, counts it, and ends the process before one step."""

    def __init__(self, last: int, power: bool) -> None:
        self.left, self.power = last, power
        self.unsynced: Dict[Tuple[int, int], int] = {}
        self.changed: Set[Tuple[int, int]] = set()
        self.open = os.open
        for name in CHANGING:
            setattr(os, name, self.step(name, getattr(os, name)))
        setattr(os, "open", self.opened)

    def count(self) -> None:
        self.left -= 1
        if self.left:
            return
        for fd in self.unsynced.values() if self.power else []:
            os.ftruncate(fd, 0)
        os.kill(os.getpid(), signal.SIGKILL)

    def opened(self, path: Any, flags: int, mode: int = 0o777, **how: Any) -> int:
        if flags & os.O_CREAT:
            self.count()
        fd = self.open(path, flags, mode, **how)
        if flags & os.O_CREAT:
            self.unsynced[self.of(fd)] = os.dup(fd)
            self.changed.add(self.of(how["dir_fd"]))
        return fd

    def step(self, name: str, does: Callable[..., None]) -> Callable[..., None]:
        def ran(*words: Any, **how: Any) -> None:
            self.count()
            if name == "fsync":
                # The bytes needn't reach a disk here.
                self.unsynced.pop(self.of(words[0]), None)
                self.changed.discard(self.of(words[0]))
                return
            does(*words, **how)
            if name != "fchmod":
                self.changed.add(self.of(how.get("dst_dir_fd", how.get("dir_fd"))))

        return ran

    @staticmethod
    def of(fd: Any) -> Tuple[int, int]:
        status = os.fstat(fd)
        return status.st_dev, status.st_ino


class Room:
    """A folder with a prefix, and two versions of what is installed there."""

    def __init__(self, folder: str) -> None:
        self.folder, self.prefix = folder, f"{folder}/prefix"
        for version in ("old", "new"):
            built = f"{folder}/{version}"
            os.makedirs(built)
            for name in ("one", "two"):
                with open(f"{built}/{name}", "w", encoding="utf-8") as file:
                    file.write(f"{version} {name}\n" * 1000)
            os.symlink(version, f"{built}/link")

    def install(self, version: str = "new") -> int:
        target = installing.Target(self.prefix, "", self.prefix, "")
        installing.install(target, ROWS, built=f"{self.folder}/{version}")
        return 0

    def remove(self) -> int:
        return installing.remove(installing.Target(self.prefix, "", self.prefix, ""))

    def run(self, does: Callable[[], int], last: int = 0, power: bool = False) -> Tuple[int, bytes]:
        """Runs it in a process of its own, to the step that is the last; gives its status, of which
        a signal is the negative, and its standard error."""
        pid = os.fork()
        if not pid:
            for number, name in ((1, "output"), (2, "errors")):
                os.dup2(os.open(f"{self.folder}/{name}", os.O_RDWR | os.O_CREAT | os.O_TRUNC),
                        number)
            status, steps = 3, Steps(last, power)
            try:
                status = does()
                if steps.unsynced or does == self.install and steps.changed:
                    os.write(2, b"not all was synced\n")
                    status = 4
            except installing.Stopped as stopped:
                installing.complain(f"{stopped}")
                status = stopped.status
            finally:
                os._exit(status)
        status = os.waitstatus_to_exitcode(os.waitpid(pid, 0)[1])
        with open(f"{self.folder}/errors", "rb") as errors:
            return status, errors.read()

    def listed(self) -> List[Tuple[str, str]]:
        """What is in the folder, but for what was said."""
        found = []
        for at, names, files in os.walk(self.folder):
            for name in names + files:
                status = os.lstat(f"{at}/{name}")
                found.append((f"{at}/{name}", stat.filemode(status.st_mode)))
        return sorted(it for it in found if not it[0].endswith(("/output", "/errors")))


def prepare_own(room: Room) -> None:
    """The user's own: a folder in which something is, and an empty one."""
    os.makedirs(f"{room.prefix}/share/own")
    os.makedirs(f"{room.prefix}/bin")
    with open(f"{room.prefix}/bin/own", "w", encoding="utf-8"):
        pass


def prepare_old(room: Room) -> None:
    """An older version is installed, over nothing."""
    assert room.run(lambda: room.install("old"))[0] == 0


# What is there before, whether the user's own is a part of it, and what is cut.
CASES: Dict[str, Tuple[List[Callable[[Room], None]], str]] = {
    "new": ([], "install"), "own": ([prepare_own], "install"),
    "over": ([prepare_own, prepare_old], "install"),
    "removal": ([prepare_old], "remove"), "removal_own": ([prepare_own, prepare_old], "remove"),
}


def goes_on(room: Room, case: str, last: int, power: bool, again: List[str]) -> Tuple[bool, bool]:
    """Whether the run was cut there, and whether those after it leave what was there before."""
    prepares, name = CASES[case]
    if os.path.exists(room.prefix):
        shutil.rmtree(room.prefix)
    before = room.listed()
    for prepare in prepares:
        prepare(room)
        before = room.listed() if prepare is prepare_own else before
    status, errors = room.run(getattr(room, name), last, power)
    is_cut = status == -signal.SIGKILL
    if not is_cut and status:
        print(f"{case}: {name} ends with {status}, {errors.decode()}")
        return False, False
    for name in again:
        status, errors = room.run(getattr(room, name))
        if status and not (name == "remove" and status == 1 and errors.startswith(NOTHING)):
            print(f"{case}, cut before step {last}: {name} ends with {status}, {errors.decode()}")
            return is_cut, False
    left = sorted({*room.listed()} ^ {*before})
    for place, mode in left:
        print(f"{case}, cut before step {last}, then {again}: {mode} {place}")
    return is_cut, not left


def main(folder: str, case: str, way: str) -> int:
    room, last, failed = Room(folder), 0, 0
    is_cut = True
    while is_cut:
        last += 1
        for again in (["install", "remove"], ["remove"]):
            is_cut, is_well = goes_on(room, case, last, way == "power", again)
            failed += not is_well
    if failed:
        print(f"{last - 1} steps, {failed} of {2 * last} ends are wrong")
    # So many there are at least, or what is counted isn't what is done.
    return int(failed > 0 or last < 12)


if __name__ == "__main__":
    sys.exit(main(*sys.argv[1:]))
