"""Puts files under a prefix, with a record of them, and removes them again.

The prefix may have been prepared by anybody: no link below it is followed, nothing is replaced but
what the record has, and a removal stays below it. One run works there at a time. It writes what it
will make into the record first, so that the next one knows what it left where it was cut.
"""
import contextlib
import os
import subprocess
from typing import Dict, Iterator, List, NamedTuple, NoReturn, Optional, Tuple

import page
import record
from crates import ROOT
from folders import (LIST, UNSETTLED, Folder, Linked, Reached, Taken, listing, reach, settle,
                     sum_of)
from lines import say
from record import NotOurs, Record
from rows import RECORD, Row, escaped, filled, version
from steps import Interrupted, hold, undisturbed
from trees import folders

# The bytes and the mode of each file, by its place; of a link what it points to.
Files = Dict[str, Tuple[bytes, str]]
NOTHING = "; nothing was installed"
# The folders around the record, the innermost first.
AROUND = [*[*folders([RECORD])][::-1], "."]


class Stopped(Exception):
    """The end of a run: its status, and a line that says why, where none was said before."""

    def __init__(self, status: int, text: str = "") -> None:
        super().__init__(text)
        self.status = status


class Target(NamedTuple):
    """Where something is installed: PREFIX, what stands in front of it, how both are shown, and
    the library's folder."""

    prefix: str
    stage: str
    shown: str
    libdir: str


def complain(text: str) -> None:
    say(f"install: {text}", 2)


def output(command: List[str], **environment: str) -> str:
    """The output of a command that builds something; it is ended where this run is."""
    how = {**os.environ, **environment}
    with subprocess.Popen(command, env=how, stdout=subprocess.PIPE) as ran:
        try:
            text = ran.communicate()[0]
        except Interrupted:
            ran.terminate()
            raise
    if ran.returncode:
        raise Stopped(3)
    return os.fsdecode(text).rstrip("\n")


def open_prefix(target: Target, make: bool) -> Reached:
    """The prefix, open."""
    stage = reach(target.stage, make) if target.stage else None
    return reach(target.prefix, make, below=stage)


def hold_prefix(target: Target, make: bool) -> Reached:
    """The prefix, open, in which no other run works until this one has ended."""
    while True:
        reached = open_prefix(target, make)
        try:
            # What holds the lock is closed with the run.
            lock = os.open(".", LIST, dir_fd=reached.fd)
        except PermissionError:
            raise Stopped(3, f"{target.shown} could not be read") from None
        hold(lock, lambda: complain(f"waiting for another ./install in {target.shown} to end"))
        # The other one may have removed it.
        there = open_prefix(target, make)
        if os.path.samestat(os.fstat(lock), os.fstat(there.fd)):
            return reached
        os.close(lock)


def content(row: Row, target: Target, program: str, built: str) -> Tuple[bytes, str]:
    """What a row puts, with its mode; of a link what it points to."""
    sort, _, name = row.source.partition("/")
    made = {"program": program, "page": page.MADE, "built": f"{built}/{name}"}
    path = made.get(sort, f"{ROOT}/{row.source}")
    if row.mode == "link":
        return os.fsencode(os.readlink(path)), row.mode
    with open(path, "rb") as file:
        text = file.read()
    words = {"VERSION": version(), "PREFIX": target.prefix, "LIBDIR": target.libdir}
    if path.endswith(".pc"):
        words = {name: escaped(word) for name, word in words.items()}
    return filled(text, words) if sort == "share" else text, row.mode


def stop_on_link(target: Target, error: Linked, end: str = "") -> NoReturn:
    at = f"{error}" if f"{error}".startswith("/") else f"{target.shown}/{error}"
    raise Stopped(1, f"{at} {error.what}{end}")


def read_record(target: Target, folder: Folder, end: str) -> Optional[Record]:
    """The record; none where none is there."""
    try:
        return record.read(folder, f"{target.stage}{target.prefix}")
    except NotOurs as error:
        raise Stopped(1, f"{target.shown}/{RECORD} {error}{end}") from None


@contextlib.contextmanager
def told(target: Target, place: str, what: str = "written", end: str = "") -> Iterator[None]:
    """Ends the run where a step fails, with a line on this place."""
    at = f"{target.shown}/{place}"
    try:
        yield
    except Taken:
        raise Stopped(1, f"{at} is there and was not installed by this script{end}") from None
    except Linked as error:
        stop_on_link(target, error, end)
    except OSError as error:
        why = f"{error.strerror}; name another PREFIX"
        raise Stopped(3, f"{at} could not be {what}: {why}") from None


def look(target: Target, folder: Folder, files: Files) -> Record:
    """The record, or a new one. Ends where something is in the way, before anything is put."""
    with told(target, os.path.dirname(RECORD), "made", NOTHING):
        known = read_record(target, folder, NOTHING) or Record(f"{target.stage}{target.prefix}")
    if known.is_empty:
        # It can't say what is ours, so that is what has no bytes, or those that are put now.
        known.sums = {place: [sum_of(*file), sum_of(b"", "644")]
                      for place, file in files.items()}
    for place in files:
        with told(target, place, end=NOTHING):
            found = folder.sum(place)
            if found is not None and found not in known.sums.get(place, []):
                raise Taken
    return known


def begin(target: Target, reached: Reached, known: Record, files: Files) -> Folder:
    """Writes what will be made into the record, and then makes the folders. Gives the prefix."""
    folder, new = Folder(reached.fd), ["."] if reached.is_new else []
    with told(target, os.path.dirname(RECORD), "made"), folder.holder(RECORD, new, True):
        pass
    with told(target, RECORD):
        folder.clean([RECORD, *known.sums])
        places = [*folders(files)]
        known.add_folders([*new, *(it for it in places if folder.sum(it) is None)])
        for place, file in files.items():
            known.add_sum(place, sum_of(*file))
        known.write(folder)
    for place in places:
        with told(target, place, "made"), folder.holder(f"{place}/.", new, True):
            pass
    with told(target, os.path.dirname(RECORD), "made"):
        folder.settle(new)
        folder.sync(new)
    return folder


def put(target: Target, folder: Folder, known: Record, files: Files) -> None:
    """Puts the files, and has the record name them alone."""
    for place, (text, mode) in files.items():
        with told(target, place), undisturbed():
            folder.put(place, text, mode, known.sums[place])
        say(f"installed {target.shown}/{place}")
    known.sums.update((place, [sum_of(*file)]) for place, file in files.items())
    with told(target, RECORD):
        folder.sync(files)
        known.write(folder)
    say(f"installed {target.shown}/{RECORD}")


def install(target: Target, rows: List[Row], program: str = "", built: str = "",
            unproved: Optional[str] = None) -> None:
    """Puts all rows, or none where something is in the way of one."""
    files = {it.place: content(it, target, program, built) for it in rows}
    # Each mode is the one that is asked for.
    os.umask(0)
    with told(target, os.path.dirname(RECORD), "made", NOTHING):
        reached = hold_prefix(target, make=True)
    known = look(target, Folder(reached.fd), files)
    if unproved is not None:
        known.unproved = unproved
    with undisturbed():
        folder = begin(target, reached, known, files)
    put(target, folder, known, files)


def left(target: Target, folder: Folder, known: Record) -> Iterator[str]:
    """Removes the files of the record, and says why one is left."""
    for place, sums in known.sums.items():
        at = f"{target.shown}/{place}"
        try:
            if folder.remove(place, sums):
                say(f"removed {at}")
            elif folder.sum(place) is not None:
                yield f"{at} was changed since it was installed; it is left"
        except FileNotFoundError:
            pass
        except (Linked, NotADirectoryError) as error:
            if isinstance(error, Linked):
                yield f"{at} is behind a symbolic link, {target.shown}/{error}; it is left"
        except OSError:
            raise Stopped(3, f"{at} could not be removed") from None


def remove(target: Target) -> int:
    """Removes what the record has, and returns the status."""
    nothing = "; nothing was removed"
    try:
        reached = hold_prefix(target, make=False)
        with undisturbed():
            known = read_record(target, Folder(reached.fd), nothing)
            if known and not known.is_empty:
                return remove_known(target, reached, known)
            if not known:
                remove_unknown(reached)
    except Linked as error:
        stop_on_link(target, error, nothing)
    except (FileNotFoundError, NotADirectoryError):
        known = None
    if known:
        why = "is empty, as after a power cut, and is written anew by installing again"
        raise Stopped(1, f"{target.shown}/{RECORD} {why}{nothing}")
    raise Stopped(1, f"nothing is installed under {target.shown}")


def remove_known(target: Target, reached: Reached, known: Record) -> int:
    """Removes what is in the record, which goes last but for the folders around it."""
    folder, status = Folder(reached.fd), 0
    for why in left(target, folder, known):
        complain(why)
        status = 1
    folder.clean([RECORD, *known.sums])
    try:
        folder.sync(known.sums)
        remove_folders(reached, folder, [it for it in known.folders if it not in AROUND])
        unsettle(folder, known)
        is_removed = folder.remove(RECORD, known.written)
    except (OSError, Linked):
        is_removed = False
    if not is_removed:
        raise Stopped(3, f"{target.shown}/{RECORD} could not be removed")
    say(f"removed {target.shown}/{RECORD}")
    remove_folders(reached, folder, known.folders)
    return status


def unsettle(folder: Folder, known: Record) -> None:
    """Has the next run know those folders around the record that were made, and have nothing else,
    once the record is gone. Those of another user stay as they are."""
    for place, name in zip(AROUND, RECORD.split("/")[::-1]):
        with folder.holder(f"{place}/.") as (fd, _), listing(fd) as entries:
            if place not in known.folders or os.listdir(entries) != [name]:
                return
            with contextlib.suppress(PermissionError):
                settle(fd, UNSETTLED)


def remove_unknown(reached: Reached) -> None:
    """Removes what a run left that was cut before it had a record."""
    folder, new = Folder(reached.fd), ["."] if reached.is_new else []
    folder.clean([RECORD])
    with contextlib.suppress(OSError, Linked), folder.holder(RECORD, new):
        pass
    remove_folders(reached, folder, new)


def remove_folders(reached: Reached, folder: Folder, made: List[str]) -> None:
    """Removes the folders that were made and are empty, the prefix itself last."""
    for it in sorted(made, reverse=True):
        if it != ".":
            folder.remove_folder(it)
    if "." not in made or reached.above < 0:
        return
    name = os.path.basename(reached.path)
    with contextlib.suppress(OSError):
        there = os.stat(name, dir_fd=reached.above, follow_symlinks=False)
        if os.path.samestat(there, os.fstat(reached.fd)):
            os.rmdir(name, dir_fd=reached.above)
