"""Files below a folder, by descriptors, so that no symbolic link there is followed.

Whoever may write in one of these folders can put a link there at any time. So each folder is
opened by its name in the one above it, and refused where it is a link. A new file is made under a
name of its own, by which a run that is cut leaves it to the next one, and takes its place at once.
"""
import contextlib
import errno
import hashlib
import os
import stat
from typing import Collection, Iterable, Iterator, List, NamedTuple, Optional, Tuple

PLACE = os.O_PATH | os.O_NOFOLLOW | os.O_CLOEXEC
LIST = os.O_RDONLY | os.O_DIRECTORY | os.O_NOFOLLOW | os.O_CLOEXEC
READ = os.O_RDONLY | os.O_NOFOLLOW | os.O_NONBLOCK | os.O_NOCTTY | os.O_CLOEXEC
NEW = os.O_WRONLY | os.O_CREAT | os.O_EXCL | os.O_NOFOLLOW | os.O_CLOEXEC
# As many links as the kernel follows in a path.
MOST_LINKS = 40
# What a file system answers that has no hard links.
NO_LINKS = (errno.EPERM, errno.EOPNOTSUPP, errno.ENOSYS, errno.EMLINK)
# The mode of a folder, and of one that no record has yet: nobody else gives a folder that one, so a
# run that is cut leaves a folder which the next one knows.
SETTLED, UNSETTLED = 0o755, 0o1701
# Of a new file's name, which is that of its place beside.
NEW_NAME = ".{}.e1f0c7a95b3d4826.new"
# What a file system answers that has no names to be kept on a disk.
NO_SYNC = (errno.EINVAL, errno.EACCES)
# The sum of what is neither a file nor a link, or can't be read.
OTHER = "other"


class Linked(Exception):
    """A symbolic link stands in the way: at which path, and what it is."""

    def __init__(self, path: str, what: str = "is a symbolic link") -> None:
        super().__init__(path)
        self.what = what


class Taken(Exception):
    """Something else stands in the place of a file."""


class Reached(NamedTuple):
    """A folder that is open, by its path; the one above, open too; and whether it is new."""

    fd: int
    path: str
    above: int
    is_new: bool


def enter(fd: int, name: str, make: bool) -> Tuple[int, bool]:
    """Opens what has this name in a folder, and says whether it is a new folder: one that was made
    now, or by a run of the caller's that was cut before a record had it."""
    is_new = False
    try:
        found = os.open(name, PLACE, dir_fd=fd)
    except FileNotFoundError:
        if not make:
            raise
        with contextlib.suppress(FileExistsError):
            os.mkdir(name, UNSETTLED, dir_fd=fd)
            is_new = True
        found = os.open(name, PLACE, dir_fd=fd)
    status = os.fstat(found)
    is_cut = stat.S_ISDIR(status.st_mode) and status.st_mode & 0o1777 == UNSETTLED
    return found, is_new or is_cut and status.st_uid == os.geteuid()


@contextlib.contextmanager
def listing(fd: int) -> Iterator[int]:
    """A folder, open to be read."""
    found = os.open(".", LIST, dir_fd=fd)
    try:
        yield found
    finally:
        os.close(found)


def settle(fd: int, mode: int = SETTLED) -> None:
    """Gives a folder its mode, and leaves it the bit by which what is in it has its group."""
    with listing(fd) as folder:
        status = os.fstat(folder)
        # One that took the place of a new folder meanwhile has another mode, or another owner.
        is_new = status.st_mode & 0o1776 == 0o1700 and status.st_uid == os.geteuid()
        if is_new or mode == UNSETTLED:
            os.fchmod(folder, mode | status.st_mode & stat.S_ISGID)


def sync(fd: int) -> None:
    """Has the names in a folder outlive a power cut."""
    try:
        with listing(fd) as folder:
            os.fsync(folder)
    except OSError as error:
        if error.errno not in NO_SYNC:
            raise


def reach(path: str, make: bool, below: Optional[Reached] = None) -> Reached:
    """Opens a folder by its path from /, or below one that is open; makes it where that is asked.

    From / a link is followed where it is root's or the caller's, who chose that path. Below a
    folder none is.
    """
    now = below or Reached(os.open("/", PLACE), "/", -1, False)
    left, links = path.split("/")[::-1], 0
    while left:
        part = left.pop()
        if part in ("", "."):
            continue
        fd, is_new = enter(now.fd, part, make)
        status, at = os.fstat(fd), os.path.normpath(f"{now.path.rstrip('/')}/{part}")
        if stat.S_ISDIR(status.st_mode):
            if now.is_new and make:
                # No record has a folder above the one that is asked for.
                settle(now.fd)
            if is_new and make:
                sync(now.fd)
            now = Reached(fd, at, now.fd, is_new)
            continue
        links += 1
        if not stat.S_ISLNK(status.st_mode) or links > MOST_LINKS:
            raise NotADirectoryError(errno.ENOTDIR, os.strerror(errno.ENOTDIR), at)
        if below:
            raise Linked(at)
        if status.st_uid not in (0, os.geteuid()):
            raise Linked(at, "is another user's symbolic link")
        target = os.readlink("", dir_fd=fd)
        left += target.split("/")[::-1]
        if target.startswith("/"):
            now = Reached(os.open("/", PLACE), "/", -1, False)
    return now


def sum_at(fd: int, name: str) -> Optional[str]:
    """The sum of a file's bytes, or what a link points to; none where nothing has this name."""
    try:
        mode = os.stat(name, dir_fd=fd, follow_symlinks=False).st_mode
        if stat.S_ISLNK(mode):
            return f"link:{os.readlink(name, dir_fd=fd)}"
        if not stat.S_ISREG(mode):
            return OTHER
        with open(os.open(name, READ, dir_fd=fd), "rb") as file:
            found = hashlib.sha256()
            if not stat.S_ISREG(os.fstat(file.fileno()).st_mode):
                return OTHER
            while True:
                piece = file.read(1 << 20)
                if not piece:
                    return found.hexdigest()
                found.update(piece)
    except FileNotFoundError:
        return None
    except PermissionError:
        return OTHER


def sum_of(content: bytes, mode: str) -> str:
    """The sum that a file, or a link, has once it is there."""
    if mode == "link":
        return f"link:{os.fsdecode(content)}"
    return hashlib.sha256(content).hexdigest()


def write(fd: int, name: str, content: bytes, mode: str) -> None:
    """Makes a new file, or a link."""
    if mode == "link":
        os.symlink(content, name, dir_fd=fd)
        return
    with open(os.open(name, NEW, 0o600, dir_fd=fd), "wb") as file:
        file.write(content)
        file.flush()
        os.fchmod(file.fileno(), int(mode, 8))
        # It takes its place only once its bytes outlive a power cut.
        os.fsync(file.fileno())


def take_free(fd: int, new: str, name: str) -> None:
    """Has a new file take a place where nothing is, by a link, which replaces nothing."""
    try:
        os.link(new, name, src_dir_fd=fd, dst_dir_fd=fd, follow_symlinks=False)
        os.unlink(new, dir_fd=fd)
    except FileExistsError:
        raise Taken from None
    except OSError as error:
        if error.errno not in NO_LINKS:
            raise
        os.rename(new, name, src_dir_fd=fd, dst_dir_fd=fd)


class Folder:
    """A folder that is open, and the places below it, which are paths from there."""

    def __init__(self, fd: int) -> None:
        self.fd = fd

    @contextlib.contextmanager
    def holder(self, place: str, new: Optional[List[str]] = None,
               make: bool = False) -> Iterator[Tuple[int, str]]:
        """The folder in which a place is, and its name there. Folders that are missing are made
        where that is asked, and the list gets those that are new."""
        *parts, name = place.split("/")
        fd = os.dup(self.fd)
        try:
            for number, part in enumerate(parts, 1):
                at = "/".join(parts[:number])
                found, is_new = enter(fd, part, make)
                os.close(fd)
                fd = found
                if is_new and new is not None and at not in new:
                    new.append(at)
                mode = os.fstat(fd).st_mode
                if stat.S_ISLNK(mode):
                    raise Linked(at)
                if not stat.S_ISDIR(mode):
                    raise NotADirectoryError(errno.ENOTDIR, os.strerror(errno.ENOTDIR), at)
            yield fd, name
        finally:
            os.close(fd)

    def settle(self, places: Iterable[str]) -> None:
        """Gives new folders their mode."""
        for place in places:
            with self.holder(f"{place}/.") as (fd, _):
                settle(fd)

    def sync(self, places: Iterable[str]) -> None:
        """Has the names in the folders of these places outlive a power cut."""
        for above in sorted({os.path.dirname(place) or "." for place in places}):
            with contextlib.suppress(FileNotFoundError, NotADirectoryError, Linked), \
                    self.holder(f"{above}/.") as (fd, _):
                sync(fd)

    def clean(self, places: Iterable[str]) -> None:
        """Removes the new files of a run that was cut before they took these places."""
        for place in places:
            with contextlib.suppress(OSError, Linked), self.holder(place) as (fd, name):
                new = NEW_NAME.format(name)
                status = os.stat(new, dir_fd=fd, follow_symlinks=False)
                if status.st_uid in (0, os.geteuid()):
                    os.unlink(new, dir_fd=fd)

    def sum(self, place: str) -> Optional[str]:
        """As of `sum_at`; of a place whose folder is not there too."""
        try:
            with self.holder(place) as (fd, name):
                return sum_at(fd, name)
        except FileNotFoundError:
            return None

    def put(self, place: str, content: bytes, mode: str, ours: Collection[str]) -> None:
        """Puts a file, whole and at once, where nothing is, or in place of one with such a sum."""
        with self.holder(place) as (fd, name):
            new = NEW_NAME.format(name)
            try:
                write(fd, new, content, mode)
                found = sum_at(fd, name)
                if found is None:
                    take_free(fd, new, name)
                elif found in ours:
                    os.rename(new, name, src_dir_fd=fd, dst_dir_fd=fd)
                else:
                    raise Taken
            except FileExistsError:
                # The new file is another's.
                raise
            except BaseException:
                with contextlib.suppress(FileNotFoundError):
                    os.unlink(new, dir_fd=fd)
                raise

    def remove(self, place: str, ours: Collection[str]) -> bool:
        """Removes a file with such a sum, and says whether it was there and had one."""
        with self.holder(place) as (fd, name):
            if sum_at(fd, name) not in ours:
                return False
            os.unlink(name, dir_fd=fd)
            return True

    def remove_folder(self, place: str) -> None:
        """Removes an empty folder; any other is left, and what isn't one."""
        with contextlib.suppress(OSError, Linked), self.holder(place) as (fd, name):
            os.rmdir(name, dir_fd=fd)
