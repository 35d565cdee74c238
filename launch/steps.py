"""Steps of a build: each is said on standard error, what its commands say goes into a log."""
import contextlib
import fcntl
import os
import signal
import subprocess
import sys
import time
from typing import IO, Any, Callable, Iterator, List, Sequence

ENDING = (signal.SIGINT, signal.SIGTERM, signal.SIGHUP)


class Failed(Exception):
    """Why a build could not be done, in one line."""


class Interrupted(BaseException):
    """A signal came: its number, and what is said of it."""

    def __init__(self, number: int, text: str = "interrupted; nothing was built") -> None:
        super().__init__(text)
        self.number = number


def say(text: str, end: str = "\n") -> None:
    print(f"rtnl: {text}", end=end, file=sys.stderr, flush=True)


def stop_on_signals() -> None:
    """Has the signals that end a command raise Interrupted, so that what was begun is ended.

    The first one does, and no other then disturbs that; one that the caller ignores, as nohup has
    it, is ignored here.
    """

    def stop(number: int, _frame: object) -> None:
        for it in ENDING:
            signal.signal(it, signal.SIG_IGN)
        raise Interrupted(number)

    for it in ENDING:
        if signal.getsignal(it) != signal.SIG_IGN:
            signal.signal(it, stop)


@contextlib.contextmanager
def undisturbed() -> Iterator[Any]:
    """Has those signals wait, and gives what sets them free in a command that is started."""
    before = signal.pthread_sigmask(signal.SIG_BLOCK, ENDING)
    try:
        yield lambda: signal.pthread_sigmask(signal.SIG_SETMASK, before)
    finally:
        signal.pthread_sigmask(signal.SIG_SETMASK, before)


def hold(lock: int, say_so: Callable[[], None]) -> None:
    """Takes the lock of an open file until that is closed. Where another run has it, that is said,
    and this one waits."""
    try:
        fcntl.flock(lock, fcntl.LOCK_EX | fcntl.LOCK_NB)
    except BlockingIOError:
        say_so()
        fcntl.flock(lock, fcntl.LOCK_EX)


def end(started: Sequence["subprocess.Popen[bytes]"]) -> None:
    """Ends commands that still run, with those that they started."""
    for it in started:
        if it.poll() is None:
            try:
                os.killpg(it.pid, signal.SIGKILL)
            except ProcessLookupError:
                pass
            it.wait()


def step(text: str, log: IO[Any], commands: Sequence[List[str]], **how: Any) -> bool:
    """Runs commands side by side, and returns whether each ended well.

    On a terminal a clock says every second for how long, elsewhere one line says that it begins.
    """
    shows, begun = sys.stderr.isatty(), time.monotonic()
    say(text, "\r" if shows else "\n")
    how = {"stdin": subprocess.DEVNULL, "stdout": log, "stderr": subprocess.STDOUT, **how}
    started: List["subprocess.Popen[bytes]"] = []
    try:
        with undisturbed() as free:
            how.update(start_new_session=True, preexec_fn=free)
            for words in commands:
                started.append(subprocess.Popen(words, **how))
        for it in started:
            while it.poll() is None:
                try:
                    it.wait(timeout=1)
                except subprocess.TimeoutExpired:
                    if shows:
                        say(f"{text}, {int(time.monotonic() - begun)} s", "\r")
    finally:
        end(started)
        if shows:
            print(file=sys.stderr, flush=True)
    return not any(it.returncode for it in started)
