#!/usr/bin/env python3
"""Builds what ./rtnl runs and ./install --library installs, where these sources have no build yet.

  launch/build.py program [ARGUMENT ..]  builds the program and runs it with these arguments
  launch/build.py path                   builds the program and prints its path
  launch/build.py library                builds the library for C and prints its archive's path

Both are compiled without a proof, and with RTNL_PROVE=1 proved and built. What is not proved stands
in out/unproved/. A proved program is where rt puts it, a proved archive in out/proved/, which rt ci
leaves alone; either takes the place of the other, and never the other way. What is built takes its
place at once, whole, and is as old as this run, so that a source that was changed meanwhile is
newer. One build runs at a time; who comes meanwhile waits. Standard error says what is done;
standard output has the program's bytes alone.

With RTNL_BUILD=no nothing is built. The status is 3 where nothing could be built, with a line that
says why, and 128 and the number of a signal that ended it.
"""
import contextlib
import os
import shutil
import signal
import sys
import time
from typing import IO, Any, Callable, Iterator, List, NamedTuple, NoReturn, Sequence

sys.dont_write_bytecode = True
sys.path.append(f"{os.path.dirname(os.path.realpath(__file__))}/../c")
import compiled
import exports
import unproved
from crates import LEFT_OF_CI, ROOT, Crates, below, is_built, listed, outdated
from steps import Failed, Interrupted, hold, say, step, stop_on_signals

OUT = f"{ROOT}/out"
PROGRAM, LIBRARY = "rtnl_cli", "rtnl_c"
# A build needs less, in bytes.
LEAST_ROOM = 64 << 20
# Their scripts say how a call stands in the module and in the library, on which c/build.sh relies.
SCRIPTS = ("launch", "c")


class Made(NamedTuple):
    """What is built: its name, its crate, its places, how it is made of a module, and the folders
    of the scripts for which it is made anew."""

    name: str
    crate: str
    proved: str
    unproved: str
    compile: Callable[[Crates, IO[Any], str, str], List[str]]
    scripts: Sequence[str]


MADE = {
    "program": Made("program", PROGRAM, f"{ROOT}/crates/{PROGRAM}/out/{PROGRAM}",
                    f"{unproved.FOLDER}/rtnl", lambda _, *how: unproved.program(*how), ()),
    "library": Made("library", LIBRARY, f"{OUT}/proved/lib{LIBRARY}.a",
                    f"{unproved.FOLDER}/lib{LIBRARY}.a",
                    lambda crates, *how: compiled.build(crates, LIBRARY, *how), SCRIPTS),
}


@contextlib.contextmanager
def locked() -> Iterator[None]:
    """Holds the lock of the repository's builds, for which it waits."""
    with opened(f"{OUT}/lock", OUT) as lock:
        hold(lock.fileno(), lambda: say("waiting for another build here to end"))
        yield


def opened(path: str, said: str) -> IO[Any]:
    """A new file in a folder that is made."""
    try:
        os.makedirs(os.path.dirname(path), exist_ok=True)
        return open(path, "w", encoding="utf-8")
    except OSError as by:
        raise Failed(f"nothing could be built; {said} cannot be written: {by.strerror}") from None


def stop_without_room() -> None:
    left = shutil.disk_usage(OUT).free
    if left < LEAST_ROOM:
        raise Failed(f"nothing could be built; the disk of {OUT} is full, {left >> 20} MB are left")


def commands(made: Made, crates: Crates) -> Iterator[List[str]]:
    """What proves and builds each crate, lowest first. For the library those stand that rt ci built
    of these sources, with all below them, since rt lib would prove each once more."""
    is_new = made.name == "program"
    for it in below(crates, made.crate):
        is_new = is_new or not is_built(it)
        yield ["rt", "lib"] if is_new else []
    yield ["rt", "run"] if made.name == "program" else [f"{ROOT}/c/archive.py"]


def prove(made: Made, crates: Crates) -> str:
    """Proves and builds a crate and those below; an interrupted one goes on."""
    names, begun = [*below(crates, made.crate), made.crate], time.time()
    work = [*commands(made, crates)]
    cost = "up to an hour of processor time in all" if any(work[:-1]) else LEFT_OF_CI
    note = "" if os.path.exists(made.proved) else f"; {cost}, once"
    path = f"{os.path.dirname(made.proved)}/build.log"
    with opened(path, path) as log:
        for number, (it, words) in enumerate(zip(names, work), 1):
            text = f"proving and building {it}, {number} of {len(names)}{note}"
            try:
                done = not words or step(text, log, [words], cwd=f"{ROOT}/crates/{it}")
            except Interrupted as by:
                how = f"interrupted in {it}; see {path}; the next run goes on"
                raise Interrupted(by.number, how) from None
            if not done:
                stop_without_room()
                raise Failed(f"{it} could not be proved and built; see {path}")
    # A build with nothing to do leaves the time alone.
    os.utime(made.proved, (begun, begun))
    with contextlib.suppress(FileNotFoundError):
        os.unlink(made.unproved)
    say(f"the {made.name} is built, and proved on this machine")
    return made.proved


def take(room: str, names: Sequence[str], begun: float) -> str:
    """Has files of the room take their places, and returns the folder of these."""
    for it in names:
        os.utime(f"{room}/{it}", (begun, begun))
        os.replace(f"{room}/{it}", f"{unproved.FOLDER}/{it}")
    return unproved.FOLDER


def compile_in(room: str, made: Made, crates: Crates, log: IO[Any]) -> None:
    """Compiles it in a folder. The text is read where no module is kept of it: of both for the
    program, which is kept, and for the library its own alone, which takes less."""
    begun, at = time.time(), unproved.FOLDER
    os.mkdir(room)
    if outdated(f"{at}/{unproved.KEPT[0]}", PROGRAM, LIBRARY, scripts=SCRIPTS):
        exports.copied(room, made.crate, LIBRARY)
        uses = [*crates[made.crate].uses, *{LIBRARY} - {made.crate}]
        read = {**crates, made.crate: crates[made.crate]._replace(uses=uses)}
        unproved.lower(read, made.crate, log, room)
        at = take(room, unproved.KEPT[::-1], begun) if made.crate == PROGRAM else room
    # What is asked for is the last that is there.
    take(room, made.compile(crates, log, room, at)[::-1], begun)


def compile_it(made: Made, crates: Crates) -> str:
    """Compiles it without a proof."""
    room, path = f"{OUT}/building", f"{made.unproved}.log"
    shutil.rmtree(room, ignore_errors=True)
    try:
        with opened(path, path) as log:
            compile_in(room, made, crates, log)
    except (Failed, OSError) as error:
        # What fills the disk may stand in the folder that is removed below.
        stop_without_room()
        raise Failed(f"{error}; RTNL_PROVE=1 proves and builds it instead") from None
    finally:
        shutil.rmtree(room, ignore_errors=True)
    say(f"the {made.name} is built from these sources, and not proved on this machine;"
        " tests/run proves and tests it")
    return made.unproved


def built(name: str) -> str:
    """The path of the program or of the library's archive, once it is built."""
    made, is_proof_wanted = MADE[name], os.environ.get("RTNL_PROVE") == "1"
    with locked():
        why = outdated(made.proved, made.crate, parts=("specs", "proofs"))
        if why is None:
            return made.proved
        stale = is_proof_wanted or outdated(made.unproved, made.crate, scripts=made.scripts)
        if not stale:
            return made.unproved
        if os.environ.get("RTNL_BUILD") == "no":
            raise Failed(f"the {name} is not built from these sources")
        if shutil.which("rt") is None:
            why = "and rt, which builds it, is not on the PATH"
            raise Failed(f"the {name} is not built from these sources, {why}")
        stop_without_room()
        if is_proof_wanted:
            return prove(made, listed())
        if os.path.exists(made.proved):
            say(f"the {name} that was proved is older than {why}")
        say(f"no {name} is built from these sources; it is compiled now, in about a minute")
        return compile_it(made, listed())


def run(path: str, *arguments: str) -> NoReturn:
    if arguments in (("--version",), ("-V",)):
        is_proved = path == MADE["program"].proved
        say(f"this program is {'' if is_proved else 'not '}proved on this machine")
    # Python ignores these two, and a program would inherit that.
    for number in (signal.SIGPIPE, signal.SIGXFSZ):
        signal.signal(number, signal.SIG_DFL)
    os.execv(path, [path, *arguments])


def main(verb: str = "", *arguments: str) -> int:
    stop_on_signals()
    try:
        os.write(2, b"")
    except OSError:
        # Standard error is closed, and bash may have its script there; nothing is said.
        sys.stderr = open(os.devnull, "w", encoding="utf-8")
    try:
        if verb == "program":
            run(built("program"), *arguments)
        elif verb in ("path", "library") and not arguments:
            print(built("program" if verb == "path" else verb))
        else:
            print(__doc__, end="", file=sys.stderr)
            return 2
    except (Failed, OSError) as error:
        say(f"{error}")
        return 3
    except Interrupted as by:
        say(f"{by}")
        return 128 + by.number
    return 0


if __name__ == "__main__":
    sys.exit(main(*sys.argv[1:]))
