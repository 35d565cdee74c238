#!/usr/bin/env python3
"""Types `rtnl-record dump link --netns` with a tab in bash, zsh and fish, where the one network
namespace that `ip` lists has a hostile name: the command that is entered then names just that one,
and nothing that stands in the name was run. So it is with the one device that there is. Kinds,
address families, bits and the file of a monitor are completed, too.
The last line is 'N passed, M failed', and the status is 1 where a case failed.
"""
import os
import pty
import select
import shutil
import signal
import sys
import tempfile
import time
from typing import Dict, Iterator, List, Tuple

sys.dont_write_bytecode = True
HERE = os.path.dirname(os.path.realpath(__file__))
ROOT = os.path.dirname(os.path.dirname(HERE))
sys.path.insert(0, f"{ROOT}/tests/helpers")
from counting import counted

PATIENCE = 20.0
# What runs where a name is expanded: it makes a file in the folder of the shell.
RUN = "touch${IFS}PWNED"
NAMES = [
    "blue", f"$({RUN})", f"`{RUN}`", f"<({RUN})", f"a;{RUN};", f"a|{RUN}", f"a&{RUN}&",
    f"$'{RUN}'",
    "two words", "  blanks ", "it's", 'say "no"', "back\\slash", "a\\nb", "${HOME}", "$HOME", "~",
    "~root", "*", "[ab]?", "{a,b}", "a!b", "#a", "a=b", "a(b)", "a (id: b)", "ünder",
]
# A device has no blank in its name.
DEVICES = ["eth0.7", f"$({RUN})", f"a;{RUN};", f"$'{RUN}'", "it's", "$HOME", "~", "[ab]?"]
# Fish would take what it has inserted for a home folder.
LEFT_OUT = {"fish": ["~", "~root"]}
# Such a name would be taken for an option, but behind the sign.
DASHED = ["-dash", f"--$({RUN})"]
# What is typed in front of the tab, and the rest of the name.
QUOTED = [("'t", "two words"), ("'i", "it's"), ("'$", f"$({RUN})")]
# What is typed behind a dump, and the words that come of it.
DUMPED = [
    ("nexth", ["nexthop"]), ("link --family mp", ["link", "--family", "mpls"]),
    ("link --family=br", ["link", "--family=bridge"]), ("neigh --pr", ["neigh", "--proxy"]),
    ("link --ext-mask sk", ["link", "--ext-mask", "skip-stats"]),
    ("link --ext-mask=vf,ms", ["link", "--ext-mask=vf,mst"]),
]
# What is typed behind the monitor, and the words that come of it: kinds, and a file of the folder.
MONITORED = [
    ("--dump rou", ["--dump", "route"]), ("--dump=ru", ["--dump=rule"]),
    ("--dump link,ro", ["--dump", "link,route"]), ("--dump=rule,ad", ["--dump=rule,addr"]),
    ("--again nam", ["--again", "names"]), ("--again=nam", ["--again=names"]),
]
START = {
    "bash": f". '{ROOT}/share/completions/rtnl-record.bash'",
    "zsh": f"fpath=('{ROOT}/share/completions' $fpath); autoload -Uz compinit; compinit -D -u",
    "fish": f"source '{ROOT}/share/completions/rtnl-record.fish'",
}
COMMANDS = {
    "bash": ["bash", "--norc", "--noprofile", "-i"], "zsh": ["zsh", "-f", "-i"],
    "fish": ["fish", "--no-config", "-i"],
}


class Shell:
    """A shell at a terminal, in a folder of its own, whose programs `ip` and `rtnl-record` are
    those below."""

    def __init__(self, name: str, folder: str) -> None:
        self.name, self.folder = name, folder
        os.mkdir(f"{folder}/bin")
        self.program("ip", 'cat "$NAMES"')
        self.program("sed", 'case $* in *" /proc/net/dev") cat "$DEVICES" ;; '
                     '*) exec /bin/sed "$@" ;; esac')
        self.program("rtnl-record",
                     'printf "%s\\0" "$@" >"$ASKED.new" && mv "$ASKED.new" "$ASKED"')
        self.process, self.terminal = pty.fork()
        if self.process == 0:
            os.chdir(folder)
            os.execvpe(name, COMMANDS[name], self.surroundings())
        self.enter(START[name])

    def program(self, name: str, line: str) -> None:
        with open(f"{self.folder}/bin/{name}", "w", encoding="utf-8") as file:
            file.write(f"#!/bin/sh\n{line}\n")
        os.chmod(file.name, 0o755)

    def surroundings(self) -> Dict[str, str]:
        return {"PATH": f"{self.folder}/bin:{os.environ['PATH']}", "HOME": self.folder,
                "TERM": "dumb", "LC_ALL": "C.UTF-8", "NAMES": f"{self.folder}/names",
                "DEVICES": f"{self.folder}/devices",
                "ASKED": f"{self.folder}/asked"}

    def type(self, text: str) -> None:
        """Types this, and reads what the shell shows of it until it is silent."""
        os.write(self.terminal, text.encode())
        while select.select([self.terminal], [], [], 0.2)[0]:
            os.read(self.terminal, 4096)

    def enter(self, line: str) -> None:
        self.type(f"{line}; rtnl-record\r")
        self.asked()

    def asked(self) -> List[str]:
        """The words that `rtnl-record` was given, once it was."""
        path, end = f"{self.folder}/asked", time.monotonic() + PATIENCE
        while not os.path.exists(path):
            if time.monotonic() > end:
                return ["nothing"]
            self.type("")
        with open(path, encoding="utf-8") as file:
            words = file.read().split("\0")[:-1]
        os.remove(path)
        return words

    def judged(self, name: str, typed: str, words: List[str]) -> List[str]:
        """What is wrong with the words that come of this, typed with a tab."""
        for place, line in (("names", f"{name} (id: 7)"), ("devices", name)):
            with open(f"{self.folder}/{place}", "w", encoding="utf-8") as file:
                file.write(f"{line}\n")
        wrong = self.compared(f"dump {typed}", ["dump", *words])
        return wrong + (["it was run"] if os.path.exists(f"{self.folder}/PWNED") else [])

    def compared(self, typed: str, words: List[str]) -> List[str]:
        """The words that come of this, typed with a tab, where they are others."""
        self.type(f"rtnl-record {typed}\t")
        self.type("\r")
        found = self.asked()
        return [] if found == words else [f"{found} for {words}"]

    def end(self) -> None:
        os.kill(self.process, signal.SIGKILL)
        os.waitpid(self.process, 0)
        os.close(self.terminal)


def cases(shell: Shell) -> Iterator[Tuple[str, List[str]]]:
    yield from named(shell, "link --netns", NAMES)
    yield from named(shell, "class --dev", DEVICES)
    for typed, words in DUMPED:
        yield typed, shell.compared(f"dump {typed}", ["dump", *words])
    for typed, words in MONITORED:
        yield typed, shell.compared(f"monitor {typed}", ["monitor", *words])


def named(shell: Shell, typed: str, names: List[str]) -> Iterator[Tuple[str, List[str]]]:
    """Names behind an option, the last of these words."""
    kind, option = typed.split()
    for name in names:
        given = [] if name in LEFT_OUT.get(shell.name, []) else [name]
        yield f"{option} {name}", shell.judged(name, f"{typed} ", [kind, option, *given])
    for name in DASHED:
        yield f"{option} {name}", shell.judged(name, f"{typed} ", [kind, option])
        yield f"{option}={name}", shell.judged(name, f"{typed}=", [kind, f"{option}={name}"])
    for front, name in QUOTED:
        if name in names:
            yield f"{option} {front}", shell.judged(name, f"{typed} {front}", [kind, option, name])


def main() -> int:
    def found() -> Iterator[Tuple[str, List[str]]]:
        for name in COMMANDS:
            if not shutil.which(name):
                print(f"skipped: completion in {name}, since it is not here")
                continue
            with tempfile.TemporaryDirectory() as folder:
                shell = Shell(name, folder)
                yield from ((f"{name}: {case}", wrong) for case, wrong in cases(shell))
                shell.end()
    return counted(found())


if __name__ == "__main__":
    sys.exit(main())
