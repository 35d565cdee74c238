"""Tries the edits of a crate, many in one check. The prover judges each function by itself, by its
body and the contracts of what it calls, and says so in a line. So a check of a text with edits in
the bodies of several functions refuses those whose edit is wrong. An edit that isn't refused so, or
changes something beside bodies, is tried alone: then it is refused where any item is.
"""
import contextlib
import os
import re
import shutil
import subprocess
import sys
from typing import Dict, Iterator, List, NamedTuple, Optional, Set, Tuple

from crates import ROOT, Crates, below

# The first line of a function that rt fmt laid out; its last one is a brace below its first word.
HEAD = re.compile(r'( *)(?:pub(?:\(\w+\))? )?(?:const )?(?:unsafe )?(?:extern "C" )?fn (\w+)')
IMPL = re.compile(r"impl(?:<([^>]*)>)? (?:(\w+)\S* for )?(\w+)")
# What the prover says of an item, and the part of it that is said of what it calls.
VERDICT = re.compile(r"(\w+) (\S+): (?:not proved|no proof)(?:[:;] (.*))?")
OF_CALLS = re.compile(r"(?:in `[^`]*`, of this cycle of calls: )?it \w+ (?:the block )?`[^`]*`"
                      r"(?: and `[^`]*`)*, which (?:is|are) not proved"
                      r"|it waits for the proof of `[^`]*`")
# An error in what is written of a function's proof, and a goal of it that isn't proved. For calls
# in a cycle, whose proofs stand in one file, the goal's name begins with the function's.
ANSWER = re.compile(r"(?:note: )?(?:\./)?proofs/(\S+)/\w+\.antt:\d+:\d+: error: `(\w+)")
GOAL = re.compile(r"`(\w+)-[^`]*`")
# Limits of the prover itself, which it meets wherever it checks the same: an edit is refused there.
LIMITS = re.compile(r"antt ran out of (?:stack|the (?:steps|memory) that the check of one)"
                    r"|(?:outgrew the memory limit|stopped at the step limit) \(")


class Pair(NamedTuple):
    """A text that stands once in a file of the crate, what stands there instead, and its line."""

    path: str
    old: str
    new: str
    line: int


class Edit(NamedTuple):
    """An edit by its file's name."""

    name: str
    pairs: List[Pair]


class Function(NamedTuple):
    """A function by its name and what it belongs to: a module, a type, or a type with a trait."""

    owner: str
    name: str


Texts = Dict[str, str]


class Misplaced(Exception):
    """An edit can't be applied: its line, and why."""


class Unread(Exception):
    """A check of what edits make gives no verdict, as where it can't be read: what it said."""


def edit_of(folder: str, name: str) -> Edit:
    """An edit of a crate's folder, whose lines are 'file: PATH', 'old: TEXT' and 'new: TEXT'."""
    pairs, said = [], {}
    with open(f"{folder}/edits/{name}", encoding="utf-8") as lines:
        for number, line in enumerate(lines.read().split("\n"), 1):
            word, _, rest = line.partition(":")
            said[word] = rest[1:] if rest.startswith(" ") else rest
            if word == "new":
                old = said.pop("old", "")
                pairs.append(Pair(said.get("file", "").strip(), old, said["new"], number))
    return Edit(name, pairs)


def applied(edits: List[Edit], folder: str) -> Texts:
    """The texts of the files that these edits change."""
    texts: Texts = {}
    for path, old, new, line in (pair for edit in edits for pair in edit.pairs):
        if path not in texts:
            if not os.path.isfile(f"{folder}/{path}"):
                raise Misplaced(f"1: there is no file {path}" if path else "1: it names no file")
            with open(f"{folder}/{path}", encoding="utf-8") as text:
                texts[path] = text.read()
        count = texts[path].count(old) if old else 0
        if count != 1:
            said = f"what it replaces is {count} times in {path}, not once: {old}"
            raise Misplaced(f"{line}: {said}")
        texts[path] = texts[path].replace(old, new)
    if not texts:
        raise Misplaced("1: it names no file")
    return texts


def owner_of(line: str) -> str:
    """What the functions of an impl are named by: its type, `Any` for any, and its trait."""
    impl = IMPL.match(line)
    if not impl:
        return ""
    any_type = impl[3] in re.split(r"\W+", impl[1] or "")
    return f"{'Any' if any_type else impl[3]}{impl[2] or ''}"


def bodies_of(text: str, module: str) -> Iterator[Tuple[Function, int, int]]:
    """The bodies of a text's functions, from the brace that opens one to behind the last line."""
    at, begun, owner, head = 0, 0, module, None
    for line in text.splitlines(keepends=True):
        if line.startswith(("impl", "}")):
            owner = owner_of(line) or module
        found = HEAD.match(line)
        if found:
            head, begun = found, 0
        words = line.rstrip()
        # The brace stands behind the head, or below its clauses.
        if head and not begun and words.endswith("{") and (
                found or words == f"{head[1]}{{" or words.startswith(f"{head[1]})")):
            begun = at + len(words) - 1
        at += len(line)
        if head and words in (f"{head[1]}}}", f"{head[1]}{{}}"):
            if begun:
                yield Function(owner if head[1] else module, head[2]), begun, at
            head = None


def module_of(path: str) -> str:
    """The module of a file of src/."""
    words = path.removesuffix(".rt").split("/")[1:]
    return "::".join(words[:-1] if words[-1] in ("lib", "main", "mod") else words)


def changed(edit: Edit, folder: str) -> Optional[Set[Function]]:
    """The functions whose bodies an edit changes; nothing where it changes something else too."""
    found = set()
    for path, old, _, _ in edit.pairs:
        with open(f"{folder}/{path}", encoding="utf-8") as text:
            whole = text.read()
        at = whole.find(old)
        bodies = bodies_of(whole, module_of(path))
        inside = [it for it, begin, end in bodies if begin <= at < end]
        if at < 0 or not path.startswith("src/") or not inside:
            return None
        found.add(inside[0])
    return found


def are_placed(edits: List[Edit], folder: str) -> bool:
    """Whether these edits can be applied one after another."""
    with contextlib.suppress(Misplaced):
        return bool(applied(edits, folder))
    return False


def batches(edits: List[Edit], folder: str) -> List[List[Edit]]:
    """The edits in as few parts as they need for no function to be changed twice in one, and for
    none to put in what another looks for."""
    made: List[Tuple[List[Edit], Set[Function]]] = []
    alone = []
    for edit in edits:
        places = changed(edit, folder)
        if places is None:
            alone.append([edit])
            continue
        part = next((it for it in made
                     if not it[1] & places and are_placed([*it[0], edit], folder)), None)
        if part is None:
            part = ([], set())
            made.append(part)
        part[0].append(edit)
        part[1].update(places)
    return [it for it, _ in made] + alone


class Trials:
    """A crate in a repository of its own, over the libraries below it as they are built."""

    def __init__(self, crates: Crates, name: str, room: str) -> None:
        self.name = name
        self.source = f"{ROOT}/crates/{name}"
        self.folder = f"{room}/crates/{name}"
        names = [it for it in crates if it == name or it in below(crates, name)]
        for it in names:
            self.copy(it)
        with open(f"{room}/crates.txt", "w", encoding="utf-8") as text:
            text.writelines(crates[it].line for it in names)
        shutil.copy(f"{ROOT}/HANDLES", room)
        # rt takes this for the top of a repository.
        os.mkdir(f"{room}/.git")
        stamp(room)
        self.room = room
        self.checks = 0

    def copy(self, name: str) -> None:
        """Copies a crate, and its built library by links."""
        there = os.path.dirname(self.folder) + f"/{name}"
        leaves = shutil.ignore_patterns("out", "edits")
        shutil.copytree(f"{ROOT}/crates/{name}", there, ignore=leaves)
        built = f"{ROOT}/crates/{name}/out/rlib"
        if name != self.name and os.path.isdir(built):
            shutil.copytree(built, f"{there}/out/rlib", copy_function=linked)

    def proves(self, command: List[str]) -> bool:
        """Whether the crate is proved as it stands, by this command."""
        ran = self.ran(command, self.room if command == ["rt", "ci"] else self.folder)
        if ran.returncode:
            print(ran.stdout, end="", flush=True)
        return ran.returncode == 0

    def ran(self, command: List[str], folder: str) -> "subprocess.CompletedProcess[str]":
        return subprocess.run(command, cwd=folder, stdin=subprocess.DEVNULL,
                              stdout=subprocess.PIPE, stderr=subprocess.STDOUT, text=True,
                              errors="replace", check=False)

    def judged(self, edits: List[Edit]) -> Set[Function]:
        """What a check with these edits finds wrong, but for what only calls such a function."""
        texts = applied(edits, self.source)
        self.checks += 1
        try:
            for path, text in texts.items():
                with open(f"{self.folder}/{path}", "w", encoding="utf-8") as file:
                    file.write(text)
            ran = self.ran(["rt", "check"], self.folder)
            if ran.returncode < 0:
                # Killed, most likely for memory.
                ran = self.ran(["rt", "check", "--jobs", "1"], self.folder)
        finally:
            for path in texts:
                shutil.copy(f"{self.source}/{path}", f"{self.folder}/{path}")
        lines = ran.stdout.splitlines()
        lost = {*failures(lines)}
        if not lost and LIMITS.search(ran.stdout):
            return {Function("", "a limit of the prover")}
        if not any(it.startswith("logic=") for it in lines):
            raise Unread("\n".join(lines[:6]))
        return lost

    def refused(self, edits: List[Edit]) -> Set[str]:
        """Those of these edits, by name, that the prover refuses."""
        try:
            lost = self.judged(edits)
        except Unread as error:
            return self.halves(edits, f"has no verdict: {error}")
        if len(edits) == 1:
            return {edits[0].name} if lost else self.none(edits[0], "is still proved")
        places = [changed(it, self.source) or set() for it in edits]
        found = {it.name for it, at in zip(edits, places) if all(among(it, lost) for it in at)}
        rest = [it for it in edits if it.name not in found]
        if len(rest) == len(edits):
            return self.halves(edits, "is not refused beside others")
        return found | self.refused(rest) if rest else found

    def halves(self, edits: List[Edit], why: str) -> Set[str]:
        """Tries a part's halves, where it can't be judged whole."""
        if len(edits) == 1:
            return self.none(edits[0], why)
        half = len(edits) // 2
        return self.refused(edits[:half]) | self.refused(edits[half:])

    def none(self, edit: Edit, why: str) -> Set[str]:
        print(f"{self.name}/{edit.name} {why}", flush=True)
        return set()


def failures(lines: List[str]) -> Iterator[Function]:
    """The functions that a check refuses by themselves, and other items by their kind and path."""
    for line in lines:
        verdict, answer = VERDICT.fullmatch(line), ANSWER.match(line)
        if answer:
            *words, last = answer[1].split("/")
            yield function([*words, answer[2] if last[0] == "+" else last])
        elif verdict and verdict[1] != "fn":
            if OF_CALLS.sub("", verdict[3] or "refused").strip("; "):
                yield Function(verdict[1], verdict[2])
        elif verdict:
            reasons = OF_CALLS.sub("", verdict[3] or "refused").strip("; ")
            words = verdict[2].split("::")[1:]
            names = GOAL.findall(reasons) if "/+" in reasons else words[-1:] if reasons else []
            yield from (function([*words[:-1], it]) for it in names)


def function(words: List[str]) -> Function:
    """A function by the words of its path: modules, maybe a type or impl, and its name.

    What a function hands a closure to is named behind it: `order::fn::Parser::parse::find`.
    """
    at = words.index("fn") if "fn" in words else len(words) - 1
    modules, behind = words[:at], words[at + 1:] or words[at:]
    if behind[0][0].isupper() and len(behind) > 1:
        return Function(behind[0], behind[1])
    if modules and modules[-1][0].isupper():
        return Function(modules[-1], behind[0])
    return Function("::".join(modules), behind[0])


def among(place: Function, lost: Set[Function]) -> bool:
    """Whether a check refused a function: an impl's name may go on with the trait's arguments."""
    is_type = place.owner[:1].isupper()
    return place in lost or is_type and any(
        it.name == place.name and it.owner.startswith(place.owner) for it in lost)


def linked(one: str, other: str) -> str:
    """Gives a file of a library a second name: rt removes such a file before it makes it anew."""
    try:
        os.link(one, other)
    except OSError:
        # The room is on another disk, say.
        shutil.copy2(one, other)
    return other


def stamp(room: str) -> None:
    """Says of each built library of what it is built, as `rt lib` does where `rt ci` doesn't.

    Without that, and where the kit has no such module, `rt check` proves these libraries again.
    """
    sys.path.append(os.path.dirname(os.path.realpath(shutil.which("rt") or "")))
    with contextlib.suppress(ImportError, AttributeError):
        import rtlib  # type: ignore[import-not-found]
        for crate in rtlib.crates_below(room):
            if os.path.isdir(crate.rlib):
                with open(f"{crate.folder}/out/rlib/stamp", "w", encoding="utf-8") as text:
                    text.write(crate.stamp())
