"""The files that tests/pages.py reads, what all its checks ask of a page, and what a check is."""
import os
import posixpath
import re
import subprocess
from typing import Callable, Iterator, List, NamedTuple, Set, Tuple

from contracts import Texts
from crates import ROOT, Crates, listed

README, THEOREMS = "README.md", "docs/THEOREMS.md"
SECURITY, CHANGELOG, FORMAT = "SECURITY.md", "CHANGELOG.md", "docs/FORMAT.md"
CODE = (".rt", ".antt", ".c", ".h", ".go", ".py", ".rs")
# What else is read: what the gate keeps of edits, and what these checks are handed.
DATA = "tests/data/pages/"
LOCK = "tests/edits.lock"
# Stands for a page that lists the scripts, a line each: x where it can be executed, #! where it
# begins so, else -, and its path.
SCRIPTS = "the repository"

FENCED = re.compile(r"^```.*?^```$", re.M | re.S)
SPAN = re.compile(r"(`+)(?!`)(?:(?!\n\n).)*?(?<!`)\1(?!`)", re.S)
HEADING = re.compile(r"^(#+) +(.*?)(?: +#+)?$", re.M)
NAME = re.compile(r"`([^`]+)`")
# The rows of tables; a function with some of its clauses; a block of code, with what it is of.
ROW = re.compile(r"^\|.*\|$", re.M)
CITED = re.compile(r"`([\w:]+)`: (`[a-z_]+`(?:, `[a-z_]+`)*)")
BLOCK = re.compile(r"^```(\w+)\n(.*?)^```$", re.M | re.S)


class Repository(NamedTuple):
    """The files by their paths, the texts of the pages and of the code among them, the crates."""

    files: Set[str]
    texts: Texts
    crates: Crates

    def pages(self) -> List[str]:
        return sorted(it for it in self.texts if it.endswith(".md"))

    def using(self) -> List[str]:
        """The pages that link words to the glossary. Packages have CHANGELOG.md as a plain text, and
        those of languages have pages that stand alone."""
        others = (it for it in self.pages() if not it.startswith("bindings/"))
        return [it for it in others if it not in (FORMAT, CHANGELOG)]

    def promising(self) -> List[str]:
        """The crates with definitions of their own, on each of which there are claims."""
        return [it for it in self.crates if f"crates/{it}/specs" in self.files]


def is_read(path: str) -> bool:
    return path.endswith((".md", *CODE)) or path.startswith(DATA) or path == LOCK


def scripts() -> Iterator[str]:
    """The lines of the listing, of the files that git has: what else lies there is nobody's."""
    ran = subprocess.run(["git", "ls-files", "-z"], cwd=ROOT, stdout=subprocess.PIPE, check=True)
    for path in ran.stdout.decode().split("\0")[:-1]:
        at = f"{ROOT}/{path}"
        if os.path.isfile(at) and not os.path.islink(at):
            with open(at, "rb") as file:
                kinds = "x" * os.access(at, os.X_OK) or "-", "#!" * (file.read(2) == b"#!") or "-"
            if kinds != ("-", "-"):
                yield f"{' '.join(kinds)} {path}\n"


def read_repository() -> Repository:
    files: Set[str] = set()
    texts: Texts = {SCRIPTS: "".join(scripts())}
    for at, folders, names in os.walk(ROOT):
        folders[:] = [it for it in folders if it not in ("out", "target", ".git")]
        inside = os.path.relpath(at, ROOT)
        files.add(inside)
        for name in names:
            path = posixpath.normpath(f"{inside}/{name}")
            files.add(path)
            if is_read(path):
                with open(f"{ROOT}/{path}", encoding="utf-8") as text:
                    texts[path] = text.read()
    return Repository(files, texts, listed())


def prose(text: str) -> str:
    """A page without its code, each piece of which is a blank."""
    return SPAN.sub(" ", FENCED.sub(" ", text))


def sections(text: str) -> Iterator[Tuple[str, str]]:
    """The headings of a page, and what stands under each, without blocks of code."""
    text = FENCED.sub(" ", text)
    heads = [*HEADING.finditer(text)]
    for head, following in zip(heads, [*heads[1:], None]):
        yield head[2], text[head.end():following.start() if following else len(text)]


Check = Callable[[Repository, str], Iterator[str]]


class Fault(NamedTuple):
    """A change of a file, which the check of a page or a crate must find."""

    name: str
    of: str
    path: str
    old: str
    new: str
