"""Lines of code of a program: without comments, blank lines and imports. Of the files that
programs share those of the definitions count that the program comes to."""
import re
from typing import Iterable, List, Tuple

C_COMMENTS, PYTHON_COMMENTS = r"/\*.*?\*/|(^|(?<=\s))//.*?$", r'^\s*""".*?"""$|^\s*#.*?$'

# By a file's ending: what its comments are, and what its imports.
SYNTAX = {
    "c": (C_COMMENTS, r"#include.*"),
    "h": (C_COMMENTS, r"#include.*"),
    "rs": (C_COMMENTS, r"use [^;]*;|mod \w+;|#!?\[(?:path|allow).*\]"),
    "go": (C_COMMENTS, r"import \([^)]*\)|import .*|package .*"),
    "py": (PYTHON_COMMENTS, r"from \S+ import .*|import .*"),
}

# A line that begins a definition, with its name.
DEFINITION = re.compile(
    r"(?:#define |type |func \(\w+ \*?|[\w<>\[\]{}* ,]*[\s*])?(\w+)\s*(?:[(\[=<;:{)]|\d|struct)")


def code_of(path: str) -> List[str]:
    """A file's lines of code."""
    comments, imports = SYNTAX[path.rsplit(".", 1)[-1]]
    with open(path, encoding="utf-8") as file:
        text = re.sub(comments, "", file.read(), flags=re.MULTILINE | re.DOTALL)
    text = re.sub(f"^(?:{imports})$", "", text, flags=re.MULTILINE)
    return [line for line in text.splitlines() if line.strip()]


def definitions_of(path: str) -> List[Tuple[str, List[str]]]:
    """The definitions of a file: their names and lines."""
    found: List[Tuple[str, List[str]]] = []
    for line in code_of(path):
        begins = None if line[0] in " \t})]" else DEFINITION.match(line)
        if begins or not found:
            found.append((begins[1] if begins else "", []))
        found[-1][1].append(line)
    return found


def lines_of(path: str, shared: Iterable[str]) -> int:
    """How many lines of code a program has, with those that it comes to in the files that it
    shares with others."""
    lines = code_of(path)
    left = [it for file in shared for it in definitions_of(file)]
    while True:
        words = set(re.findall(r"\w+", "\n".join(lines)))
        used = [it for it in left if it[0] in words]
        if not used:
            return len(lines)
        left = [it for it in left if it not in used]
        lines += [line for _, added in used for line in added]
