"""The contracts of the crates' functions, as their texts have them: src/ has the functions and the
clauses by name, specs/ the records that a contract may be, whose fields are clauses too.
"""
import os
import re
import sys
from typing import Dict, Iterator, List, NamedTuple, Optional, Set, Tuple

sys.dont_write_bytecode = True
sys.path.insert(0, f"{os.path.dirname(os.path.realpath(__file__))}/../../launch")
from crates import Crates, below

# Texts of files by their paths in the repository.
Texts = Dict[str, str]

HOLDER = re.compile(r"(?:pub(?:\([^)]*\))? )?(impl|trait)\b(.*)")
FUNCTION = re.compile(r'( *)(?:pub(?:\([^)]*\))? )?(?:const )?(?:extern "C" )?fn (\w+)')
# What a type implements of a trait of std has its contract in such a line.
GHOST = re.compile(r" *ghost (\w+) = (\{.*)")
CLAUSE = re.compile(r"\bensures (?:(\w+) )?\{")
HEAD = re.compile(r"[\s(]*(\w+)")
DEFINITION = re.compile(r"^ *(?:pub |abbrev )*(record|abbrev)(?: pub)? (\w+)", re.M)
FIELD = re.compile(r"^ +pub (\w+) :", re.M)
# How many abbreviations a contract is followed through to its record.
STEPS = 4


class Function(NamedTuple):
    """A function: its modules, its type or trait if it has one, and its name; and its contract."""

    path: Tuple[str, ...]
    contract: str


def without_comments(text: str) -> str:
    return re.sub(r"^ *//.*\n", "", text, flags=re.M)


def modules(path: str) -> Tuple[str, ...]:
    """The modules of a file of src/, by its path in the repository."""
    inner = path.split("/", 3)[3]
    parts = inner[: -len(".rt")].split("/")
    return tuple(it for it in parts if it not in ("lib", "main", "mod"))


def held(line: str) -> Optional[str]:
    """The type or the trait whose functions stand behind this line, if it begins with one."""
    found = HOLDER.match(line)
    if not found:
        return None
    rest = re.sub(r"^<[^<>]*>", "", found[2]).split(" for ")[-1]
    name = re.match(r"\W*(\w+)", rest)
    return name[1] if name else None


def contract(lines: List[str], indent: str) -> str:
    """What stands from the line of a function to its body."""
    found: List[str] = []
    for line in lines:
        found.append(line)
        is_outer = line.startswith(indent) and not line[len(indent):].startswith(" ")
        if line.endswith(";") or is_outer and line.endswith(("{", "{}")):
            break
    return "\n".join(found)


def functions(path: str, text: str) -> Iterator[Function]:
    """The functions of a file of src/."""
    lines = without_comments(text).split("\n")
    holder: Tuple[str, ...] = ()
    for at, line in enumerate(lines):
        if line.startswith("}"):
            holder = ()
        name = held(line)
        if name:
            holder = (name,)
        found = FUNCTION.match(line)
        if found:
            yield Function((*modules(path), *holder, found[2]), contract(lines[at:], found[1]))
        ghost = GHOST.match(line)
        if ghost:
            yield Function((*modules(path), *holder, ghost[1]), f"ensures {ghost[2]}")


class Contracts:
    """The functions and the records of all crates."""

    def __init__(self, crates: Crates, texts: Texts) -> None:
        self.crates = crates
        self.functions: Dict[str, List[Function]] = {name: [] for name in crates}
        self.definitions: Dict[str, Dict[str, Tuple[str, str]]] = {name: {} for name in crates}
        self.sources: Dict[str, str] = {name: "" for name in crates}
        for path, text in texts.items():
            part = path.split("/")
            if part[0] != "crates" or part[1] not in crates:
                continue
            if part[2] == "src" and path.endswith(".rt"):
                self.functions[part[1]] += functions(path, text)
                self.sources[part[1]] += without_comments(text)
            if part[2] == "specs" and path.endswith(".antt"):
                self.add_definitions(part[1], text)

    def add_definitions(self, crate: str, text: str) -> None:
        """Adds the records and the abbreviations of a file of specs/, each up to a blank line."""
        for found in DEFINITION.finditer(text):
            self.definitions[crate][found[2]] = found[1], text[found.start():].split("\n\n")[0]

    def named(self, crate: str, call: str) -> List[Function]:
        """The functions of a crate that are named so, as `read_list` or `Attrs::of`."""
        parts = tuple(call.split("::"))
        return [it for it in self.functions[crate] if it.path[-len(parts):] == parts]

    def fields(self, crate: str, word: str, steps: int) -> Set[str]:
        """The fields of the record that a word of a contract is, or is an abbreviation of."""
        for name in (crate, *reversed(below(self.crates, crate))):
            if word in self.definitions[name]:
                sort, text = self.definitions[name][word]
                if sort == "record":
                    return set(FIELD.findall(text))
                meant = re.search(rf"^ *{word}\b[^=\n]*=(.*)", text, re.M | re.S)
                value = re.sub(r"^\s*let .*? in\b", "", meant[1], flags=re.S) if meant else ""
                head = HEAD.match(value)
                return self.fields(name, head[1], steps - 1) if head and steps else set()
        return set()

    def clauses(self, crate: str, function: Function) -> Set[str]:
        """The names of a function's clauses, and those of the fields where a clause is a record; a
        clause without a name may be an abbreviation of one."""
        names: Set[str] = set()
        for found in CLAUSE.finditer(function.contract):
            head = HEAD.match(function.contract, found.end())
            if found[1]:
                names.add(found[1])
            if head:
                names |= self.fields(crate, head[1], 0 if found[1] else STEPS)
        return names
