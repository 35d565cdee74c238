"""Puts back what the sources say of inlining, which a trial leaves out. It changes nothing but
what a function costs, so a mark that is missed does no harm.

In a module a function is CRATE::MODULE::NAME, or CRATE::MODULE::OWNER::NAME with the type that it
is of, or the type and the trait whose impl it is of, and what that is for.
"""
import os
import re
from typing import Dict, Iterator, List, Tuple

WORDS = {"inline(always)": "alwaysinline", "inline(never)": "noinline", "inline": "inlinehint",
         "cold": "cold"}
# The head of an impl or a trait, its end, a mark, and a function's name.
TOKEN = re.compile(r"^(?:unsafe )?(?:impl|(?:pub(?:\(\w+\))? )?trait)\b([^{]*)|^(\})|"
                   r"#\[(inline(?:\(\w+\))?|cold)\]|\bfn (\w+)[(<]", re.M)
DEFINED = re.compile(r'^(define .*?@"([^"]+)"\(.*)(?= #\d+ \{$)', re.M)

# The marks of functions by their crate and their name, each with the owner.
Marks = Dict[Tuple[str, str], List[Tuple[str, str]]]


def owner(head: str) -> str:
    """The type that an impl is of, or the trait, as a pattern of what stands in a name."""
    head = re.sub(r"^\s*<(?:[^<>]|<[^<>]*>)*>", "", head).split(" where ")[0]
    trait, _, of = head.rpartition(" for ")
    last = r"^\W*(?:mut )?(?:\w+::)*(\w*).*"
    of, trait = (re.sub(last, r"\1", it, flags=re.S) for it in (of, trait))
    return f"(.*::)?{of[:1].upper()}{of[1:]}{trait}.*" if trait else f"(.*::)?{of}"


def of_file(path: str, module: str) -> Iterator[Tuple[str, str, str]]:
    """The marked functions of a file: the name, the owner or the module, the marks."""
    with open(path, encoding="utf-8") as file:
        text = file.read()
    at, marks = module, []
    is_marked = "#[inline" in text or "#[cold" in text
    for head, end, mark, name in TOKEN.findall(text) if is_marked else ():
        if mark:
            marks.append(WORDS[mark])
        elif name:
            if marks:
                yield name, at, " ".join(marks)
            marks = []
        else:
            at = module if end else owner(head)


def of_crates(roots: Dict[str, str]) -> Marks:
    """The marks of the crates whose root files these are."""
    found: Marks = {}
    for crate, root in roots.items():
        top = os.path.dirname(root)
        for at, _, files in os.walk(top):
            for it in files:
                path = re.sub(r"/(lib|mod)\.rt$|\.rt$", "", f"{at}/{it}")[len(top) + 1:]
                for name, of, mark in of_file(f"{at}/{it}", path.replace("/", "::")):
                    found.setdefault((crate, name), []).append((of, mark))
    return found


def marked(text: str, roots: Dict[str, str]) -> str:
    """The text of a module, with the marks of its functions."""
    marks = of_crates(roots)

    def put(defined: "re.Match[str]") -> str:
        names = re.sub(r"::<.*", "", defined[2]).split("::")
        for of, mark in marks.get((names[0], names[-1]), ()):
            if re.fullmatch(of, "::".join(names[1:-1]).split("+")[0]):
                return f"{defined[1]} {mark}"
        return defined[1]

    return DEFINED.sub(put, text)
