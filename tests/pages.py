#!/usr/bin/env python3
"""Tests what the pages say of one another and of the code.

Each relative link of each .md file leads to a file of the repository, and its fragment to a
heading there, by the anchors that GitHub makes. A link to the glossary of docs/FORMAT.md is of a
word that stands there, and a page links a word once: where it first uses it, if the word is one of
those that only the pages use, and not the field's. Each claim on docs/THEOREMS.md under the name
of a crate has definitions, functions and clauses that the code has, and each law of the crate has
a claim. Each function that SECURITY.md names has the clauses that stand behind it, and its
promises have theorems on that page (pages/claims.py). Each block of Rattle, C, Go, Python or Rust
on README.md, docs/LIBRARIES.md and docs/C.md stands in crates/rtnl_uses, apart from its contracts,
or in examples/. The tables of calls and of codes on docs/C.md have those of include/rtnlc.h, and
those of attributes and of bits in docs/FORMAT.md the names of crates/*/specs. docs/ARCHITECTURE.md
begins with a map of all crates and folders, and lists the files that name the family of rules.
README.md has at most 220 lines, no word of ours where the field has one, and no claim that is
larger than what it cites; no page has longer sentences than tests/data/pages/ allows it, and how
long they are is printed (pages/reading.py). Each file of git that begins with #! can be executed,
and no other (pages/scripts.py).

Then each of these is tried: a fault is planted in a page or in the code, and must be found. The
last line is 'N passed, M failed', and the status is 1 where a case failed.
"""
import os
import posixpath
import re
import sys
from typing import Callable, Dict, Iterator, List, NamedTuple, Set, Tuple

sys.dont_write_bytecode = True
HERE = os.path.dirname(os.path.realpath(__file__))
sys.path[:0] = [f"{HERE}/../launch", f"{HERE}/helpers", f"{HERE}/pages"]
import claims
import headers
import reading
import reference
import scripts
from counting import counted, whole
from repository import (BLOCK, FENCED, FORMAT, HEADING, NAME, README, ROW, SCRIPTS, SECURITY,
                        THEOREMS, Check, Fault, Repository, prose, read_repository, sections)
from sentences import measured, shown

ARCHITECTURE, LIBRARIES, C = "docs/ARCHITECTURE.md", "docs/LIBRARIES.md", "docs/C.md"
HEADER = "include/rtnlc.h"
GLOSSARY = "words"
# Pages whose blocks of code are compared, and where the code of a block stands.
SHOWING = [README, LIBRARIES, C]
SHOWN = {
    "c": "examples/c/", "go": "bindings/go/", "python": "bindings/python/",
    "rust": "crates/rtnl_uses/src/",
}
CRATE = ("src", "specs", "proofs")

LINK = re.compile(r"\[([^\[\]]*)\]\(([^()\s]*)\)|^\[([^\[\]]*)\]: *(\S+)", re.M)
# A word of prose, or a link; and what is no prose of the page's own.
USE = re.compile(r"\[([^\[\]]*)\]\(([^()\s]*)\)|[A-Za-z]+(?:-[A-Za-z]+)*")
QUOTED = re.compile(r"^(?:#|>).*$", re.M)
# What names the family of rules in the code of a crate, which has no comment then.
OF_RULES = re.compile(r"(?<!borrow\.)\bRule(?:Head|Entry)?\b|\bmod rule\b")
COMMENT = re.compile(r"^\s*(?://|--).*$", re.M)
# A contract, from the line behind a function's to the one before its body.
CONTRACT = re.compile(r"(?:\n    (?:requires|ensures|//|    ).*)+\n\{$", re.M)


class Link(NamedTuple):
    """A link of a page: its text, the page or file it leads to, and the fragment behind it."""

    text: str
    to: str
    fragment: str


# The links.


def anchors(text: str) -> Set[str]:
    """The anchors that GitHub makes of a page's headings."""
    found: Dict[str, int] = {}
    for heading in HEADING.finditer(FENCED.sub(" ", text)):
        words = LINK.sub(r"\1", heading[2]).lower().strip()
        anchor = re.sub(r"[^\w\- ]", "", words).replace(" ", "-")
        count = found.get(anchor, 0)
        found[anchor] = count + 1
        if count:
            found[f"{anchor}-{count}"] = 1
    return set(found)


def link_of(page: str, shown: str, target: str) -> Link:
    path, _, fragment = target.partition("#")
    to = posixpath.normpath(posixpath.join(posixpath.dirname(page), path)) if path else page
    return Link(" ".join(shown.split()), to if target else "nowhere", fragment)


def links(page: str, text: str) -> Iterator[Link]:
    """The links of a page that lead to this repository."""
    for found in LINK.finditer(prose(text)):
        shown, target = (found[1], found[2]) if found[3] is None else (found[3], found[4])
        if not re.match(r"[a-z][a-z0-9+.-]*:", target):
            yield link_of(page, shown, target)


def lost_links(repository: Repository, page: str) -> Iterator[str]:
    """The links of a page that lead nowhere."""
    for link in links(page, repository.texts[page]):
        heads = anchors(repository.texts.get(link.to, ""))
        if link.to not in repository.files:
            yield f"[{link.text}] leads to {link.to}, which is not there"
        elif link.fragment and link.fragment not in heads:
            yield f"[{link.text}] leads to {link.to}, which has no heading {link.fragment}"


# The glossary.


def words_in(tables: str) -> List[Set[str]]:
    """The words of the glossary's tables: those of a row are forms of one."""
    rows = re.findall(r"^\| ([^|]*) \|", tables, re.M)
    return [set(row.split(", ")) for row in rows if row != "word"]


def glossary(text: str) -> List[Set[str]]:
    """All words of the glossary."""
    section = re.search(r"^## Words$(.*?)^## ", text, re.M | re.S)
    return words_in(section[1]) if section else []


def own_words(text: str) -> List[Set[str]]:
    """The words of the glossary that only the pages use: those of its first table."""
    return words_in("".join(body for name, body in sections(text) if name == "Words"))


def singular(word: str) -> str:
    return re.sub(r"ies$", "y", word) if word.endswith("ies") else re.sub(r"s$", "", word)


def rows_of(text: str, words: List[Set[str]]) -> Set[int]:
    """The rows of words that a text is a form of."""
    forms = {text.lower(), singular(text.lower())}
    return {at for at, row in enumerate(words) if forms & row}


def is_of_glossary(link: Link) -> bool:
    return (link.to, link.fragment) == (FORMAT, GLOSSARY) and link.text != "glossary"


def lost_words(repository: Repository, page: str) -> Iterator[str]:
    """What is wrong with a page's links to the glossary."""
    words = glossary(repository.texts[FORMAT])
    seen: Set[int] = set()
    for link in links(page, repository.texts[page]):
        if is_of_glossary(link):
            rows = rows_of(link.text, words)
            if not rows:
                yield f"[{link.text}] is no word of the glossary"
            elif seen & rows:
                yield f"[{link.text}] is linked twice"
            seen |= rows


def unlinked_words(repository: Repository, page: str) -> Iterator[str]:
    """The words of the pages' own that a page first uses without a link to the glossary. Headings,
    quotations and the texts of other links are no uses."""
    words = own_words(repository.texts[FORMAT])
    if not words:
        yield "the glossary has no words"
    seen: Set[int] = set()
    for found in USE.finditer(QUOTED.sub(" ", prose(repository.texts[page]))):
        link = link_of(page, found[1], found[2]) if found[2] else None
        rows = rows_of(found[0], words) if link is None else rows_of(link.text, words)
        if link is None and rows - seen:
            yield f"{found[0]} is first used without a link to the glossary"
        if link is None or is_of_glossary(link):
            seen |= rows


# The blocks of code.


def sources(repository: Repository, sort: str) -> Iterator[str]:
    """The code of which a block of this sort is one, Rattle without its contracts."""
    for path, text in repository.texts.items():
        if path.startswith(SHOWN[sort]):
            yield CONTRACT.sub(" {", text) if path.endswith(".rt") else text
        elif sort == "rust" and path.startswith("bindings/rust/rtnl/examples/"):
            yield text


def strange_blocks(repository: Repository, page: str) -> Iterator[str]:
    """The blocks of code that stand in no source."""
    blocks = BLOCK.findall(repository.texts[page])
    for sort, block in blocks:
        if sort in SHOWN and not any(block in it for it in sources(repository, sort)):
            yield f"no code has this block of {sort}: {block.splitlines()[0]}"
    for of, sort in ((LIBRARIES, "rust"), (C, "c")):
        if page == of and sort not in {it for it, _ in blocks}:
            yield f"it has no block of {sort}"


def lost_calls(repository: Repository, page: str) -> Iterator[str]:
    """The calls of the header that the page's table of them lacks, and those that it made up."""
    table = "".join(text for name, text in sections(repository.texts[page]) if name == "The calls")
    declared = set(re.findall(r"\brtnlc_\w+(?=\()", repository.texts[HEADER]))
    shown = set(re.findall(r"^\| `(rtnlc_\w+)` \|", table, re.M))
    yield from (f"{it} is not in the table" for it in sorted(declared - shown))
    yield from (f"{it} is not in the header" for it in sorted(shown - declared))


def lost_codes(repository: Repository, page: str) -> Iterator[str]:
    """The codes of the header that the page's table of them lacks, and those that it made up."""
    table = "".join(text for name, text in sections(repository.texts[page]) if name == "The codes")
    codes = re.search(r"^enum rtnlc_code \{(.*?)^\};", repository.texts[HEADER], re.M | re.S)
    declared = set(re.findall(r"\b(RTNLC_\w+) = (\d+)", codes[1] if codes else ""))
    shown = {(it[2], it[1]) for it in re.finditer(r"^\| (\d+) \| `(\w+)` \|", table, re.M)}
    yield from (f"{' = '.join(it)} is not in the table" for it in sorted(declared - shown))
    yield from (f"{' = '.join(it)} is not in the header" for it in sorted(shown - declared))


# The names by number.

# How docs/FORMAT.md says where an attribute stands, and in which form its payload is printed.
STANDS = {
    "link": "a link", "link_info": "`LINKINFO` of a link", "addr": "an address",
    "route": "a route", "metrics": "`METRICS` of a route", "neigh": "a neighbour",
    "rule": "a rule",
}
FORMS = {
    "U8": "`u8`", "U16": "`u16`", "U32": "`u32`", "NetworkU16": "`u16`, in network order",
    "Text": "`text`", "Address": "`ipv4` or `ipv6`", "Hex": "`hex`", None: "-",
}


def attribute_row(it: headers.Attribute) -> str:
    """The row of an attribute. One that holds others is printed as such, whatever its style."""
    holds = reference.content(it.context, it.number, False)
    form = FORMS[it.style] if holds == "bytes" else "`hops`" if holds == "hops" else "`list`"
    stands = f"{STANDS[it.context]}, `{reference.PREFIXES[it.context]}`"
    return f"| {stands} | {it.number} | `{it.name}` | {form} |"


def bits_row(table: str) -> str:
    """The row of a table of bits, which may begin with those of all messages."""
    rows, common = reference.BITS[table], reference.BITS["message_flags"]
    front = ""
    if rows != common and rows[:len(common)] == common:
        rows, front = rows[len(common):], "message flags, and "
    own = ", ".join(f"`{name}` {bit:#x}" for name, bit in rows)
    return f"| {table.replace('_', ' ')} | {front}{own} |"


def lost_names(repository: Repository, page: str) -> Iterator[str]:
    """The rows of names that the page lacks, by the definitions, and those that it made up."""
    defined = {*map(attribute_row, headers.attributes()), *map(bits_row, reference.tables("NamedBits"))}
    tables = ("Attributes by number", "Bits by name")
    shown = {row for name, text in sections(repository.texts[page]) if name in tables
             for row in ROW.findall(text)[2:]}
    yield from (f"there is no row {it}" for it in sorted(defined - shown))
    yield from (f"no definition has {it}" for it in sorted(shown - defined))


# The map, and the room of a family.

# The lines of a screen.
SCREEN = 45


def lost_in_map(repository: Repository, page: str) -> Iterator[str]:
    """What is wrong with the map, which is all of the page before its first section."""
    shown = repository.texts[page].partition("\n## ")[0]
    named = {it.rstrip("/") for it in NAME.findall(FENCED.sub(" ", shown))}
    folders = {it.partition("/")[0] for it in repository.files if "/" in it and it[0] != "."}
    there = folders | set(repository.crates)
    yield from (f"{it} is not on the map" for it in sorted(there - named))
    for row in ROW.findall(shown)[2:]:
        for name in NAME.findall(row.split("|")[1]):
            if name.rstrip("/") not in there:
                yield f"{name} is not there"
    if len(shown.splitlines()) > SCREEN:
        yield f"it has more than {SCREEN} lines"


def room(table: str) -> List[List[str]]:
    """The files that a table lists, by crates: a family's own, and those that all share."""
    found: List[List[str]] = [[], []]
    for row in ROW.findall(table)[2:]:
        crate, *cells = (NAME.findall(it) for it in row.split("|")[1:-1])
        for files, cell in zip(found, cells):
            files += [f"crates/{crate[0]}/{it}".rstrip("/") for it in cell]
    return found


def wrong_room(repository: Repository, page: str) -> Iterator[str]:
    """What is wrong with the files of a family on the page, which are those that name it."""
    section = dict(sections(repository.texts[page])).get("What a new family touches", "")
    listed_files = room(section)
    counts = re.search(r"takes (\d+) files.*? in (\d+) files", section, re.S)
    if not counts or [int(it) for it in counts.groups()] != [len(it) for it in listed_files]:
        yield f"they are {' and '.join(str(len(it)) for it in listed_files)}"
    paths = [path for files in listed_files for path in files]
    yield from (f"{it} is not there" for it in paths if it not in repository.files)
    parts = [f"crates/{it}/{part}/" for it in repository.promising() for part in CRATE]
    for path, text in sorted(repository.texts.items()):
        if path.startswith(tuple(parts)) and OF_RULES.search(COMMENT.sub("", text)):
            if not any(path == it or path.startswith(f"{it}/") for it in paths):
                yield f"{path} names the family"


# The cases.

# What is tested of each page or crate.
TESTS: List[Tuple[str, Check, Callable[[Repository], List[str]]]] = [
    ("the links of", lost_links, Repository.pages),
    ("words of the glossary on", lost_words, Repository.pages),
    ("first uses of words on", unlinked_words, Repository.using),
    ("the claims on", claims.wrong_claims, claims.claimed),
    ("the clauses on", claims.wrong_citations, lambda _: [SECURITY, THEOREMS]),
    ("the theorems on", claims.lost_theorems, lambda _: [SECURITY]),
    ("the code on", strange_blocks, lambda _: SHOWING),
    ("the calls on", lost_calls, lambda _: [C]),
    ("the codes on", lost_codes, lambda _: [C]),
    ("the names on", lost_names, lambda _: [FORMAT]),
    ("the map on", lost_in_map, lambda _: [ARCHITECTURE]),
    ("the files of a family on", wrong_room, lambda _: [ARCHITECTURE]),
    ("the lines of", reading.long_page, lambda _: [README]),
    ("the sentences of", reading.long_sentences, Repository.pages),
    ("the words of", reading.coined_words, lambda _: [README]),
    ("what is claimed by", reading.large_claims, lambda _: [README]),
    ("the programs of", reading.torn_programs, lambda _: [README]),
    ("the modes of files of", scripts.wrong_modes, lambda _: [SCRIPTS]),
]


FAULTS: Dict[Check, List[Fault]] = {
    lost_links: [
        Fault("a link to no file", THEOREMS, THEOREMS, "(LIBRARIES.md)", "(LIBRARY.md)"),
        Fault("a link to no heading", FORMAT, FORMAT, "#the-headline)", "#a-headline)"),
        Fault("a link within a page", THEOREMS, THEOREMS, "(#the-headline)", "(#headlines)"),
        Fault("a link out of the repository", THEOREMS, THEOREMS, "(../tests/", "(../../tests/"),
        Fault("a link that leads nowhere", THEOREMS, THEOREMS, "(LIBRARIES.md)", "()"),
        Fault("a link by a reference", THEOREMS, THEOREMS, "\n## What is neither",
              "\n[x]: X.md\n\n## What is neither"),
        Fault("a link in two lines", THEOREMS, THEOREMS, "[GATE.md](GATE",
              "[THE\nGATE.md](THE_GATE"),
        Fault("a heading that was renamed", FORMAT, THEOREMS, "## The headline", "## The sentence"),
        Fault("a heading in code alone", FORMAT, THEOREMS, "## The headline",
              "```\n## The headline\n```"),
    ],
    lost_words: [
        Fault("a word that the glossary lost", THEOREMS, FORMAT, "| canonical |", "| canonic |"),
        Fault("a word that the glossary never had", THEOREMS, THEOREMS, "[canonical](", "[canon]("),
        Fault("a word that is linked twice", THEOREMS, THEOREMS, "[canonical](", "[faults]("),
    ],
    unlinked_words: [
        Fault("a word without a link", THEOREMS, THEOREMS, "[tapes](FORMAT.md#words)", "tapes"),
        Fault("a word before its link", THEOREMS, THEOREMS, "## How a claim is read\n",
              "## How a claim is read\n\nTapes.\n"),
        Fault("a word in a table before its link", THEOREMS, THEOREMS, "## How a claim is read\n",
              "## How a claim is read\n\n| a tape |\n"),
        Fault("a word that is new", THEOREMS, FORMAT, "\n| context |",
              "\n| page | |\n| context |"),
        Fault("a glossary without words", THEOREMS, FORMAT, "\n## Words\n", "\n## Glossary\n"),
    ],
    strange_blocks: [
        Fault("another line of Rattle", LIBRARIES, "crates/rtnl_uses/src/attributes.rt",
              "count += 1;", "count += 2;"),
        Fault("a contract that is shown", LIBRARIES, LIBRARIES, "Result<usize, Fault> {\n",
              "Result<usize, Fault>\n    requires { length region.now ≤ LONGEST_REGION }\n{\n"),
         Fault("another line of C", C, "examples/c/watch.c", "source_next(&source, true)",
               "source_next(&source, false)"),
         Fault("another line of Go", LIBRARIES, "bindings/go/examples/links/main.go", "link.MTU()",
               "link.Index()"),
         Fault("another line of Python", LIBRARIES, "bindings/python/examples/links.py",
               "link.mtu", "link.index"),
         Fault("another line of Rust", LIBRARIES, "bindings/rust/rtnl/examples/links.rs",
               "Message::link", "Message::route"),
        Fault("a page without Rattle", LIBRARIES, LIBRARIES, "```rust\n", "```text\n"),
        Fault("a page without C", C, C, "```c\n", "```text\n"),
    ],
    lost_calls: [
        Fault("a call that is missing", C, C, "| `rtnlc_check` |", "| it |"),
        Fault("a call that was removed", C, HEADER, " rtnlc_check(", " rtnlc_find("),
    ],
    lost_codes: [
        Fault("a code that is missing", C, C, "`RTNLC_TOTAL`", "it"),
        Fault("a code that was removed", C, HEADER, "RTNLC_TOTAL = 7,", ""),
        Fault("a code of another number", C, HEADER, "RTNLC_TOTAL = 7,", "RTNLC_TOTAL = 14,"),
    ],
    lost_names: [
        Fault("an attribute of another number", FORMAT, FORMAT, "13 | `TXQLEN`", "11 | `TXQLEN`"),
        Fault("an attribute of another name", FORMAT, FORMAT, "`TXQLEN`", "`TX_QUEUE`"),
        Fault("an attribute of another form", FORMAT, FORMAT, "`TXQLEN` | `u32`",
              "`TXQLEN` | `u16`"),
        Fault("a name that the text has", FORMAT, FORMAT, "`STATS` | -", "`STATS` | `hex`"),
        Fault("a container as bytes", FORMAT, FORMAT, "`METRICS` | `list`", "`METRICS` | `hex`"),
        Fault("an attribute that is missing", FORMAT, FORMAT,
              "| a link, `IFLA_` | 13 | `TXQLEN` | `u32` |\n", ""),
        Fault("a bit of another number", FORMAT, FORMAT, "`LOWER_UP` 0x10000", "`LOWER_UP` 0x1"),
    ],
    lost_in_map: [
        Fault("a crate that the map lacks", ARCHITECTURE, ARCHITECTURE, "| `nl_table` |", "| |"),
        Fault("a folder that the map lacks", ARCHITECTURE, ARCHITECTURE, "| `share/` |", "| |"),
        Fault("a folder that there isn't", ARCHITECTURE, ARCHITECTURE, "| `share/` |",
              "| `share/`, `shared/` |"),
        Fault("a map that is too long", ARCHITECTURE, ARCHITECTURE, "| `share/` |",
              "| | |\n" * 20 + "| `share/` |"),
    ],
    wrong_room: [
        Fault("a file of a family that there isn't", ARCHITECTURE, ARCHITECTURE, "`src/tree.rt`",
              "`src/trees.rt`"),
        Fault("a file of a family that is not listed", ARCHITECTURE, ARCHITECTURE,
              "`src/tree.rt`, ", ""),
        Fault("a file that came to name a family", ARCHITECTURE, "crates/nl_frame/src/limits.rt",
              "pub struct Limits", "pub struct Rule"),
        Fault("another number of files", ARCHITECTURE, ARCHITECTURE, "A further family takes ",
              "A further family takes 1"),
    ],
}


def is_found(check: Check, fault: Fault, repository: Repository, before: Set[str]) -> bool:
    """Whether the check finds something with the fault in place that it doesn't find without."""
    text = repository.texts.get(fault.path, "")
    texts = {**repository.texts, fault.path: text.replace(fault.old, fault.new)}
    after = set(check(repository._replace(texts=texts), fault.of))
    return fault.old in text and bool(after - before)


def cases(repository: Repository) -> Iterator[Tuple[str, List[str]]]:
    """Each case: its name, and what is wrong."""
    for name, check, subjects in TESTS:
        for subject in subjects(repository):
            yield f"{name} {subject}", [*check(repository, subject)]
    planted = {**FAULTS, **claims.FAULTS, **reading.FAULTS, **scripts.FAULTS}
    for check, faults in planted.items() if whole("the faults that are planted") else ():
        before = {of: set(check(repository, of)) for of in {it.of for it in faults}}
        for fault in faults:
            found = is_found(check, fault, repository, before[fault.of])
            wrong = [] if found else ["it is not, or isn't planted"]
            yield f"{fault.name} is found", wrong


def main() -> int:
    repository = read_repository()
    for page in repository.pages():
        print(shown(page, measured(repository.texts[page])))
    return counted(cases(repository))


if __name__ == "__main__":
    sys.exit(main())
