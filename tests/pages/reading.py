"""What tests/pages.py tests of how a page reads: README.md is short, has no word of ours where the
field has one, and claims no more than a clause, a record or a measurement says; no page has longer
sentences than tests/data/pages/ allows it.
"""
import re
from typing import Dict, Iterator, List, NamedTuple, Set, Tuple

from contracts import Contracts, without_comments
from repository import (BLOCK, CITED, DATA, FENCED, FORMAT, LOCK, NAME, README, ROW, Check, Fault,
                        Repository, prose, sections)
from sentences import measured

MOST_LINES = 220
CEILINGS, WORDS = f"{DATA}sentences.txt", f"{DATA}words_of_ours.txt"
PERFORMANCE, EVERY = "docs/PERFORMANCE.md", "crates/nl_dump/specs/Every.antt"
LAYOUTS = ["crates/nl_attr/specs/Layout.antt", "crates/nl_frame/specs/Layout.antt"]

# The target of a link, which is no text of the page.
TARGET = re.compile(r"\]\([^)]*\)")
# A ratio in a table of costs; a bound in a formula; and how the definition of it reads as one.
RATIO = re.compile(r"\d+\.\d+")
BOUND = re.compile(r"`([^`]*≤[^`]*)`")
READ_AS = [("limits.shape.depth", "depth limit"), ("received", "bytes received"), ("*", "×")]
# Where the programs of a page stand, by their language, and the first line of one.
WHOLE = {"c": "examples/c/", "python": "bindings/python/examples/"}
FIRST = re.compile(r"^(?:#include|import) ", re.M)
MUTANTS, LINES = re.compile(r"\b(\d+) mutants"), re.compile(r"\bfiles of (\d+) lines")


# The lines and the sentences.


def long_page(repository: Repository, page: str) -> Iterator[str]:
    """How many lines a page has where they are too many."""
    count = len(repository.texts[page].splitlines())
    if count > MOST_LINES:
        yield f"it has {count} lines, and at most {MOST_LINES} are read to their end"


def ceilings(repository: Repository) -> Dict[str, Tuple[float, float]]:
    """What the sentences of pages are at most: words in the mean, and the share of long ones."""
    rows = (line.split() for line in rows_of_data(repository, CEILINGS))
    return {page: (float(mean), float(long)) for page, mean, long in rows}


def rows_of_data(repository: Repository, path: str) -> List[str]:
    lines = repository.texts[path].splitlines()
    return [it for it in lines if it and not it.startswith("#")]


def long_sentences(repository: Repository, page: str) -> Iterator[str]:
    """What of a page's sentences is above what they are at most."""
    most = ceilings(repository)
    mean, long = most.get(page, most[README])
    found = measured(repository.texts.get(page, ""))
    if found.mean > mean:
        yield f"a sentence has {found.mean:.1f} words in the mean, and at most {mean} are allowed"
    if found.long > long:
        yield f"{found.long:.1f} % of the sentences are long, and at most {long} % are allowed"


# The words.


class Word(NamedTuple):
    """Forms of a word of ours, the field's word, and phrases that are no use of it."""

    forms: List[str]
    better: str
    phrases: List[str]


def words_of_ours(repository: Repository) -> Iterator[Word]:
    for line in rows_of_data(repository, WORDS):
        forms, _, rest = line.partition(": ")
        better, _, phrases = rest.partition(" | ")
        yield Word(forms.split(", "), better, phrases.split(", ") if phrases else [])


def coined_words(repository: Repository, page: str) -> Iterator[str]:
    """The words of ours that a page has in place of the field's."""
    shown = " ".join(TARGET.sub("]", prose(repository.texts[page])).lower().split())
    for word in words_of_ours(repository):
        text = shown
        for phrase in word.phrases:
            text = text.replace(phrase, " ")
        for form in word.forms:
            if re.search(rf"\b{form}\b", text):
                yield f"'{form}' is a word of ours; the field's is: {word.better}"


# The claims.


def uncited(repository: Repository, contracts: Contracts,
            cited: List[Tuple[str, str]]) -> Iterator[str]:
    """Of functions with names of clauses, those that none of a crate has."""
    if not cited:
        yield "no clause is named"
    for call, names in cited:
        wanted = set(NAME.findall(names))
        if not any(wanted <= contracts.clauses(crate, found) for crate in repository.crates
                   for found in contracts.named(crate, call)):
            yield f"no function {call} has the clauses {names}"


def unproved_citations(repository: Repository, contracts: Contracts, page: str) -> Iterator[str]:
    """The functions that a page names with clauses that none of a crate has."""
    text = " ".join(FENCED.sub(" ", repository.texts[page]).split())
    yield from uncited(repository, contracts, CITED.findall(text))


def promises(repository: Repository, contracts: Contracts, call: str, quoted: str) -> bool:
    """Whether the quoted lines stand in a file of code, and are of the contract of this call."""
    lines = without_comments(quoted)
    return any(quoted in text for path, text in repository.texts.items()
               if path.endswith(".rt")) and any(
        lines in f"{it.contract}\n" for crate in repository.crates
        for it in contracts.named(crate, call))


def wrong_quotations(repository: Repository, contracts: Contracts, page: str) -> Iterator[str]:
    """The contracts that a page quotes otherwise than the code has them, one of which is there.
    The last function that is named before one has it."""
    text = repository.texts[page]
    quoted = [it for it in BLOCK.finditer(text) if it[1] == "rattle"]
    if not quoted:
        yield "no contract is quoted"
    for block in quoted:
        named = NAME.findall(FENCED.sub(" ", text[:block.start()]))
        call = named[-1] if named else ""
        if "ensures" not in block[2] or not promises(repository, contracts, call, block[2]):
            yield f"'{call}' has no such contract: {block[2].splitlines()[0].strip()}"


def bounds(repository: Repository) -> Set[str]:
    """The bounds of the definition of the main theorem, as formulas."""
    found: Set[str] = set()
    for line in re.findall(r"^  pub \w+ : (after\..*)$", repository.texts[EVERY], re.M):
        line = line.replace("after.", "")
        for old, new in READ_AS:
            line = line.replace(old, new)
        found.add(line)
    return found


def wrong_bounds(repository: Repository, page: str) -> Iterator[str]:
    """The formulas of a page that are no bound of the main theorem; one must be there."""
    shown = BOUND.findall(FENCED.sub(" ", repository.texts[page]))
    if not shown:
        yield "no bound is shown"
    yield from (f"no definition has {it}" for it in shown if it not in bounds(repository))


def unmeasured(costs: str, measurements: str) -> Iterator[str]:
    """The ratios in a table of costs that no part of the page of measurements has together."""
    if not RATIO.search(costs):
        yield "no cost is shown"
    parts = [set(RATIO.findall(it)) for it in measurements.split("\n\n")]
    for row in ROW.findall(costs):
        for cell in NAME.sub(" ", row).split("|"):
            ratios = set(RATIO.findall(cell))
            if not any(ratios <= part for part in parts):
                yield f"no part of {PERFORMANCE} has {', '.join(sorted(ratios))}"


def wrong_figures(repository: Repository, page: str) -> Iterator[str]:
    """The figures of a page that are other than what was measured, counted or recorded."""
    text = " ".join(repository.texts[page].split())
    costs = dict(sections(repository.texts[page])).get("What it costs", "")
    yield from unmeasured(costs, repository.texts[PERFORMANCE])
    recorded = sum(int(line.split()[1]) for line in repository.texts[LOCK].splitlines())
    for count in MUTANTS.findall(text):
        if int(count) > recorded:
            yield f"{LOCK} has {recorded} mutants that were rejected, and not {count}"
    lines = sum(len(repository.texts[it].splitlines()) for it in LAYOUTS)
    yield from (f"they have {lines} lines" for it in LINES.findall(text) if int(it) != lines)


def torn_programs(repository: Repository, page: str) -> Iterator[str]:
    """The programs of a page that are not whole: those that no example has from its first line of
    code to its end, or that need a header beside them; one in C and one in Python are there."""
    blocks = BLOCK.findall(repository.texts[page])
    for sort, folder in WHOLE.items():
        shown = [block for name, block in blocks if name == sort]
        if not shown:
            yield f"it has no program of {sort}"
        files = [text for path, text in repository.texts.items() if path.startswith(folder)]
        wholes = {text[it.start():] for text in files for it in [FIRST.search(text)] if it}
        for block in shown:
            if block not in wholes or '#include "' in block:
                yield f"a program of {sort} is not whole: {block.splitlines()[0]}"


def large_claims(repository: Repository, page: str) -> Iterator[str]:
    """What a page claims beyond what a clause, a definition, a record or a measurement says."""
    contracts = Contracts(repository.crates, repository.texts)
    yield from unproved_citations(repository, contracts, page)
    yield from wrong_quotations(repository, contracts, page)
    yield from wrong_bounds(repository, page)
    yield from wrong_figures(repository, page)


# The faults.

LONG_SENTENCE = "This is one of those sentences that go on and on" + " and on" * 30 + ".\n\n"
FAULTS: Dict[Check, List[Fault]] = {
    long_page: [
        Fault("a page of too many lines", README, README, "\n## Pages\n",
              "\n" * MOST_LINES + "## Pages\n"),
    ],
    long_sentences: [
        Fault("long sentences in the mean", README, README, "## Install\n",
              "## Install\n\n" + LONG_SENTENCE * 20),
        Fault("a share of long sentences", README, README, "## Install\n",
              "## Install\n\n" + LONG_SENTENCE * 4),
        Fault("a page that became harder", FORMAT, FORMAT, "## Words\n",
              "## Words\n\n" + LONG_SENTENCE * 4),
        Fault("a new page that is hard", "docs/NEW.md", "docs/NEW.md", "", LONG_SENTENCE),
    ],
    coined_words: [
        Fault("a word of ours", README, README, "## Install\n", "## Install\n\nIts Heads.\n"),
        Fault("a word of ours over two lines", README, README, "## Install\n",
              "## Install\n\nAll but\nfor one.\n"),
        Fault("a word of ours beside its phrase", README, README, "## Install\n",
              "## Install\n\nThe byte order is an order.\n"),
    ],
    torn_programs: [
        Fault("a program without its end", README, README,
              "\treturn !rtnlc_stream_status(&dump).complete;\n}\n", ""),
        Fault("a program without its beginning", README, README, "```c\n#include <err.h>\n",
              "```c\n"),
        Fault("a program that went on", README, "bindings/python/examples/first.py",
              "link.hardware_address)\n", "link.hardware_address)\nprint()\n"),
        Fault("a page without a program", README, README, "```python\n", "```text\n"),
    ],
    large_claims: [
        Fault("a clause that was renamed", README, "crates/nl_dump/src/session.rt",
              "ensures every { EveryDatagram", "ensures each { EveryDatagram"),
        Fault("a function that there isn't", README, README, "`Session::feed`:", "`Session::eat`:"),
        Fault("a page without clauses", README, README, "`Session::feed`: `", "`Session::feed` `"),
        Fault("another line of a contract", README, "crates/nl_frame/src/reading.rt",
              "    // No other list is.\n", "    // No other is.\n"),
        Fault("a contract that is quoted wrongly", README, README, "(λ v. Layout ", "(λ v. Fits "),
        Fault("the contract of another call", README, README, "`read_datagram` returns",
              "`scan_datagram` returns"),
        Fault("a page without a contract", README, README, "```rattle\n", "```text\n"),
        Fault("a bound that was shown smaller", README, README, "(depth limit + 1) ×",
              "depth limit ×"),
        Fault("a bound that became larger", README, EVERY, "depth + 1) *", "depth + 2) *"),
        Fault("a page without a bound", README, README, " ≤ (depth", " below (depth"),
        Fault("a cost that was measured of something else", README, README, "| 0.28, 0.27, 0.24 |",
              "| 0.28, 0.27, 0.82 |"),
        Fault("a cost that was not measured", README, README, "| 0.28, 0.27, 0.24 |",
              "| 0.2799, 0.27, 0.24 |"),
        Fault("a page without costs", README, README, "## What it costs\n", "## Costs\n"),
        Fault("a mutant that no record has", README, LOCK, "nl_attr ", "nl_attr 0 "),
        Fault("a definition that grew", README, LAYOUTS[0], "abbrev pub", "\nabbrev pub"),
    ],
}
