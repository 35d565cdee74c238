"""What tests/pages.py tests of claims. On docs/THEOREMS.md each crate has a section by its name,
with tables whose rows are claims: what is promised, the definitions, and the functions, some with
clauses. Those must be the crate's, a function has a contract, and each law of the crate is there.
In the tables of SECURITY.md stand promises with theorems of that page.
"""
import re
from typing import Dict, Iterator, List, NamedTuple, Set

from contracts import Contracts
from reading import unproved_citations
from repository import NAME, ROW, SECURITY, THEOREMS, Check, Fault, Repository, sections

HEAD = "| promise | definition | clauses |"
TABLE = re.compile(r"(?:^\|.*\|\n)+", re.M)
BRACKET = re.compile(r"\(([^()]*`[^()]*)\)")
NAMES = re.compile(r"`[a-z_]+`(?:, `[a-z_]+`)*")
# Functions, and behind a colon clauses of each.
GROUP = re.compile(r"(`[\w:]+`(?:, `[\w:]+`)*)(?:: (`[a-z_]+`(?:, `[a-z_]+`)*))?")
OF_STD = re.compile(r"std's `\w+`(?:, `\w+`)*")
LAW = re.compile(r"^pub fn (\w+)", re.M)


class Claim(NamedTuple):
    """What is promised, by which definitions, and the functions with the clauses that carry it."""

    promise: str
    definition: str
    clauses: str

    def groups(self) -> List[str]:
        return self.clauses.split("; ")

    def named(self) -> Set[str]:
        """The names of clauses that stand behind the colons."""
        found = (GROUP.fullmatch(it) for it in self.groups())
        return {name for it in found if it and it[2] for name in NAME.findall(it[2])}


def section_of(repository: Repository, crate: str) -> str:
    return "".join(text for name, text in sections(repository.texts[THEOREMS]) if name == crate)


def tables(section: str) -> Iterator[List[str]]:
    """The rows of each table, with its head."""
    for table in TABLE.findall(section):
        yield table.splitlines()


def claims(section: str) -> Iterator[Claim]:
    """The claims of a section, each a row of three cells."""
    for head, _, *rows in tables(section):
        for row in rows if head == HEAD else ():
            cells = [it.strip() for it in row.split("|")[1:-1]]
            yield Claim(*cells) if len(cells) == 3 else Claim(row, "", "")


def claimed(repository: Repository) -> List[str]:
    """The crates on which there are claims, and those on which there must be some."""
    return [it for it in repository.crates
            if it in repository.promising() or HEAD in section_of(repository, it)]


# The functions and the clauses.


def wrong_calls(contracts: Contracts, crate: str, calls: List[str]) -> Iterator[str]:
    """The calls that the crate doesn't have, and those without a contract."""
    for call in calls:
        found = contracts.named(crate, call)
        if not found:
            yield f"{crate} has no function {call}"
        elif not all(re.search(r"\bensures\b", it.contract) for it in found):
            yield f"{call} of {crate} promises nothing"


def wrong_clauses(contracts: Contracts, crate: str, calls: List[str], names: str) -> Iterator[str]:
    """The names that are no clauses of one of the calls."""
    for call in calls:
        for function in contracts.named(crate, call):
            for name in NAME.findall(names):
                if name not in contracts.clauses(crate, function):
                    yield f"{'::'.join(function.path)} of {crate} has no clause {name}"


def wrong_groups(contracts: Contracts, crate: str, claim: Claim) -> Iterator[str]:
    """What is wrong with the last cell of a claim: it has functions and their clauses alone."""
    for group in claim.groups():
        found = GROUP.fullmatch(group)
        if not found:
            yield f"it names no functions, or more than them and clauses: {claim.promise}: {group}"
            continue
        calls = NAME.findall(found[1])
        yield from wrong_calls(contracts, crate, calls)
        yield from wrong_clauses(contracts, crate, calls, found[2] or "")
    for found in BRACKET.finditer(claim.promise):
        if NAMES.fullmatch(found[1]) and not set(NAME.findall(found[1])) <= claim.named():
            yield f"its last cell lacks clauses: ({found[1]})"


# The definitions.


def defines(repository: Repository, crate: str, module: str, name: str) -> bool:
    """Whether a file of the crate's specs/ defines this name for others."""
    text = repository.texts.get(f"crates/{crate}/specs/{module}.antt", "")
    defined = rf"^ *(?:abbrev |unfoldable )?pub (?:record |data )?{name}\b"
    return re.search(defined, text, re.M) is not None


def wrong_definitions(repository: Repository, crate: str, claim: Claim) -> Iterator[str]:
    """The definitions of a claim that there aren't: a file of specs/, or what it defines. A name
    alone is one of the file before it. Behind the name of a crate they may be of that crate."""
    places, module = [crate], ""
    for name in NAME.findall(OF_STD.sub("", claim.definition)):
        if name in repository.crates:
            places = [crate, name]
            continue
        front, _, last = name.rpartition(".")
        if not front and any(f"crates/{it}/specs/{last}.antt" in repository.files for it in places):
            module = last
            continue
        module = front or module
        if not any(defines(repository, it, module, last) for it in places):
            yield f"{' and '.join(places)} have no definition {name}: {claim.promise}"


# The claims on a crate.


def lost_laws(repository: Repository, crate: str, found: List[Claim]) -> Iterator[str]:
    """The laws of the crate on which there is no claim."""
    laws = LAW.findall(repository.texts.get(f"crates/{crate}/src/laws.rt", ""))
    named = {name for it in found for name in NAME.findall(it.clauses)}
    yield from (f"no claim is on laws::{it}" for it in laws if f"laws::{it}" not in named)


def wrong_tables(section: str) -> Iterator[str]:
    """The tables of three cells that aren't of claims, the rows that are of no table, and clauses
    that stand in none of them."""
    for line in section.splitlines():
        if line.startswith("|") != line.endswith("|"):
            yield f"a row is not whole: {line}"
    for head, *_ in tables(section):
        if head.count("|") == HEAD.count("|") and head != HEAD:
            yield f"a table of claims begins otherwise: {head}"
    for found in BRACKET.finditer(ROW.sub("", section)):
        if NAMES.fullmatch(found[1]):
            yield f"clauses are named outside of a claim: ({found[1]})"


def wrong_claims(repository: Repository, crate: str) -> Iterator[str]:
    """What is wrong with the claims on a crate, one of which must be there."""
    contracts = Contracts(repository.crates, repository.texts)
    section = section_of(repository, crate)
    found = [*claims(section)]
    if not found:
        yield f"there is no claim on {crate}"
    for claim in found:
        yield from wrong_groups(contracts, crate, claim)
        yield from wrong_definitions(repository, crate, claim)
    yield from lost_laws(repository, crate, found)
    yield from wrong_tables(section)


# What cites them.


def wrong_citations(repository: Repository, page: str) -> Iterator[str]:
    """The functions that a page names with clauses that none of a crate has."""
    yield from unproved_citations(repository, Contracts(repository.crates, repository.texts), page)


def lost_theorems(repository: Repository, page: str) -> Iterator[str]:
    """What the tables of a page cite that no section of docs/THEOREMS.md has by the same names."""
    parts = [{*NAME.findall(text)} for _, text in sections(repository.texts[THEOREMS])]
    for row in ROW.findall(repository.texts[page])[2:]:
        for theorem in row.split("|")[-2].split(";"):
            wanted = {*NAME.findall(theorem)}
            if not wanted or not any(wanted <= part for part in parts):
                yield f"no section of {THEOREMS} has {theorem.strip()}"


# The faults.

FAULTS: Dict[Check, List[Fault]] = {
    wrong_claims: [
        Fault("a clause that was renamed", "nl_frame", "crates/nl_frame/src/canonical.rt",
              "ensures canonical {", "ensures written {"),
        Fault("a clause in a comment alone", "nl_frame", "crates/nl_frame/src/canonical.rt",
              "    ensures canonical {", "    // ensures canonical {"),
        Fault("a clause of one head alone", "nl_route", "crates/nl_route/src/ndmsg.rt",
              "ensures { IsHeadOf", "ensures { IsHead"),
        Fault("a clause of another function", "nl_attr", THEOREMS,
              "`laws::one_sum`: `some`, `only`", "`laws::one_sum`: `some`, `front`"),
        Fault("a field that was renamed", "nl_attr", "crates/nl_attr/specs/Walk.antt",
              "pub walk :", "pub goes :"),
        Fault("a field of a crate below", "nl_route", "crates/nl_attr/specs/Writes.antt",
              "pub again :", "pub fits :"),
        Fault("a function that was renamed", "nl_table", "crates/nl_table/src/table.rt",
              "pub fn reserve", "pub fn keep"),
        Fault("a function of another type", "nl_dump", THEOREMS, "| `Session::complete` |",
              "| `Table::complete` |"),
        Fault("a function without a contract", "nl_attr", "crates/nl_attr/src/order.rt",
              "        ensures { result.now ≡ order_name self }\n", ""),
        Fault("a function of a trait that was renamed", "nl_route",
              "crates/nl_route/src/family.rt", "ghost output =", "ghost outcome ="),
        Fault("a claim on another crate", "nl_route", THEOREMS, "### nl_table", "### nl_route"),
        Fault("a claim on a program", "rtnl_cli", THEOREMS, "`Sought::is_whole`", "`is_torn`"),
        Fault("a crate without a claim", "nl_table", THEOREMS, "### nl_table", "### Tables"),
        Fault("a claim without a function", "nl_attr", THEOREMS, "| `align4` |", "| |"),
        Fault("a claim without its end", "nl_attr", THEOREMS, "`align4` |\n", "`align4`\n"),
        Fault("a claim of two cells", "nl_attr", THEOREMS, "| `Numbers.aligned` | `align4` |",
              "| `align4` |"),
        Fault("more than names of clauses", "nl_route", THEOREMS, "`number`, `says`",
              "`number`, also `says`"),
        Fault("a clause that the last cell lacks", "rtnl", THEOREMS,
              "`write_fault`, `memory`, `nothing`", "`write_fault`, `nothing`"),
        Fault("a clause outside of a claim", "nl_frame", THEOREMS, "Of a builder:",
              "Of a builder (`says`):"),
        Fault("a table with another head", "nl_request", THEOREMS, HEAD,
              "| promise | definition | clause |"),
        Fault("a definition that there isn't", "nl_attr", THEOREMS, "`Walk.LiesIn`", "`Walk.Lies`"),
        Fault("a definition of another file", "nl_attr", THEOREMS, "`Walk.LiesIn`",
              "`Tree.LiesIn`"),
        Fault("a definition that was renamed", "nl_table", "crates/nl_table/specs/Content.antt",
              "pub Exchanges :", "pub Swaps :"),
        Fault("a definition of a crate that isn't named", "nl_route", THEOREMS,
              "`nl_attr`'s `Names.Parses`", "`Names.Parses`"),
        Fault("a file of definitions that there isn't", "nl_attr", THEOREMS, "| `Fixed` |",
              "| `Fix` |"),
        Fault("a law that the page lacks", "nl_attr", THEOREMS, "| `laws::one_list` |",
              "| `laws::fits_or_fault` |"),
        Fault("a law that is new", "nl_table", "crates/nl_table/src/laws.rt",
              "pub fn keys_tell_apart", "pub fn keys_are_few() {}\n\npub fn keys_tell_apart"),
    ],
    wrong_citations: [
        Fault("a clause of a table that was renamed", SECURITY, "crates/nl_table/src/table.rt",
              "ensures within {", "ensures inside {"),
        Fault("a function of a table that there isn't", SECURITY, SECURITY, "`Table::put`:",
              "`Table::keep`:"),
        Fault("a table without clauses", SECURITY, SECURITY, "`: `", "` `"),
        Fault("a clause that the headline hasn't", THEOREMS, THEOREMS, "- `Session::feed`: `every`",
              "- `Session::feed`: `each`"),
    ],
    lost_theorems: [
        Fault("a theorem that there isn't", SECURITY, SECURITY, "`laws::headline_of_calls`",
              "`laws::headline_of_call`"),
        Fault("a clause of another theorem", SECURITY, SECURITY, "`step`, `within`",
              "`step`, `visits`"),
        Fault("a theorem that was renamed", SECURITY, THEOREMS, "`laws::stream_is_session`",
              "`laws::stream_is_it`"),
        Fault("a promise without a theorem", SECURITY, SECURITY, "`rtnlc_scan`: `scanned`", "it"),
    ],
}
