"""Pages that are wrong in one way each, which the cases must find: so each of them can fail."""
import base64
import hashlib
import os
import re
import tempfile
from typing import Callable, Iterator, List, NamedTuple, Tuple

import decoded
import taken
import used
from browser import Browser, Wrong

Case = Tuple[str, List[str]]
Group = Callable[[Browser], Iterator[Case]]


class Change(NamedTuple):
    """A change of a page's text, from one to another, and the cases that must find it."""

    name: str
    old: str
    new: str
    cases: Group


CHANGES = (
    Change("another number of a datagram", "number = at + 1", "number = at + 2",
           decoded.every_recording),
    Change("text for JSON", "text(isJson) {", "text() {\nconst isJson = false;",
           decoded.every_recording),
    Change("the other order", "[8, order]", "[8, 1 - order]", decoded.every_recording),
    Change("an order that isn't guessed", "readsAsBig(library, found.datagrams)", "false",
           decoded.guessed_orders),
    Change("another rule", '"a head is whole"', '"a head is there"', decoded.every_fault),
    Change("a fault one byte on", "place, end, end, \"fault\"", "place + 1, end, end, \"fault\"",
           decoded.every_fault),
    Change("a padding that is payload", "node.next = level", "node.end = level",
           decoded.every_row),
    Change("a table of another dump", "kind, 0, seq, port", "kind, 0, seq + 1, port",
           decoded.every_table),
    Change("a cell of another attribute", "name === column", "name !== column",
           decoded.every_table),
    Change("packets of every protocol", "protocol !== ROUTE", "false", taken.made_captures),
    Change("numbers of hexdump as they stand", "isBig ? numbers", "true ? numbers", taken.dumped),
    Change("a row that is missing", "&& place === this.size", "", taken.bad_lines),
    Change("an end of a line", "found.go(() => trace.end());", "", taken.made_captures),
    Change("drops that aren't known", "drops === UNCOUNTED", "false", taken.made_captures),
    Change("a byte that selects nothing", '"byte", Number', '"row", Number', used.selected),
    Change("a link of little order", "return `${this.order}:", "return `little:", used.links),
    Change("a tree without levels", '"aria-level": level', '"aria-lever": level', used.accessible),
    Change("a faint text", "--faint: #59636e", "--faint: #a9b3be", used.accessible),
    Change("a wide page", "#able { padding", "#able { min-width: 30rem; padding", used.accessible),
    Change("a window that waits", 'const summary = await this.ask("read"',
           "for (const end = performance.now() + 300; performance.now() < end;);\n"
           'const summary = await this.ask("read"', used.large),
    Change("a policy that allows connections", "default-src 'none'", "default-src *", used.policy),
    Change("an error that is written", "new Page(decoding);",
           "new Page(decoding);\nconsole.error('wrong');", used.policy),
)


def source(text: str) -> str:
    return f"'sha256-{base64.b64encode(hashlib.sha256(text.encode()).digest()).decode()}'"


def allowed(page: str) -> str:
    """The page with a policy that allows its script and its style."""
    for tag in ("script", "style"):
        text = page.partition(f"<{tag}>")[2].partition(f"</{tag}>")[0]
        page = re.sub(rf"{tag}-src 'sha256-[^']*'", f"{tag}-src {source(text)}", page, count=1)
    return page


def changed(page: str, *changes: Tuple[str, str]) -> str:
    """The page with other texts in place of those that are there."""
    for old, new in changes:
        if old not in page:
            raise Wrong(f"nothing to change: {old}")
        page = page.replace(old, new)
    return allowed(page)


def finds(change: Change, folder: str, page: str) -> List[str]:
    """Nothing, where a case fails on the changed page."""
    if change.old not in page:
        return [f"nothing to change: {change.old}"]
    path = f"{folder}/changed.html"
    with open(path, "w", encoding="utf-8") as file:
        file.write(changed(page, (change.old, change.new)))
    browser = Browser(path)
    try:
        if browser.open() is not True:
            return ["the changed page does not begin"]
        return [] if any(wrong for _, wrong in change.cases(browser)) else ["no case fails"]
    except Wrong:
        return []
    finally:
        browser.close()


def cases(path: str) -> Iterator[Case]:
    with open(path, encoding="utf-8") as file:
        page = file.read()
    with tempfile.TemporaryDirectory() as folder:
        for change in CHANGES:
            yield f"a wrong page: {change.name}", finds(change, folder, page)
        open(os.path.join(folder, "done"), "w", encoding="utf-8").close()
