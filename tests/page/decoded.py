"""What is decoded: the texts of every recording, what is said of faults, the tables of dumps, and
that a row of the tree marks the bytes of its head."""
import itertools
import re
import sys
from typing import Iterator, List, Tuple

from browser import SMOOTH, Browser, soonest
from expected import (ROOT, as_lines, datagrams_of, differ, explained, recordings, run, shown)

sys.path.insert(0, f"{ROOT}/tests/helpers")
import counting
import datagrams
import mutations
import reference

Case = Tuple[str, List[str]]
ORDERS = datagrams.ORDERS
# Each so many-th of the mutations of the recordings, 5,000 in all, and of those whose faults are
# gone to.
STEP, GONE_TO = 4, 16
# So many recordings have their rows walked.
WALKED = 8 if counting.whole("19 of 20 mutations, and the rows of most recordings") else 2
KINDS = {"links": "link", "addresses": "addr", "routes": "route", "neighbours": "neigh",
         "rules": "rule"}


def texts(browser: Browser, lines: str, order: str) -> List[str]:
    """How what is copied differs from what `show` prints."""
    text = differ(shown(lines, order), browser.copied("copy"))
    return text + differ(shown(lines, order, "json"), browser.copied("json"))


def swapped(lines: str) -> str:
    """The same datagrams with the highest byte of each number first."""
    found = [reference.read(it, "<") for it in datagrams_of(lines)]
    return as_lines([reference.written(it, ">") for it in found])


def every_recording(browser: Browser) -> Iterator[Case]:
    for name, lines in recordings():
        for order in ORDERS:
            browser.paste(lines, order)
            yield f"{name}, {order}", texts(browser, lines, order)


def guessed_orders(browser: Browser) -> Iterator[Case]:
    for name, lines in itertools.islice(recordings(), 6):
        for order, text in (("little", lines), ("big", swapped(lines))):
            said = browser.paste(text, "auto")["summary"]
            wrong = [] if f"order {order} (guessed)" in said else [said]
            yield f"{name}, guessed {order}", wrong + texts(browser, text, order)


def fault_lines(browser: Browser, lines: str, order: str) -> List[str]:
    """How what is said and marked of each fault differs from what --explain says."""
    wanted, wrong = explained(lines, order), []
    for line, it in zip(wanted, browser.call("faults", len(wanted)), strict=True):
        number, _, fault = line.partition(": ")
        place = re.match(r"[a-z ]* at (\d+)", fault)
        said = re.sub(r", bytes \d+ to \d+$", "", it["chosen"])
        if said != f"{number}, refused {fault}" or not it["isFault"]:
            wrong.append(f"{line!r}, but {it['chosen']!r}")
        elif it["bad"][:1] != ([int(place[1])] if place else []):
            wrong.append(f"{line!r}, but marked {it['bad']}")
    return wrong


def every_fault(browser: Browser) -> Iterator[Case]:
    for name, lines in recordings():
        if explained(lines):
            browser.paste(lines)
            yield f"{name}, faults", fault_lines(browser, lines, "little")
    for data in (bytes(15), bytes(65536), bytes(65540)):
        browser.paste(data.hex())
        yield f"{len(data)} zeros", fault_lines(browser, data.hex(), "little")


def mutated(browser: Browser) -> Iterator[Case]:
    for order, sign in ORDERS.items():
        for name, found in datagrams.mutated_groups(sign):
            lines = as_lines([it for it in found[::STEP] if it])
            browser.paste(lines, order)
            yield f"{name}, {order}", texts(browser, lines, order)
            lines = as_lines([it for it in found[::GONE_TO] if it])
            browser.paste(lines, order)
            yield f"{name}, {order}, faults", fault_lines(browser, lines, order)


def dense(browser: Browser) -> Iterator[Case]:
    """The longest datagrams, of attributes without bytes, and of nested ones."""
    head = bytes.fromhex("00000100100000000100000001000000") + bytes(16)
    nested = b"".join((4 * left).to_bytes(2, "little") + b"\x12\x80" for left in range(8, 0, -1))
    wide = (65504).to_bytes(2, "little") + b"\x01\x00" + bytes(65500)
    for name, item in (("empty", bytes.fromhex("04000100")), ("nested", nested), ("wide", wide)):
        lines = as_lines([head + item * (65504 // len(item))])
        took = soonest(lambda: browser.paste(lines), lambda it: it["longest"])
        yield f"{name} attributes", texts(browser, lines, "little")
        last, first = browser.call("key", "tree", "End"), browser.call("key", "grid", "Home")
        right = " to 65535: head 4, " in last["chosen"] and first["cursor"] == [0]
        yield f"{name} attributes, both ends", [] if right else [last["chosen"], str(first)]
        is_soon = took["time"] < 3000 and took["longest"] < SMOOTH
        yield f"{name} attributes, in time", [] if is_soon else [str(took)[:300]]


def is_body(row: dict) -> bool:
    return row["level"] == 3 and bool(re.match(
        "[▸▾]?(link|addr|route|neigh|rule|bytes|error|done|get) ", row["text"]))


def every_row(browser: Browser) -> Iterator[Case]:
    """Each row of the tree marks the bytes of its head, as the second reading has them."""
    for name, lines in itertools.islice(recordings(), WALKED):
        data = max(datagrams_of(lines), key=len)[:2000] if lines.strip() else b""
        found = mutations.heads(data, "<", mutations.Heads)
        browser.paste(data.hex())
        rows = browser.call("scrolled", "tree")
        walked = browser.call("walk", len(rows))
        heads = [it for it, row in zip(walked, rows) if row["level"] > 1 and not is_body(row)
                 and not it["isFault"]]
        wrong = [] if len(heads) == len(found) else [f"{len(heads)} rows of {len(found)} heads"]
        for it, (place, _, behind, _) in zip(heads, found):
            says = f", bytes {place} to {behind - 1}: head " in it["chosen"]
            if not says or it["head"][:1] != [place]:
                wrong.append(f"{it['chosen']!r} of {place} to {behind}, marked {it['head']}")
        yield f"{name}, rows and bytes", wrong


def table_of(lines: str, kind: str, seq: str, port: str) -> Tuple[str, List[List[str]]]:
    """How `table` says that a dump ended, and the lines of each entry."""
    words = ("table", "--kind", kind, "--seq", seq, "--port", port)
    text = run(*words, data=lines)[0].splitlines()
    entries: List[List[str]] = []
    for line in text[:-4]:
        if line.startswith("entry "):
            entries.append([])
        elif entries:
            entries[-1].append(line)
    return ", ".join(text[-4:]), entries


def is_cell(value: str, column: str, entry: List[str]) -> bool:
    """Whether a cell says what the entry's head says, or its first attribute of this name."""
    if column.islower():
        bits = f"0x0*{value[2:]}" if value.startswith("0x") else re.escape(value)
        return bool(re.search(f" {column} (0x[0-9a-f]+ )?{bits} ", f"{entry[0]} "))
    attrs = [line.split(" ", 9)[9] for line in entry if re.match(rf"    attr \d+ {column} ", line)]
    return value == (attrs or ["-"])[0]


def every_table(browser: Browser) -> Iterator[Case]:
    for name, lines in recordings():
        views = browser.paste(lines)["views"]
        for at, view in enumerate(views[1:], 1):
            kind, _, seq, _, port = view.replace(",", "").split(" ")
            end, entries = table_of(lines, KINDS[kind], seq, port)
            said = browser.call("view", at)["chosen"]
            columns, *cells = browser.call("cells")
            wrong = [] if said == end else [f"{end!r}, but {said!r}"]
            if len(cells) < min(len(entries), 20):
                wrong.append(f"{len(cells)} rows of {len(entries)} entries")
            for entry, row in zip(entries, cells):
                wrong += [f"{column} {value!r} of {entry}" for column, value in zip(columns, row)
                          if not is_cell(value, column, entry)]
            yield f"{name}, {view}", wrong[:3]


CASES = (every_recording, guessed_orders, every_fault, mutated, dense, every_row, every_table)
