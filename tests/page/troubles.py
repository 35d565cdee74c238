"""What the page says where something can't be had: a decoder that doesn't answer, a file that
can't be read, memory, room to draw or to copy. Each time the next input is shown as ever."""
import os
import struct
import tempfile
import time
from typing import Any, Callable, Iterator, List, NamedTuple, Tuple

from browser import Browser
from expected import ROOT, differ, shown
from taken import capture_of
from wrong_pages import changed

Case = Tuple[str, List[str]]
PACKET = 65532
GOOD = "1400000003000200010000003930000000000000\n"
# A decoder that never answers an input that begins so, and a page that waits for seconds alone.
STUCK = ("function foundIn(input, isBig) {",
         'function foundIn(input, isBig) {\nwhile (input[0] === "?");')
HASTY = ("PATIENCE = 60000", "PATIENCE = 3000")
# A page in which a call throws, and another one rejects.
THROWS = ('() => this.go("foldAll")', '() => { throw new Error("folded"); }')
REJECTS = ("async sample(name) {", 'async sample(name) {\nthrow new Error("unread");')


def says(name: str, is_right: bool, found: object) -> Case:
    return name, [] if is_right else [str(found)[:400]]


def goes_on(browser: Browser, name: str) -> Case:
    """The next input is shown."""
    said = browser.paste(GOOD)
    found = [it for it in said["notes"] if "given up" not in it]
    wrong = [] if not found and "1 datagram, 20 bytes" in said["summary"] else [str(said)]
    return f"behind {name}", wrong + differ(shown(GOOD), browser.copied())


def is_cleared(said: Any, note: str) -> bool:
    """Nothing is shown but why."""
    return said["summary"] == "" and any(note in it for it in said["notes"])


def stuck(browser: Browser) -> Iterator[Case]:
    """A decoder that doesn't answer is ended: when another input comes, and after some time."""
    browser.paste(GOOD)
    browser.call("start", "?")
    said = browser.paste(GOOD)
    yield says("another input", "1 datagram" in said["summary"] and said["notes"] == [
        "the input before this one was given up"], said)
    yield goes_on(browser, "one that was given up")
    begun = time.monotonic()
    said = browser.paste("?")
    took = time.monotonic() - begun
    yield says("no answer", is_cleared(said, "given up after 3 seconds") and took < 30, said)
    yield goes_on(browser, "no answer")
    for text in ("?1", "?2", "?3"):
        browser.call("start", text)
    yield goes_on(browser, "some that don't answer")


def files(browser: Browser) -> Iterator[Case]:
    """A file that can't be read is named, and what was shown before is not shown as if it were
    of that."""
    with tempfile.TemporaryDirectory() as folder:
        good = f"{folder}/good.hex"
        with open(good, "w", encoding="ascii") as file:
            file.write(GOOD)
        with open(f"{folder}/long", "wb") as file:
            file.truncate(3_000_000_000)
        os.mkdir(f"{folder}/folder")
        for name in ("folder", "long", "gone"):
            said = browser.choose(good)
            yield says(f"before a file that is {name}", "1 datagram" in said["summary"], said)
            said = browser.choose(f"{folder}/{name}")
            yield says(f"a file: {name}", is_cleared(said, f"{name} can't be read: "), said)
            said = browser.call("state")
            yield says(f"{name}, no row is left", browser.call("count", "body.decoded") == 0, said)
            yield goes_on(browser, f"a file: {name}")


def unexpected(browser: Browser) -> Iterator[Case]:
    """What no call expects is said, whether it is thrown or rejected."""
    for button, wanted in (("fold", "folded"), ("sample", "unread")):
        browser.paste(GOOD)
        browser.call("click", f"#{button}")
        notes = browser.call("said")["notes"]
        yield says(f"unexpected: {wanted}", notes == [wanted], notes)
        yield goes_on(browser, f"unexpected: {wanted}")


def link(seq: int, index: int, attrs: bytes = b"") -> bytes:
    return struct.pack("<IHHIIBxHiII", 32 + len(attrs), 16, 2, seq, 0, 0, 0, index, 0, 0) + attrs


def large_links(count: int) -> bytes:
    """Links that take more memory in a table than the page's module may have."""
    attrs = bytes.fromhex("04003c00") * ((PACKET - 32) // 4)
    return capture_of([link(1, it + 1, attrs) for it in range(count)])


def many_dumps(count: int) -> bytes:
    """Links, each of a dump of its own."""
    links = [link(it + 1, 1) for it in range(count)]
    return capture_of([b"".join(links[it:it + 2000]) for it in range(0, count, 2000)])


class Large(NamedTuple):
    name: str
    data: Callable[[], bytes]
    summary: str
    notes: List[str]


LARGE = (
    Large("64 MiB of zeros", lambda: bytes(1 << 26), "1 datagram, 67,108,864 bytes", []),
    Large("66 MB of no form", lambda: b"\0" + b"\7" * 65_999_999, "1 refused", []),
    Large("200,000 dumps", lambda: many_dumps(200_000), "200,000 messages",
          ["more than 1000 dumps: the others have no table here"]),
    Large("59 MB of links", lambda: large_links(900), "900 messages", []),
)


def large(browser: Browser) -> Iterator[Case]:
    """What is as large as may be is shown in bounded time, and each key then answers at once."""
    with tempfile.TemporaryDirectory() as folder:
        for it in LARGE:
            path = f"{folder}/large"
            with open(path, "wb") as file:
                file.write(it.data())
            begun = time.monotonic()
            said = browser.choose(path)
            opened, begun = time.monotonic() - begun, time.monotonic()
            browser.call("key", "tree", "ArrowDown")
            end = browser.call("key", "grid", "End")
            took = time.monotonic() - begun
            print(f"{it.name}: {opened:.1f} s, two keys {took:.1f} s")
            right = it.summary in said["summary"] and said["notes"] == it.notes
            yield says(it.name, right and len(said["views"]) <= 1001, said)
            yield says(f"{it.name}, in time", opened < 20 and took < 5, (opened, took))
            yield says(f"{it.name}, drawn to its end", len(end["cursor"]) == 1, end)
            if it.name == "59 MB of links":
                yield from table_too_large(browser)
            yield goes_on(browser, it.name)


def table_too_large(browser: Browser) -> Iterator[Case]:
    said = browser.call("view", 1)
    yield says("a table without memory", said["notes"] == ["links, seq 1 port 0: out of memory"]
               and "900 datagrams" in said["summary"], said)
    chosen = browser.call("key", "tree", "Home")["chosen"]
    yield says("the messages beside it", chosen.startswith(f"datagram 1 {PACKET} bytes, ")
               and browser.call("count", "#table[hidden]") == 1, chosen)


def copies(browser: Browser) -> Iterator[Case]:
    """What is too long is not copied, and what goes into the field is short."""
    with open(f"{ROOT}/examples/rules.hex", encoding="ascii") as file:
        lines = file.read()
    browser.paste(lines * (15_000_000 // len(lines)))
    told = browser.call("click", "#json")["told"]
    yield says("JSON that is too long", told.startswith("The JSON is not copied: it has more than "
               "33554432 characters"), told)
    browser.driver.execute_script("examine.withoutClipboard();")
    browser.paste(GOOD)
    told = browser.call("click", "#copy")["told"]
    field = browser.driver.execute_script("return document.getElementById('input').value;")
    yield says("a text by hand", field == shown(GOOD) and "The text " in told, (told, field))
    browser.paste(lines * (1_000_000 // len(lines)))
    begun = time.monotonic()
    told = browser.call("click", "#copy")["told"]
    field = browser.driver.execute_script("return document.getElementById('input').value;")
    took = time.monotonic() - begun
    yield says("a text too long for a hand", field == "" and told.startswith(
        "The text is not copied: its ") and took < 5, (took, told, field[:80]))


def cases(path: str) -> Iterator[Case]:
    with open(path, encoding="utf-8") as file:
        page = file.read()
    groups = ((stuck, (STUCK, HASTY)), (unexpected, (THROWS, REJECTS)), (files, ()), (large, ()),
              (copies, ()))
    with tempfile.TemporaryDirectory() as folder:
        for group, changes in groups:
            with open(f"{folder}/page.html", "w", encoding="utf-8") as file:
                file.write(changed(page, *changes))
            begun, browser = time.monotonic(), Browser(f"{folder}/page.html")
            try:
                begins = [] if browser.open() is True else ["it does not"]
                yield f"the page begins, for {group.__name__}", begins
                yield from group(browser)
            finally:
                browser.close()
            print(f"{group.__name__}: {time.monotonic() - begun:.0f} s", flush=True)
