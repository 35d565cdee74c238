"""How the page is used: by keys, by selecting, by its link; its roles, contrast and times; what it
forbids; and what an older browser is told."""
import re
from typing import Iterator, List, Tuple

from browser import SMOOTH, Browser, soonest
from expected import datagrams_of, differ, recordings, shown

Case = Tuple[str, List[str]]
LARGE = 5_000_000
SOON = 3000
LOOPBACK = ("30000000 1000 0200 01000000 39300000 00000403 01000000 49000100 00000000 "
            "07000300 6c6f0000 08000400 00000100")
UNKNOWN = "2800000010000200010000003930000000000403010000004900010000000000 0500f43f 01000000"
HOP = ("38000000 1800 0200 01000000 39300000 02180000fe03000100000000 0800 0100 c6336400 "
       "1400 0900 0000 00 00 02000000 0800 0500 c0000201")
POLICY = {"default-src": "'none'", "script-src": "'sha256-", "style-src": "'sha256-",
          "worker-src": "blob:", "base-uri": "'none'", "form-action": "'none'"}


def says(name: str, is_right: bool, found: object) -> Case:
    return name, [] if is_right else [str(found)[:400]]


def selected(browser: Browser) -> Iterator[Case]:
    """Selecting a row marks its bytes, and selecting a byte its row."""
    browser.paste(LOOPBACK)
    it = browser.call("click", "#row-3")
    yield says("a row", it["own"] == [*range(32, 40)] and it["padding"] == [39]
               and it["head"] == [*range(32, 36)], it)
    yield says("what is said of a row", it["chosen"] == "datagram 1, IFNAME lo text (3), "
               "bytes 32 to 38: head 4, payload 3, padding 1", it["chosen"])
    it = browser.call("click", "#byte-45")
    yield says("a byte", "MTU" in it["row"] and it["own"] == [*range(40, 48)]
               and it["cursor"] == [45], it)
    browser.paste(UNKNOWN)
    it = browser.call("click", "#byte-37")
    yield says("an unknown attribute", "unknown" in it["row"]
               and browser.call("count", "#tree .unknown") == 1
               and browser.call("count", "#grid .unknown") == 1, it)
    browser.paste(HOP)
    yield says("an unfinished list", browser.call("count", "#tree .unfinished") == 2
               and browser.call("count", "#grid .unread") == 8, browser.call("state"))


def keys(browser: Browser) -> Iterator[Case]:
    """Keys that are pressed, in the tree, in the grid, and from one control to the next."""
    browser.paste(LOOPBACK)
    browser.call("focus", "tree")
    for pressed, wanted in ((["Home"], "datagram 1"), (["ArrowDown"] * 4, "MTU"),
                            (["ArrowUp"], "IFNAME"), (["ArrowLeft"], "newlink"),
                            (["ArrowRight"], "link family"), (["End"], "MTU"),
                            (["PageUp"], "datagram 1"), (["PageDown"], "MTU")):
        browser.press(*pressed)
        row = browser.call("state")["row"]
        yield says(f"{' '.join(pressed)} in the tree", wanted in row, row)
    browser.press("ArrowLeft", "ArrowLeft")
    yield says("folded", browser.call("count", "#tree .row") == 2, browser.call("state"))
    browser.press("Enter")
    yield says("unfolded", browser.call("count", "#tree .row") == 5, browser.call("state"))
    browser.press("Space")
    found = browser.call("find", "mtu")
    yield says("found in what is folded", "MTU" in found["row"], found)
    found = browser.call("find", "no such words")
    yield says("not found", "no such words" in found["told"], found)
    browser.call("click", "#byte-33")
    browser.call("focus", "grid")
    browser.press("ArrowRight", "ArrowDown")
    cursor = browser.call("state")["cursor"]
    yield says("keys in the grid", cursor == [47], cursor)
    stops: List[str] = []
    browser.call("focus", "input")
    while "grid" not in stops and len(stops) < 30:
        stops.append(browser.call("focused"))
        browser.press("Tab")
    each = {"file", "samples", "sample", "order", "view", "copy", "json", "link", "fold", "words",
            "tree", "grid"}
    yield says("Tab comes to each control", each <= {*stops}, stops)


def links(browser: Browser) -> Iterator[Case]:
    name, lines = next(recordings())
    browser.paste(lines, "auto")
    address = browser.copied("link")
    yield says("a link", address == browser.call("address") and "#auto:" in address, address)
    browser.open("#" + address.partition("#")[2])
    yield f"{name}, of a link", differ(shown(lines), browser.copied())
    digits = "1400000003000200010000003930000000000000"
    browser.open(f"#big:{digits}")
    yield "a link in big", differ(shown(digits, "big"), browser.copied())
    browser.paste("00" * 70000)
    browser.call("click", "#link")
    told = browser.call("state")["told"]
    yield says("a recording too long for a link", "too long" in told, told)
    browser.open()


def samples(browser: Browser) -> Iterator[Case]:
    for at in range(browser.call("count", "#samples option")):
        name = browser.call("sample", at)
        said = browser.call("said")
        yield says(f"sample {name}", "datagram" in said["summary"], said)


def accessible(browser: Browser) -> Iterator[Case]:
    for scheme in ("light", "dark"):
        browser.scheme(scheme)
        for width in (1280, 360):
            browser.size(width, 740)
            texts = {"links": LOOPBACK, "unknown": UNKNOWN, "refused": f"{HOP}\nzz"}
            for name, text in texts.items():
                browser.paste(text)
                found = browser.call("roles")
                yield f"roles, {scheme}, {width}, {name}", found
                least = browser.call("contrast")
                yield says(f"contrast, {scheme}, {width}, {name}", least["ratio"] >= 4.5, least)
            browser.paste(next(recordings())[1])
            browser.call("view", 1)
            yield f"roles, {scheme}, {width}, a table", browser.call("roles")
    browser.scheme("light")
    browser.size(1280, 800)


def large(browser: Browser) -> Iterator[Case]:
    """5 MB are shown soon, and neither loading nor scrolling holds up the window."""
    name, lines = max(recordings(), key=lambda it: len(datagrams_of(it[1])[0]) if it[1] else 0)
    whole = "".join(f"{it.hex()}\n" for it in datagrams_of(lines))
    text = whole * (LARGE // len(whole))
    browser.paste(LOOPBACK)
    took = soonest(lambda: browser.paste(text, "auto"), lambda it: it["longest"])
    print(f"{len(text)} characters of {name}: {took['time']:.0f} ms, the window waited for "
          f"{took['longest']:.0f} ms")
    yield says("5 MB in time", took["time"] < SOON, took)
    yield says("5 MB without a pause", took["longest"] < SMOOTH, took)
    longest = soonest(lambda: browser.call("jumped", 60), float)
    print(f"scrolled: a frame took {longest:.0f} ms")
    yield says("5 MB scrolled", longest < SMOOTH, longest)
    end = browser.call("key", "tree", "End")["chosen"]
    yield says("the end of 5 MB", f"datagram {text.count(chr(10))}, " in end, end)
    yield says("few elements", browser.call("count", "*") < 3000, browser.call("count", "*"))
    yield "the text of 5 MB", differ(shown(text), browser.copied())
    browser.paste(LOOPBACK)


def policy(browser: Browser) -> Iterator[Case]:
    """Nothing was forbidden up to here and no error was written; and no connection can be made."""
    found = browser.call("violations") + browser.complaints()
    yield "no violation and no error", [str(it)[:300] for it in found]
    with open(browser.page, encoding="utf-8") as file:
        text = file.read()
    said = re.search(r'http-equiv="Content-Security-Policy" content="([^"]*)"', text)
    parts = dict(it.strip().split(" ", 1) for it in (said[1] if said else "").split(";") if it)
    right = parts.keys() == POLICY.keys() and all(parts[it].startswith(POLICY[it]) for it in parts)
    yield says("the policy", right and parts["default-src"] == "'none'", parts)
    for way in ("fetch", "XMLHttpRequest", "WebSocket", "Image", "beacon"):
        answer = browser.call("connects", way)
        yield says(f"no connection by {way}", answer == "refused", answer)
    answer = browser.call("workerConnects")
    yield says("no connection by a worker", answer == "refused", answer)
    browser.complaints()
    yield says("the size", len(text.encode()) <= 260_000, len(text.encode()))


def older(page: str) -> Iterator[Case]:
    for name in ("WebAssembly", "DecompressionStream", "Worker"):
        browser = Browser(page, without=name)
        try:
            said = browser.open()
            right = name in str(said) and browser.call("count", "#unable") == 1
            yield says(f"without {name}", right, said)
        finally:
            browser.close()


CASES = (selected, keys, links, samples, accessible, large)
