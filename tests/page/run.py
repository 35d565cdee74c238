"""run.py PAGE [--pictures]: tries a built page; see tests/page.sh."""
import os
import sys
import time
from typing import Iterator, List, Tuple

sys.dont_write_bytecode = True
sys.path.insert(0, f"{os.path.dirname(os.path.realpath(__file__))}/../helpers")
import counting
import decoded
import pictures
import scripts
import taken
import troubles
import used
import wrong_pages
from browser import Browser

Case = Tuple[str, List[str]]


def cases(page: str) -> Iterator[Case]:
    yield from scripts.cases()
    browser = Browser(page)
    try:
        yield "the page begins", [] if browser.open() is True else ["it does not"]
        for group in (*used.CASES, *taken.CASES, *decoded.CASES):
            begun = time.monotonic()
            yield from group(browser)
            print(f"{group.__name__}: {time.monotonic() - begun:.0f} s", flush=True)
        yield from used.policy(browser)
    finally:
        browser.close()
    if counting.whole("troubles, older browsers, and changed pages, each of which is found wrong"):
        yield from troubles.cases(page)
        yield from used.older(page)
        yield from wrong_pages.cases(page)


def main(words: List[str]) -> int:
    page = os.path.realpath(words[0])
    if "--pictures" in words:
        pictures.make(page)
    return counting.counted(cases(page))


if __name__ == "__main__":
    sys.exit(main(sys.argv[1:]))
