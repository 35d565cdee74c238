"""Searches the scripts of the page for what they may not do: read a number of what a reader hands
in, beside captures.js, which reads those of files of captures; or make elements of a text. Then
the search is tried with lines that do so."""
import glob
import os
import re
from typing import Iterator, List, Tuple

from expected import ROOT

Case = Tuple[str, List[str]]
WEB = f"{ROOT}/web"
# What joins bytes to a number, or reads one at a place.
POWER = r"(?:256|65536|16777216|0x100|0x10000|0x1000000)\b"
NUMBERS = re.compile(
    r"\bDataView\b|\bgetU?[iI]nt\d|\bgetBig|(?:Uint|Int|BigUint|BigInt|Float)(?:16|32|64)Array|"
    rf"(?<!\b1 )<<\s*(?:8|16|24)\b|\*\*|\*\s*{POWER}|\b{POWER}\s*\*")
ELEMENTS = re.compile(
    r"\b(?:innerHTML|outerHTML|insertAdjacentHTML|createContextualFragment|setHTML\w*|DOMParser|"
    r"eval|srcdoc)\b|document\.write|new Function|\bsetTimeout\(\s*[\"'`]")
# Those that may read numbers, and which: of files, and of the answers of calls.
READERS = {"captures.js", "library.js"}
PLANTED = ("const length = new DataView(bytes.buffer).getUint16(place, true);",
           "const length = bytes[at] | (bytes[at + 1] << 8);",
           "const length = bytes[at] + 256 * bytes[at + 1];",
           "const length = new Uint16Array(bytes.buffer, at, 1)[0];",
           "const length = bytes.reduceRight((sum, byte) => 0x100 * sum + byte, 0);")
DRAWN = ("box.innerHTML = line;", "box.insertAdjacentHTML('beforeend', line);",
         "document.write(line);", "new Function(line)();")


def texts() -> Iterator[Tuple[str, str]]:
    for path in sorted([*glob.glob(f"{WEB}/*.js"), *glob.glob(f"{ROOT}/record/js/*.js")]):
        with open(path, encoding="utf-8") as file:
            yield os.path.basename(path), file.read()


def code_of(text: str) -> Iterator[Tuple[int, str]]:
    """The lines by their numbers, without comments."""
    for number, line in enumerate(text.split("\n"), 1):
        yield number, re.sub(r"(^|\s)// .*", "", line)


def found(pattern: "re.Pattern[str]", text: str) -> List[str]:
    return [f"line {number}: {line.strip()}" for number, line in code_of(text)
            if pattern.search(line)]


def missed(pattern: "re.Pattern[str]", lines: Tuple[str, ...], text: str) -> List[str]:
    """Those of the lines that a search of the text with them doesn't find."""
    before = len(found(pattern, text))
    return [line for line in lines if len(found(pattern, f"{text}\n  {line}")) == before]


def of_bytes(text: str) -> List[str]:
    """The lines of library.js that read other numbers than those that a call answered: `view` is
    on the module's memory, and only what the library wrote there is read by it."""
    read = [line for _, line in code_of(text) if re.search(r"\bget(?:U|Big|Int)\w*\(", line)]
    return [line.strip() for line in read if not re.search(r"\bview\.get\w+\(at\b", line)]


def cases() -> Iterator[Case]:
    scripts = dict(texts())
    yield "there are scripts", [] if READERS < scripts.keys() else [str([*scripts])]
    for name, text in scripts.items():
        if name not in READERS:
            yield f"{name} reads no number", found(NUMBERS, text)
            yield f"{name}, the search for numbers", missed(NUMBERS, PLANTED, text)
        yield f"{name} makes no elements of texts", found(ELEMENTS, text)
        yield f"{name}, the search for elements", missed(ELEMENTS, DRAWN, text)
    yield "library.js reads answers alone", of_bytes(scripts["library.js"])
    yield "library.js, its search", [] if of_bytes(
        "const length = view.getUint16(this.bytesAt, true);") else ["not found"]
    wide = [f"{name}: {line}" for name, text in (*everything(), *texts())
            for line in text.split("\n") if len(line) > 99]
    yield "lines below 100 columns", wide
    lines = {name: len(text.splitlines()) for name, text in everything()}
    total = sum(lines.values())
    yield "at most 1,500 lines", [] if total <= 1500 else [f"{total}: {lines}"]


def everything() -> Iterator[Tuple[str, str]]:
    for name in sorted(os.listdir(WEB)):
        if os.path.isfile(f"{WEB}/{name}"):
            with open(f"{WEB}/{name}", encoding="utf-8") as file:
                yield name, file.read()
