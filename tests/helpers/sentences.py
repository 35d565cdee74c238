#!/usr/bin/env python3
"""How long the sentences of Markdown pages are: of their prose, without code, tables, headings and
pictures. A sentence has more than three words, and ends by a mark that ends one.

  tests/helpers/sentences.py PAGE ..  prints a line a page: sentences, words in the mean, long ones
"""
import re
import sys
from typing import Iterator, List, NamedTuple

# A sentence of more words is a long one.
LONG = 35

FENCED = re.compile(r"^```.*?^```$", re.M | re.S)
TARGET = re.compile(r"\]\([^)]*\)")
MARKS = re.compile(r"[`\[\]*]")
# Lines that are no prose, and where a part of the prose ends.
OTHER = ("|", "#", "[!", "![", "<", "    ")
PART = re.compile(r"\n\s*\n|\n\s*[-*] |\n\d+\. ")
END = re.compile(r"(?<=[.?!])\s+(?=[A-Z])")
WORD = re.compile(r"[A-Za-z']+")


class Length(NamedTuple):
    """How many sentences there are, how many words one has in the mean, and the share in percent of
    those that are long."""

    sentences: int
    mean: float
    long: float


def sentences(text: str) -> Iterator[str]:
    """The sentences of a page."""
    lines = FENCED.sub("", text).split("\n")
    shown = "\n".join(line for line in lines if not line.startswith(OTHER))
    for part in PART.split(MARKS.sub("", TARGET.sub("]", shown))):
        for sentence in END.split(" ".join(part.split())):
            if len(WORD.findall(sentence)) > 3 and sentence.endswith((".", "?", "!", ":")):
                yield sentence


def measured(text: str) -> Length:
    counts: List[int] = [len(WORD.findall(it)) for it in sentences(text)]
    if not counts:
        return Length(0, 0.0, 0.0)
    long = sum(it > LONG for it in counts)
    return Length(len(counts), sum(counts) / len(counts), 100 * long / len(counts))


def shown(page: str, length: Length) -> str:
    return (f"{page}: {length.sentences} sentences, {length.mean:.1f} words in the mean, "
            f"{length.long:.1f} % above {LONG}")


if __name__ == "__main__":
    for name in sys.argv[1:]:
        with open(name, encoding="utf-8") as file:
            print(shown(name, measured(file.read())))
