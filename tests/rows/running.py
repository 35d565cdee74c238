"""Whole runs over recordings, their sources and sinks call by call, and the lines of recordings."""
from typing import List

from flat import Answers, Asked, Wrong
from plain import Made
from shown import filled, refusal_in, written
from standing import asked_by
from words import FAMILIES, Row, Words

ENGINES = ("show", "show-json", "show-bytes", "show-bytes-coloured", "show-bytes-json", "check",
           "check-json", "table", "table-json", "request", "request-ordered")
VERDICTS = "clean", "blemished"
MEMORY, FILE, BROKEN, BLANKS = range(4)


def run_asked(words: Words) -> Asked:
    """`ENGINE [KIND] [LIMITS]`, a kind for tables and requests alone."""
    engine = words.one_of(ENGINES)
    kind = words.one_of(FAMILIES) if engine > 6 else 0
    return Asked(11, 0, engine, kind, *words.limits())


def recording(row: Row, asked: Asked) -> Asked:
    """The input's lines, each with its end, or its bytes behind `bytes`, or so many `#` behind
    `comment`."""
    if row.words.has("bytes"):
        return asked.put(0).data(row.bytes())
    if row.words.has("comment"):
        return asked.put(row.words.number()).data(b"")
    return asked.put(0).data(row.text())


def reader(words: Words) -> List[int]:
    """`EACH [blanks COUNT] [broken]`: a file."""
    return [words.number(), words.number_of("blanks", 0), int(words.has("broken"))]


def writer(words: Words) -> List[int]:
    """`EACH ROOM [broken]`."""
    return [words.number(), words.number(), int(words.has("broken"))]


def end_in(answers: Answers) -> str:
    """How a run ended, and how many calls of its source and its sink failed, or took no byte."""
    answer = refusal_in(answers) or VERDICTS[answers.number()]
    reads, writes, stalls = (answers.number() for _ in range(3))
    if reads or writes or stalls:
        return f"{answer}, reads {reads} writes {writes} stalls {stalls}"
    return answer


def run(row: Row) -> Made:
    """`run ENGINE [KIND] [LIMITS]`, the words for the recording, and where it comes from and goes
    to: memory, or a file behind `from` or `into`."""
    words, asked = row.words, recording(row, run_asked(row.words))
    is_file = words.has("from")
    asked.put(*([FILE, *reader(words)] if is_file else [MEMORY]))
    asked.put(*([FILE, *writer(words)] if words.has("into") else [MEMORY]))
    [answers] = yield [asked]
    end, lines = end_in(answers), written(answers.data())
    return [*lines, end, *([f"left {answers.number()}"] if is_file else [])]


def faulty(row: Row) -> Made:
    """`faulty ENGINE [KIND] [LIMITS] EACH CALLS`, then `fails` for a sink that fails behind so many
    calls that take so many bytes each, else it takes none from then on; and a source: `text` for
    the line of input or `comment COUNT` for so many `#`, with `fails` where it fails at its end;
    `from` and the words for a file; or `blanks` for those without end."""
    words, asked = row.words, run_asked(row.words)
    sink = [2, words.number(), words.number(), int(words.has("fails"))]
    source = words.word()
    if len(row.lines) > (source == "text"):
        raise Wrong("input that is not read")
    count = words.number() if source == "comment" else 0
    asked.put(count).data("".join(row.lines).encode())
    if source in ("text", "comment"):
        sort = BROKEN if words.has("fails") else MEMORY
        asked.put(sort)
    else:
        sort = FILE if source == "from" else BLANKS
        asked.put(sort, *(reader(words) if source == "from" else ()))
    [answers] = yield [asked.put(*sink)]
    end, text = end_in(answers), answers.data()
    more = {FILE: "{skip}", BROKEN: "left {number}", BLANKS: "given {number}"}.get(sort, "")
    last = filled(more, answers)
    return [f"{end}, written {len(text)}", *text.decode().splitlines(), *[last][:bool(last)]]


def run_check(row: Row) -> Made:
    """`run_check [LIMITS]`, of the recording in the lines."""
    [answers] = yield [Asked(11, 0, 5, 0, *row.words.limits(), 0).data(row.text()).put(0, 0)]
    end, text = end_in(answers), answers.data()
    return [*text.decode().splitlines(), end]


def datagrams_in(answers: Answers) -> List[str]:
    refusal = refusal_in(answers)
    if refusal:
        return [refusal]
    count = answers.number()
    return [f"datagrams {count}", *(filled("{hex}", answers) for _ in range(count))]


def datagrams(row: Row) -> Made:
    """`datagrams` and the words for a recording."""
    [answers] = yield [recording(row, Asked(11, 2))]
    return datagrams_in(answers)


def line_fault(row: Row) -> Made:
    """What is wrong with the line of these bytes, and the datagrams of a recording that has no
    other line."""
    line = row.bytes()
    fault, found = yield [Asked(11, 1).data(line), Asked(11, 2, 0).data(line)]
    sort = fault.number()
    if sort == 1:
        column, byte = fault.number(), fault.number()
        return [f"byte 0x{byte:02x} in column {column}", *datagrams_in(found)]
    return [filled("digits {number}" if sort else "nothing", fault), *datagrams_in(found)]


def takes(row: Row) -> Made:
    """`takes`, or behind `from` of a file, and sizes."""
    words, asked = row.words, Asked(11, 3).data(row.bytes())
    asked.put(*([1, *reader(words)] if words.has("from") else [0]))
    sizes = [words.number("u8") for _ in words.left[:]]
    [answers] = yield [asked.put(len(sizes), *sizes)]
    said = [filled("!{number} {hex}", answers) for _ in sizes]
    return [*said, filled("failures {number}", answers)]


def gives(row: Row) -> Made:
    """`gives`, into memory or behind `into` into a file. The last line is what it kept."""
    words, asked = row.words, Asked(11, 4)
    asked.put(*([1, *writer(words)] if words.has("into") else [0]))
    [answers] = yield [asked_by(asked, [Asked().data(it) for it in row.each()])]
    return [*(filled("!{number}", answers) for _ in row.lines),
            filled("failures {number} stalls {number}", answers), filled("{hex}", answers)]


def show_text(row: Row) -> Made:
    """`show_text [LIMITS]`, of the recording in the lines."""
    [answers] = yield [Asked(12, 4, *row.words.limits()).data(row.text())]
    refusal = refusal_in(answers)
    if refusal:
        return [refusal]
    verdict = VERDICTS[answers.number()]
    return [*written(answers.data()), verdict]


def links_of(row: Row) -> Made:
    """`links_of [LIMITS]`, of the recording in the lines."""
    [answers] = yield [Asked(12, 5, *row.words.limits()).data(row.text())]
    refusal = refusal_in(answers)
    if refusal:
        return [refusal]
    return [filled("name {hex} mtu {maybe}", answers) for _ in range(answers.number())]


CALLS = {"run": run, "faulty": faulty, "run_check": run_check, "datagrams": datagrams,
         "line_fault": line_fault, "takes": takes, "gives": gives, "show_text": show_text,
         "links_of": links_of}
