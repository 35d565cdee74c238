"""Lists and datagrams, written: what was read again, and what steps build.

A step `read ORDER HEX` reads bytes. Each other step puts something behind what there is, or around
it: `leaf NUMBER [FLAGS] [HEX]` is an attribute of bytes, `list NUMBER [FLAGS]` one that holds the
last attribute, `hop FLAGS HOPS IFINDEX` a next hop that has it, and `hops NUMBER` an attribute that
holds all those next hops. Of the last message of a datagram `kind NUMBER` sets the type, and `tail
HEX` the bytes that are not told apart further.
"""
from typing import Iterator, List

from flat import Answers, Asked
from plain import Made
from shown import body_in, filled, hexadecimal, or_none, refusal_in, views_in
from standing import asked_by
from stepping import split
from words import CONTEXTS, FAMILIES, Row, Words

STEPS = "read", "leaf", "list", "hop", "hops", "kind", "tail"
# The greatest limits, within which datagrams are read.
GREATEST = 32, 1_048_576, 0, 0


def step(row: Row, line: str, is_datagram: bool) -> Asked:
    name, rest = split(line)
    number, words = Words(name).one_of(STEPS), Words(rest)
    asked = Asked(number)
    if name == "read":
        asked.put(words.order(), *(GREATEST if is_datagram else ()))
    elif name == "leaf":
        head = [words.number("u16")]
        asked.data(row.names.line(" ".join(words.left))).put(*head, 0, 0)
        return asked
    elif name in ("list", "hops"):
        asked.put(words.number("u16"), *words.flags())
    elif name == "hop":
        asked.put(words.number("u8"), words.number("u8"), words.number("i32"))
    elif name == "kind":
        asked.put(words.number("u16"))
    if name in ("read", "tail"):
        return asked.data(row.names.line(" ".join(words.left)))
    words.end()
    return asked


def steps(row: Row, is_datagram: bool) -> List[Asked]:
    return [step(row, it, is_datagram) for it in row.lines]


def left_in(answers: Answers) -> str:
    """What writing leaves."""
    refusal, out = refusal_in(answers), hexadecimal(answers.data())
    return f"{refusal} left {out}" if refusal else f"written {out}"


def write_list(row: Row) -> Made:
    """`write_list CONTEXT [depth LEVELS]` and steps."""
    asked = Asked(4, 0, row.words.one_of(CONTEXTS), row.words.depth())
    [answers] = yield [asked_by(asked, steps(row, False))]
    return [filled("len {maybe}", answers), *(left_in(answers) for _ in range(3))]


def write_datagram(row: Row) -> Made:
    """`write_datagram [LIMITS]` and steps."""
    [answers] = yield [asked_by(Asked(4, 1, *row.words.limits()), steps(row, True))]
    return [filled("!{hex}", answers)]


def built_views(row: Row) -> Made:
    """`built_views` and steps: what the views of each message's body find."""
    [answers] = yield [asked_by(Asked(4, 2), steps(row, True))]
    return [*all_views_in(answers)]


def all_views_in(answers: Answers) -> Iterator[str]:
    while answers.place < len(answers.items):
        sorts: List[int] = []
        for _ in body_in(answers, sorts):
            pass
        yield from views_in(answers, sorts[0])


def body_asked(row: Row, call: int) -> Asked:
    """`FAMILY [ORDER] [base PLACE] [depth LEVELS]`: a body that is read so, and written so."""
    words = row.words
    family, order = words.one_of(FAMILIES), words.twin()
    base, depth = words.number_of("base", 0), words.depth()
    front = [order, depth] if call == 1 else [order]
    return Asked(3, family, call, *front, base, depth).data(row.bytes())


def body(row: Row) -> Made:
    [answers] = yield [body_asked(row, 0)]
    lines, refusal = [filled("visits {number}", answers)], refusal_in(answers)
    if refusal:
        return [*lines, refusal]
    sorts: List[int] = []
    lines += body_in(answers, sorts)
    return lines + [*views_in(answers, sorts[0])]


def write_body(row: Row) -> Made:
    [answers] = yield [body_asked(row, 1)]
    answers.number()
    refusal = refusal_in(answers)
    if refusal:
        return [refusal]
    return [f"len {or_none(answers.maybe())} {left_in(answers)}"]


def key(row: Row) -> Made:
    [answers] = yield [body_asked(row, 2)]
    answers.number()
    refusal = refusal_in(answers)
    if refusal:
        return [refusal]
    found = answers.found()
    return ["out of memory" if found is None else hexadecimal(found)]


CALLS = {"write_list": write_list, "write_datagram": write_datagram, "built_views": built_views,
         "body": body, "write_body": write_body, "key": key}
