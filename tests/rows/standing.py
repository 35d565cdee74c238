"""Sessions, streams and mirrors, whose rows have a step in each line."""
from typing import Iterator, List, NamedTuple, Tuple

from flat import Answers, Asked
from plain import Made
from shown import coded_in, filled, messages_in, refusal_in, yes_or_no
from stepping import OUT_OF_MEMORY, count_in, cuts_of, cuts_shown, entries_in, places_in, split
from words import FAMILIES, Row, Words


class Standing(NamedTuple):
    """Where a session or a stream stands: all that is answered of it, and of that its state, what
    it received and visited, whether it is damaged, and what is told of it."""

    kept: Tuple[object, ...]
    state: str
    received: int
    visits: int
    damaged: bool


def standing_in(answers: Answers) -> Standing:
    limits = tuple(answers.number() for _ in range(6))
    state = filled("{state}", answers)
    received, visits, ignored, damaged, interrupted = (answers.number() for _ in range(5))
    kept = limits, state, ignored, interrupted
    return Standing(kept, state, received, visits, bool(damaged))


class Stood(NamedTuple):
    """Where a session stands, whether its dump is complete, and its entries."""

    standing: Standing
    complete: bool
    counts: str


def stood_in(answers: Answers) -> Stood:
    standing, complete = standing_in(answers), bool(answers.number())
    return Stood(standing, complete, filled("entries" + " {number}" * 5, answers))


def told(answer: str, size: int, before: Stood, now: Stood) -> str:
    """What became of a datagram of so many bytes."""
    received = now.standing.received - before.standing.received == size
    visits = now.standing.visits - before.standing.visits
    return (f"{answer}, visits {visits} received {yes_or_no(received)} damaged "
            f"{yes_or_no(now.standing.damaged)} complete {yes_or_no(now.complete)} {now.counts}")


def as_before(is_so: bool) -> str:
    return "as before" if is_so else "changed"


def shown_in(answers: Answers, more: str = "") -> List[str]:
    return filled("{state}\nreceived {number} visits {number} ignored {number}\n"
                  "damaged {yes} interrupted {yes} complete {yes}" + more, answers).splitlines()


def coded_progress_in(answers: Answers) -> Tuple[int, str]:
    """The number of a refusal, or 0, and what became of a datagram."""
    code = answers.number()
    return code, answers.text() if code else filled("{progress}", answers)


def tables_in(answers: Answers) -> List[object]:
    """All that the tables of a session hold, asked for in a step each."""
    found: List[object] = []
    for _ in FAMILIES:
        count = count_in(answers)
        found += [count, *places_in(answers, count)]
        stood_in(answers)
    return found


def begun_in(answers: Answers) -> Tuple[int, str]:
    """The number of a refusal, or 0, and what is said of a dump that is begun."""
    code = answers.number()
    return code, answers.text() if code else filled("request {hex}", answers)


def session_lines(line: str, sizes: List[int], answers: Answers, before: Stood) \
        -> Tuple[List[str], Stood]:
    """What is said of a step, which feeds datagrams of these sizes, and where the session stands
    behind it."""
    name, rest = split(line)
    if name == "feed":
        said = []
        for size in sizes:
            _, answer = coded_progress_in(answers)
            now = stood_in(answers)
            said.append(told(answer, size, before, now))
            before = now
        return [*cuts_shown(rest, said)], before
    if name in ("tries", "begin"):
        return tried_in(answers, name, sizes, before)
    if name == "abandon":
        said = ["no dump is waiting" if answers.number() else "abandoned"]
    else:
        said = shown_in(answers) if name == "shows" else [*entries_in(answers)]
    now = stood_in(answers)
    return said + [now.counts] * (name == "shows"), now


def tried_in(answers: Answers, name: str, sizes: List[int], before: Stood) \
        -> Tuple[List[str], Stood]:
    """What is said of what is tried once more where memory ran out. Then all tables are to be as
    before, and where the session stands, for a datagram but for what was received and visited and
    the damage."""
    tables, (code, answer) = tables_in(answers), TRIED[name](answers)
    now = stood_in(answers)
    kept = tables_in(answers) == tables
    again = None if answers.is_none() else TRIED[name](answers)
    last = stood_in(answers)
    if name == "begin":
        kept = kept and now.standing == before.standing
        said = [f"{answer}, session {as_before(kept)}"] if again else []
        return [*said, again[1] if again else answer], last
    said = [told(answer, sizes[0], before, now)]
    if again:
        kept = kept and now.standing.kept == before.standing.kept
        said += [f"answer and tables {as_before(kept)}", told(again[1], sizes[0], now, last)]
    return [*said, last.standing.state], last


TRIED = {"begin": begun_in, "tries": coded_progress_in}
SESSION_STEPS = "feed", "begin", "abandon", "shows", "table"
TABLES = [Asked(4, it) for it, _ in enumerate(FAMILIES)]


def session_step(row: Row, line: str) -> Tuple[List[Asked], List[int]]:
    """What a step asks, and the sizes of the datagrams that it feeds. What is tried is asked again,
    where memory ran out, and all tables before either."""
    name, rest = split(line)
    if name == "feed":
        fed = cuts_of(row, rest)
        return [Asked(0, 0).data(it) for it in fed], [*map(len, fed)]
    if name == "tries":
        fed = [row.names.line(rest)]
        once, again = (Asked(0, it).data(*fed) for it in (0, 1))
        return [*TABLES, once, *TABLES, again], [*map(len, fed)]
    words, asked = Words(rest), Asked(Words(name).one_of(SESSION_STEPS))
    if name == "begin":
        dump = words.dump()
        words.end()
        return [*TABLES, Asked(1, 0, *dump), *TABLES, Asked(1, 1, *dump)], []
    if name == "table":
        asked.put(words.one_of(FAMILIES))
    words.end()
    return [asked], []


def asked_by(asked: Asked, steps: List[Asked]) -> Asked:
    """These steps behind how many they are."""
    asked.put(len(steps))
    asked.parts += [part for it in steps for part in it.parts]
    return asked


def session(row: Row) -> Made:
    """`session [LIMITS]` and steps."""
    limits, steps = row.words.limits(), [session_step(row, it) for it in row.lines]
    [answers] = yield [asked_by(Asked(7, *limits), [it for asked, _ in steps for it in asked])]
    if answers.is_none():
        return [OUT_OF_MEMORY]
    lines, stood = [], stood_in(answers)
    for line, (_, sizes) in zip(row.lines, steps):
        said, stood = session_lines(line, sizes, answers, stood)
        lines += said
    return lines


def fresh(row: Row) -> Made:
    """`fresh KIND [LIMITS]`: each line, a datagram, in a session of its own, whose dump of this
    kind has the sequence number 1 and the port id 12345."""
    kind, limits = row.words.one_of(FAMILIES), row.words.limits()
    fed = [cuts_of(row, it) for it in row.lines]
    begin = Asked(1, 0, kind, 0, 1, 12345)
    each = iter((yield [asked_by(Asked(7, *limits), [begin, Asked(0, 0).data(it)])
                        for line in fed for it in line]))
    lines: List[str] = []
    for line, cuts in zip(row.lines, fed):
        said = []
        for it in cuts:
            answers = next(each)
            stood_in(answers)
            begun_in(answers)
            before, (_, answer) = stood_in(answers), coded_progress_in(answers)
            said.append(told(answer, len(it), before, stood_in(answers)))
        lines += cuts_shown(line, said)
    return lines


# ---- streams


STREAM_STEPS = "begin", "feed", "read", "abandon", "shows", "restore"
FIELDS = "limits", "state", "ignored", "visits", "received", "damaged", "interrupted"
STATES = "done", "error", "overrun", "abandoned", "waiting", "idle"


def changed(words: Words) -> List[int]:
    """The field of a stream that these words name, and its value."""
    field = words.one_of(FIELDS)
    if FIELDS[field] == "limits":
        return [field, *words.limits()]
    if FIELDS[field] == "state":
        state = words.one_of(STATES)
        return [field, state, *([words.number("i32")] if state < 2 else [])]
    if FIELDS[field] in ("damaged", "interrupted"):
        return [field, words.one_of(("no", "yes"))]
    return [field, words.number("u64")]


def stream_step(row: Row, line: str) -> Asked:
    name, rest = split(line)
    asked = Asked(Words(name).one_of(STREAM_STEPS))
    words = Words(rest)
    if name == "feed":
        room, rest = split(rest)
        data = row.names.line(rest)
        asked.put(len(data) // 4 if room == "quarter" else Words(room).number("u8"))
        return asked.data(data)
    if name == "read":
        return asked.data(row.names.line(rest))
    if name == "begin":
        asked.put(*words.dump())
    elif name == "restore":
        asked.put(*(changed(words) if rest else [len(FIELDS)]))
    words.end()
    return asked


def beside_in(answers: Answers, one: object, other: object) -> str:
    """Whether a stream and a session answer the same, and stand at the same."""
    stream, session = standing_in(answers), standing_in(answers)
    return "alike" if one == other and stream == session else "not alike"


def fed_in(answers: Answers) -> Iterator[str]:
    code, answer = coded_progress_in(answers)
    if code:
        # A session never lacks room.
        beside = coded_progress_in(answers) if not answer.startswith("room for") else (code, answer)
        yield f"{code} {answer}, {beside_in(answers, (code, answer), beside)}"
        return
    events = answers.number()
    lines = [filled("{event}", answers) for _ in range(events)]
    beside = coded_progress_in(answers)
    yield f"{answer}, events {events}, {beside_in(answers, (code, answer), beside)}"
    yield from lines


def read_in(answers: Answers) -> Iterator[str]:
    code, answer = coded_progress_in(answers)
    lines = [] if code else [*messages_in(answers)]
    beside = coded_progress_in(answers)
    alike = beside_in(answers, (code, answer), beside)
    yield f"{code} {answer}, {alike}" if code else f"{answer}, {alike}"
    yield from lines


def stream_lines(line: str, answers: Answers) -> Iterator[str]:
    """What is said of a step."""
    name, _ = split(line)
    if name in ("feed", "read"):
        yield from (fed_in if name == "feed" else read_in)(answers)
    elif name == "begin":
        one, other = coded_in(answers), coded_in(answers)
        yield f"{one or 'begun'}, {beside_in(answers, one, other)}"
    elif name == "abandon":
        one, other = (answers.number() for _ in range(2))
        said = "8 no dump is waiting" if one else "abandoned"
        yield f"{said}, {beside_in(answers, one, other)}"
    else:
        if name == "shows":
            yield from shown_in(answers, ", session {yes}")
        else:
            yield coded_in(answers) or ("stream" if answers.number() else "another stream")
        beside_in(answers, 0, 0)


def stream(row: Row) -> Made:
    """`stream [LIMITS]` and steps."""
    limits, steps = row.words.limits(), [stream_step(row, it) for it in row.lines]
    [answers] = yield [asked_by(Asked(8, 0, *limits), steps)]
    return [said for line in row.lines for said in stream_lines(line, answers)]


# ---- mirrors


MIRROR = 9
MIRROR_STEPS = "feed", "begin", "lost", "stale", "table", "changes"
EFFECTS = "added", "changed", "removed", "waits", "nothing"


def mirror_step(row: Row, line: str) -> Asked:
    name, rest = split(line)
    asked, words = Asked(Words(name).one_of(MIRROR_STEPS) % 5), Words(rest)
    if name in ("feed", "changes"):
        return asked.data(row.names.line(rest))
    if name == "begin":
        asked.put(*words.dump())
    elif name == "table":
        asked.put(words.one_of(FAMILIES))
    words.end()
    return asked


def effect_in(answers: Answers) -> Tuple[bool, str]:
    """What a message makes of the tables, and whether there was too little of something."""
    number = answers.number()
    if number >= len(FAMILIES):
        return (True, answers.text()) if number > len(FAMILIES) else (False, "other")
    effect = answers.number()
    line = f"{FAMILIES[number]} {EFFECTS[effect]}"
    if effect < 3:
        line += filled(" {number}" if effect == 0 else " {number} was {hex}", answers)
    return False, line


def changes_in(answers: Answers, is_short: bool) -> Iterator[str]:
    """What a datagram's messages make of the tables; or in short what became of it, or what there
    was first too little of, and the visits."""
    visits, refusal = answers.number(), refusal_in(answers)
    effects = [] if refusal else [effect_in(answers) for _ in range(answers.number())]
    if is_short:
        missed = [line for is_missed, line in effects if is_missed]
        yield f"{refusal or [*missed, 'heard'][0]}, visits {visits}"
    else:
        yield from [refusal] if refusal else [line for _, line in effects]


def mirror_lines(line: str, answers: Answers) -> Iterator[str]:
    """What is said of a step."""
    name, _ = split(line)
    if name in ("feed", "changes"):
        yield from changes_in(answers, name == "feed")
    elif name == "begin":
        refusal = refusal_in(answers)
        yield from [refusal] if refusal else []
    elif name == "stale":
        for kind in FAMILIES:
            count, why = answers.number(), answers.found()
            runs = ", a dump runs" * answers.number()
            yield f"{kind} {count} {why.decode() if why is not None else 'current'}{runs}"
    elif name == "table":
        yield from entries_in(answers)


def mirror_asked(row: Row, module: int = MIRROR) -> Asked:
    limits = row.words.limits()
    waiting = row.words.number_of("waiting", limits[-1])
    return asked_by(Asked(module, *limits, waiting), [mirror_step(row, it) for it in row.lines])


def mirror(row: Row) -> Made:
    """`mirror [LIMITS] [waiting COUNT]` and steps."""
    [answers] = yield [mirror_asked(row)]
    return [said for line in row.lines for said in mirror_lines(line, answers)]
