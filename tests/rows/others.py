"""The other calls: walks, scans and tapes, numbers, limits and refusals."""
from typing import Dict, List, Optional, Sequence

from flat import Answers, Asked, Wrong
from plain import Made
from shown import VERBS, coded_in, filled, hexadecimal, messages_in, refusal_in
from standing import asked_by
from stepping import PUTS, cuts_of, cuts_shown
from words import FAMILIES, ORDERS, REASONS, Row, asked_in

REFUSALS = (
    ("feed-total", "feed-too-large", "feed-not-waiting", "feed-memory", "feed-too-large-from-read",
     "feed-memory-from-read", "feed-memory-from-growth", "begin-busy", "begin-same-seq",
     "begin-memory", "list-memory", "read-too-large", "read-memory", "not-waiting", "limit"),
    ("write-mismatch", "write-too-deep", "write-too-long", "write-memory", "datagram-mismatch",
     "datagram-too-deep", "datagram-too-long", "datagram-too-large", "datagram-memory",
     "run-bad-line", "run-read-fault", "run-write-fault", "run-memory"),
)
FAULTS = "reason", "alone", "of-list", "of-read", "of-feed", "of-feed-from-read"


def walk(row: Row) -> Made:
    """`attrs [ORDER]` or `hops [ORDER]`: all that the walk gives."""
    is_hops = row.call == "hops"
    [answers] = yield [asked_in(row, Asked(0, 1 + is_hops), "twin bytes")]
    lines = []
    while not answers.is_none():
        lines.append(filled("{hop}" if is_hops else "{part}", answers))
    return [*lines, filled("end stays {yes} seen {number}", answers)]


def holds(row: Row) -> Made:
    """`holds CONTEXT NUMBER [FLAGS]`."""
    [answers] = yield [asked_in(row, Asked(1, 2), "context u16 flags")]
    sort = answers.number()
    return [filled(("bytes", "list {context}", "hops")[sort], answers)]


def taken_in(answers: Answers) -> str:
    is_left, data = answers.number(), hexadecimal(answers.data())
    return f"out of memory left {data}" if is_left else data


def payload(row: Row) -> Made:
    """The bytes kept as a payload, and taken out of it."""
    [answers] = yield [asked_in(row, Asked(1, 3), "bytes")]
    if answers.is_none():
        return ["out of memory"]
    line = filled("len {number} empty {yes} kept {hex}", answers)
    return [line, f"taken {taken_in(answers)} again {taken_in(answers)}"]


def read_each(row: Row) -> Made:
    """`read_each [LIMITS]`: how many messages each line has, a datagram."""
    limits, fed = row.words.limits(), [cuts_of(row, it) for it in row.lines]
    each = iter((yield [Asked(2, 0, *limits).data(it) for line in fed for it in line]))
    lines: List[str] = []
    for line, cuts in zip(row.lines, fed):
        lines += cuts_shown(line, [counted_in(next(each)) for _ in cuts])
    return lines


def counted_in(answers: Answers) -> str:
    visits, refusal = answers.number(), refusal_in(answers)
    if refusal:
        return f"{refusal}, visits {visits}"
    messages = [it for it in messages_in(answers) if not it.startswith(" ")]
    return f"messages {len(messages)}, visits {visits}"


def number(row: Row) -> Made:
    """`number TYPE ORDER NUMBER`: the bytes of a number, and the number in them and two more."""
    kind, order = row.words.one_of(KINDS), 1 + row.words.one_of(ORDERS)
    [answers] = yield [Asked(5, 0, kind, order, row.words.number(KINDS[kind]))]
    return [filled("{hex} back {signed}", answers)]


KINDS = "u16", "u32", "i32"


def depth(row: Row) -> Made:
    """`depth LEVELS`, `depth standard` or `depth default`."""
    sort = 1 if row.words.has("standard") else 2 if row.words.has("default") else 0
    [answers] = yield [Asked(5, 1, sort, *([] if sort else [row.words.number("u8")]))]
    return [filled("!{number}", answers)]


def limits(row: Row) -> Made:
    """`limits DEPTH DATAGRAM TOTAL ENTRIES [ORDER]`, `limits standard [ORDER]` or `limits default
    [ORDER]`."""
    words = row.words
    sort = 1 if words.has("standard") else 2 if words.has("default") else 0
    given = [] if sort else [words.number(it) for it in ("u8", "u32", "u64", "u32")]
    [answers] = yield [Asked(5, 2, sort, words.twin(), *given)]
    return [filled("!{order} depth {number} datagram {number} total {number} entries {number}",
                   answers)]


def codes_in(answers: Answers, names: Sequence[str]) -> Dict[str, str]:
    """Refusals by these names, each behind its number."""
    return {it: coded_in(answers) or "none" for it in names}


def refusal(row: Row) -> Made:
    """`refusal NAME`: its number and its text."""
    name = row.words.word()
    each = yield [Asked(5, 8), Asked(5, 9)]
    found: Dict[str, str] = {}
    for answers, names in zip(each, REFUSALS):
        found.update(codes_in(answers, names))
    if name not in found:
        raise Wrong(f"no such refusal: {name}")
    return [found[name]]


def fault(row: Row) -> Made:
    """`fault REASON SORT`: the fault of this reason at place 48, as the refusal of this sort."""
    reason, sort = row.words.one_of(REASONS), row.words.word()
    [answers] = yield [Asked(5, 7, 48, reason)]
    return [codes_in(answers, FAULTS).get(sort, f"? no such sort: {sort}")]


def refusal_code(row: Row) -> Made:
    """`refusal_code WORD`: the number of a reason, and of a fault and the refusals that have it;
    that of a datagram that is too large, or of a limit; or those of the end of memory."""
    word = row.words.word()
    if word in REASONS:
        [answers] = yield [Asked(5, 7, 28, REASONS.index(word))]
        found = codes_in(answers, FAULTS)
        shown = "{reason} fault {alone} list {of-list} datagram {of-read}"
    else:
        [answers] = yield [Asked(5, 8)]
        found = codes_in(answers, REFUSALS[0])
        shown = {"too-large": "{read-too-large}", "limit": "{limit}",
                 "memory": "list {list-memory} datagram {read-memory}"}[word]
    return [shown.format(**{name: coded.partition(" ")[0] for name, coded in found.items()})]


def types(row: Row) -> Made:
    """`types FIRST LAST`: each type of these that has another form than most, or asks for
    something."""
    kinds = range(row.words.number("u16"), row.words.number("u16") + 1)
    found = yield [Asked(5, 3, it) for it in kinds]
    lines = [filled("{type}", it) for it in found]
    return [line for kind, line in zip(kinds, lines) if line != f"{kind} other least 0"]


def families(_: Row) -> Made:
    """`families`: all, in order."""
    each = yield [Asked(5, 5, it, 0) for it, _ in enumerate(FAMILIES)]
    names = [answers.text() for answers in each]
    for it in each:
        it.skip()
    return names


def family(row: Row) -> Made:
    """`family GROUP`: what holds of a family, and of its type for each verb."""
    number = row.words.one_of(FAMILIES)
    each = yield [Asked(5, 5, number, it) for it, _ in enumerate(VERBS)]
    for it in each:
        it.text()
    held = [filled("{name} head {number} context {context} new {number} set {yes}", it)
            for it in each]
    verbs = [filled(f"{verb} {{yes}}\n{{type}}", it).splitlines() for verb, it in zip(VERBS, each)]
    return [held[0], *(line for lines in verbs for line in lines)]


def named_as(row: Row) -> Made:
    """`named order NAME` or `named family NAME`: what has this name."""
    sort = row.words.one_of(("order", "family"))
    [answers] = yield [Asked(5, 6, sort).data(row.words.word().encode())]
    return [answers.text()]


SCANS = "read", "scan", "tape"


class Scans:
    """What reading, a scan and a tape without room answer to a datagram."""

    def __init__(self, answers: Answers) -> None:
        self.visits: List[int] = []
        self.coded: List[Optional[str]] = []
        self.heads: List[Optional[str]] = []
        self.count = 0
        for call in SCANS:
            self.visits.append(answers.number())
            if call == "tape":
                self.count = answers.number()
            coded = coded_in(answers)
            self.coded.append(coded)
            # A datagram that is too large has no head that breaks a rule.
            has_head = coded and call != "read" and not answers.is_none()
            text = coded.partition(" ")[2] if coded else None
            self.heads.append(filled("{broken}", answers) if has_head else text)


def scan(row: Row) -> Made:
    """`scan [LIMITS]`: the visits, how many heads the tape has counted, and why they refuse."""
    [answers] = yield [asked_in(row, Asked(6, 0), "limits bytes")]
    found = Scans(answers)
    lines = {it: f"{it} visits {visits}" for it, visits in zip(SCANS, found.visits)}
    lines["tape"] += f" heads {found.count}"
    for it, coded in zip(lines, found.coded):
        lines[it] += f", {coded}" if coded else ""
    return [lines[it] for it in ("scan", "tape", "read")]


def head_at_fault(row: Row) -> Made:
    """`head_at_fault [LIMITS]`: why they refuse a datagram, the last two with the head."""
    [answers] = yield [asked_in(row, Asked(6, 0), "limits bytes")]
    heads = Scans(answers).heads
    return [f"{it} {head or 'accepted'}" for it, head in zip(SCANS, heads)]


def list_head_at_fault(row: Row) -> Made:
    """`list_head_at_fault [ORDER] CONTEXT [base PLACE] [level LEVEL] [depth LEVELS]`: why they
    refuse a list, the last with the head."""
    [answers] = yield [asked_in(row, Asked(6, 1), "order context base level depth bytes")]
    said = [refusal_in(answers) or "accepted" for _ in range(2)]
    head = "accepted" if answers.is_none() else filled("{broken}", answers)
    return [f"{it} {what}" for it, what in zip(SCANS, [*said, head])]


UNTOUCHED = "4294967295 255 65535 1 1 4294967295 255"


def event_in(answers: Answers) -> str:
    numbers = answers.items[answers.place:answers.place + 7]
    if " ".join(map(str, numbers)) == UNTOUCHED:
        answers.place += 7
        return "untouched"
    return filled("{event}", answers)


def tape(row: Row) -> Made:
    """`tape ROOM [LIMITS]`: what a tape into a buffer with this room answers, and the buffer."""
    room = int(row.words.left[0])
    [answers] = yield [asked_in(row, Asked(6, 2), "u8 limits bytes")]
    count, refused = answers.number(), refusal_in(answers)
    if refused and not answers.is_none():
        filled("{broken}", answers)
    line = f"heads {count}" + (f", {refused}" if refused else "")
    return [line, *(event_in(answers) for _ in range(room))]


def keep(row: Row) -> Made:
    """`keep ENTRIES`: what becomes of the link of each line in a table of so many entries."""
    asked = Asked(12, 6, row.words.number())
    [answers] = yield [asked_by(asked, [Asked().data(it) for it in row.each()])]
    return [PUTS[answers.number()].lower() for _ in row.lines]


def count_through(row: Row) -> Made:
    """`count_through INTERFACE ROOM [LIMITS]`: how many routes of each line leave by the
    interface, in one dump of routes with the sequence number 1 and the port id 12345."""
    asked = asked_in(row, Asked(12, 8), "u32 u8 limits")
    [answers] = yield [asked_by(asked, [Asked().data(it) for it in row.each()])]
    return [filled("!{number}", answers) for _ in row.lines]


CALLS = {
    "attrs": walk, "hops": walk, "holds": holds, "payload": payload, "read_each": read_each,
    "number": number, "depth": depth, "limits": limits, "refusal": refusal, "fault": fault,
    "refusal_code": refusal_code, "types": types, "families": families, "family": family,
    "named": named_as, "scan": scan, "tape": tape, "head_at_fault": head_at_fault,
    "list_head_at_fault": list_head_at_fault, "keep": keep, "count_through": count_through,
}
