"""What answers are shown as: by templates, in which a name in braces stands for what is read next,
a `!` for a refusal, and a `?` for none, either of which is shown in place of what stands behind it.
"""
import re
from typing import Callable, Dict, Iterator, List, Optional

from flat import Answers, Wrong
from words import CONTEXTS, FAMILIES, ORDERS

# More zeros than this at the end are counted and not printed.
MANY = 32
FIELD, MARK = re.compile(r"\{(\w+)\}"), re.compile(r"([^!?]*)([!?]?)(.*)", re.S)
FORMS = ("noop", "error", "done", "overrun", "get", "other")
SORTS = "message", "bytes", "list", "hops", "next-hop"
VERBS = "new", "del", "get", "set"
ENDS = "done {signed}", "error {signed}", "overrun", "abandoned"
# The head of each family, and its fields by their places in the answer, in which those that may be
# below 0 stand last.
HEADS = (
    "link family {0} hardware {1} index {4} flags 0x{2:08x} change 0x{3:08x}",
    "addr family {0} prefixlen {1} flags 0x{2:02x} scope {3} index {4}",
    "route family {0} dst_len {1} src_len {2} tos {3} table {4} protocol {5} scope {6} sort {7}"
    " flags 0x{8:08x}",
    "neigh family {0} ifindex {4} state 0x{1:04x} flags 0x{2:02x} sort {3}",
    "rule family {0} dst_len {1} src_len {2} tos {3} table {4} action {5} flags 0x{6:08x}",
)
PLAIN = ("noop {hex}", "error {signed} to {header} tail {hex}", "done {status} tail {hex}",
         "overrun {hex}", "get family {number} tail {hex}", "other {hex}")
KINDS = "message", "attribute", "next-hop"


def hexadecimal(data: Optional[bytes]) -> str:
    """Bytes, or a dash where there are none. Many zeros at the end are written as `00*COUNT`."""
    if data is None:
        return "none"
    shown = data.rstrip(b"\0")
    zeros = len(data) - len(shown)
    if zeros <= MANY:
        return data.hex() or "-"
    return f"{shown.hex()} 00*{zeros}".lstrip()


def or_none(number: Optional[int]) -> str:
    return "none" if number is None else str(number)


def yes_or_no(holds: object) -> str:
    return "yes" if holds else "no"


def flags_in(answers: Answers) -> str:
    nested, net = answers.number(), answers.number()
    return " nested" * nested + " net" * net


def refusal_in(answers: Answers) -> Optional[str]:
    """The text of a refusal, if there is one."""
    return answers.text() if answers.number() else None


def coded_in(answers: Answers) -> Optional[str]:
    """The same behind its number."""
    code = answers.number()
    return f"{code} {answers.text()}" if code else None


def form_in(answers: Answers) -> str:
    number = answers.number()
    return f"family {FAMILIES[number]}" if number < 5 else FORMS[number - 5]


def dump_in(answers: Answers) -> str:
    return filled("{family} family {number} seq {number} port {number}", answers)


def head_in(answers: Answers, family: int) -> str:
    head = HEADS[family]
    return head.format(*(answers.signed() for _ in range(head.count("{"))))


def state_in(answers: Answers) -> str:
    state = answers.number()
    if state == 0:
        return "idle"
    if state == 1:
        return f"waiting {dump_in(answers)}"
    dump = dump_in(answers)
    return f"ended {dump} {filled(ENDS[answers.number()], answers)}"


def type_in(answers: Answers) -> str:
    line = filled("{number} {form} least {number}", answers)
    if answers.is_none():
        return line
    return f"{line} says {VERBS[answers.number()]} {FAMILIES[answers.number()]}"


def status_in(answers: Answers) -> str:
    return "none" if answers.is_none() else str(answers.signed())


def broken_in(answers: Answers) -> str:
    return filled("{text}: {kind} number {maybe} len {maybe} left {number} level {number}", answers)


def found_in(view: str, answers: Answers) -> List[str]:
    """A view of bytes or a number, which is not told where it finds nothing."""
    found = answers.item()
    if found is None:
        return []
    return [f"{view} {hexadecimal(found) if isinstance(found, bytes) else found}"]


def numbers_in(view: str, answers: Answers) -> List[str]:
    """The same of a number that is found by three calls."""
    found = [answers.maybe() for _ in range(3)]
    if found == [None] * 3:
        return []
    number, little, big = map(or_none, found)
    return [f"{view} {number} little {little} big {big}"]


FIELDS: Dict[str, Callable[[Answers], str]] = {
    "number": lambda it: str(it.number()),
    "signed": lambda it: str(it.signed()),
    "maybe": lambda it: or_none(it.maybe()),
    "hex": lambda it: hexadecimal(it.data()),
    "found": lambda it: hexadecimal(it.found()),
    "text": Answers.text,
    "name": lambda it: it.data().decode(),
    "yes": lambda it: yes_or_no(it.number()),
    "x": lambda it: f"0x{it.number():x}",
    "x2": lambda it: f"0x{it.number():02x}",
    "x4": lambda it: f"0x{it.number():04x}",
    "x8": lambda it: f"0x{it.number():08x}",
    "order": lambda it: ORDERS[it.number()],
    "family": lambda it: FAMILIES[it.number()],
    "context": lambda it: CONTEXTS[it.number()],
    "kind": lambda it: KINDS[it.number()],
    "sort": lambda it: SORTS[it.number()],
    "flags": flags_in,
    "form": form_in,
    "state": state_in,
    "type": type_in,
    "skip": lambda it: "" * it.number(),
    "room": lambda it: filled(("len {number}", "room for {number} is needed")[it.number()], it),
    "taken": lambda it: filled("!{yes}", it),
    "law": lambda it: "hold" * it.number(),
    "status": status_in,
    "broken": broken_in,
    "head": lambda it: head_in(it, it.number()),
    "header": lambda it: filled(
        "len {number} type {number} flags {x4} seq {number} port {number}", it),
    "event": lambda it: filled(
        "place {number} {sort} {number}{flags} len {number} level {number}", it),
    "progress": lambda it: filled("items {number} ignored {number}", it) + " ended" * it.number(),
    "part": lambda it: filled(
        "!{number}{flags} place {number} span {number} payload {hex}", it),
    "hop": lambda it: filled(
        "!hop flags {x2} hops {number} ifindex {signed} place {number} span {number} rest {hex}",
        it),
    "attrs": lambda it: "\n".join(attrs_in(it, "")),
    "messages": lambda it: "\n".join(messages_in(it)),
    "lines": lambda it: "\n".join(written(it.data())),
}


def filled(template: str, answers: Answers) -> str:
    """A template with what is answered."""
    front, mark, behind = MARK.match(template).groups()  # type: ignore[union-attr]
    front = FIELD.sub(lambda field: FIELDS[field[1]](answers), front)
    if mark == "!":
        return front + (refusal_in(answers) or filled(behind, answers))
    if mark == "?":
        return front + ("none" if answers.is_none() else filled(behind, answers))
    return front


def attrs_in(answers: Answers, indent: str) -> Iterator[str]:
    """A list of attributes, each line behind blanks: the number of an attribute, its flags, and its
    bytes, or below it what it holds."""
    for _ in range(answers.number()):
        head = f"{indent}{answers.number()}{flags_in(answers)}"
        value = answers.item()
        if isinstance(value, bytes):
            yield f"{head} {hexadecimal(value)}"
        elif value == 0:
            yield f"{head} list"
            yield from attrs_in(answers, f"{indent}  ")
        else:
            yield f"{head} hops"
            yield from hops_in(answers, f"{indent}  ")


def hops_in(answers: Answers, indent: str) -> Iterator[str]:
    for _ in range(answers.number()):
        yield indent + filled("hop flags {x2} hops {number} ifindex {signed}", answers)
        yield from attrs_in(answers, f"{indent}  ")


def body_in(answers: Answers, sorts: List[int]) -> Iterator[str]:
    """A body, whose sort is put behind others."""
    sort = answers.number()
    sorts.append(sort)
    if sort < len(HEADS):
        yield f"  {head_in(answers, sort)}"
        yield from attrs_in(answers, "    ")
    else:
        yield f"  {filled(PLAIN[sort - len(HEADS)], answers)}"


def messages_in(answers: Answers) -> Iterator[str]:
    for _ in range(answers.number()):
        yield filled("message {number} flags {x4} seq {number} port {number}", answers)
        yield from body_in(answers, [])


# What the views of each family's body find: of bytes or a number, or of a number by three calls.
VIEWS = (
    "name kind *mtu *master operstate", "address local label broadcast =flags",
    "dst src gateway prefsrc *iif *oif *priority =table +metrics",
    "dst lladdr *vlan *vni port =state",
    "dst src iifname oifname *target *priority *fwmark *fwmask =table",
)
WHOLE = {"flags": "flags {x} little {x} big {x}", "state": "state {x}",
         "table": "table {number} little {number} big {number}"}


def views_in(answers: Answers, sort: int) -> Iterator[str]:
    """What the views of a body of this family find."""
    for view in VIEWS[sort].split() if sort < len(VIEWS) else []:
        sign, name = view[0], view.lstrip("*=+")
        if sign == "*":
            yield from numbers_in(name, answers)
        elif sign == "=":
            yield filled(WHOLE[name], answers)
        elif sign == "+":
            metrics, hops = [*attrs_in(answers, "  ")], [*hops_in(answers, "  ")]
            counts = (sum(not it.startswith("   ") for it in lines) for lines in (metrics, hops))
            yield "metrics {} hops {}".format(*counts)
            yield from metrics + hops
        else:
            yield from found_in(name, answers)


def written(text: bytes) -> List[str]:
    """The lines that were written, and whether the last has no end; `\\e` stands for the byte with
    which a colour begins."""
    try:
        lines = text.decode().replace("\x1b", "\\e").split("\n")
    except UnicodeDecodeError:
        raise Wrong("an answer that is no text") from None
    last = lines.pop()
    return [*lines, last, "without an end"] if last else lines
