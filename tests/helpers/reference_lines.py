"""The second reading of what `show`, `check` and `table` print, over that of reference.py.

It is said once, as the objects of the lines of JSON; the text is written from these objects alone.
"""
import json

import reference_data
from reference import (
    ATTRIBUTES, BITS, DONE, ENDS, ERROR, HEADS, KINDS, NESTED, NET, NEW, OTHER, OVERRUN, Fault,
    content, read, written,
)

# The objects.

# So many fields of a message stand in front of its body.
FRONT = 6
ENCODER = json.JSONEncoder(separators=(",", ":"), ensure_ascii=False)


def names(rows, bits):
    return [name for name, bit in rows if bits & bit]


def head_object(head, values):
    found = {}
    for field, value in zip(HEADS[head].kept, values):
        found[field.name] = value
        if field.bits:
            found[field.names()] = names(BITS[field.bits], value)
    return found


def typed(form, value, is_net, order):
    """The word and the value of an attribute that holds bytes, by its form."""
    sizes = {"U8": 1, "U16": 2, "U32": 4}
    if sizes.get(form) == len(value) and not is_net:
        return f"u{8 * len(value)}", int.from_bytes(value, ENDS[order])
    if form == "NetworkU16" and len(value) == 2:
        return "u16", int.from_bytes(value, "big")
    if form == "Text":
        text = value[:-1] if value.endswith(b"\0") else value
        if text and all(0x20 <= byte <= 0x7E for byte in text):
            return "text", text.decode()
    if form == "Address" and len(value) == 4:
        return "ipv4", ".".join(map(str, value))
    if form == "Address" and len(value) == 16:
        return "ipv6", ":".join(value[place : place + 2].hex() for place in range(0, 16, 2))
    return "hex", value.hex()


class Attributes:
    """What is said of the attributes of a message of this byte order and this address family."""

    def __init__(self, order, family):
        self.order = order
        self.reader = reference_data.Reader(order, family)

    def of_list(self, found, of):
        """Attributes of a set, or of none that is known."""
        parts = [
            (it & 0x3FFF, value if holds == "bytes" else b"") for it, _, holds, value in found
        ]
        kinds = reference_data.Kinds(self.reader.family, of, parts, [])
        for kind, context, holds, value in found:
            number = kind & 0x3FFF
            row, chooses = of.row(number), kinds.following(of.row(number))
            front = {"number": number, "name": of.called(number)}
            front["flags"] = names(BITS["attribute_flags"], kind)
            if holds == "bytes":
                yield {**front, **self.of_payload(kind, context, value, row, chooses)}
                continue
            inside = reference_data.inside_of(row, chooses, self.order)
            say = self.of_hops if holds == "hops" else self.of_list
            word = "hops" if holds == "hops" else "list"
            yield {**front, "form": word, "items": [*say(value, inside)]}

    def of_payload(self, kind, context, value, row, chooses):
        """The form and the value of bytes, and what these mean beside that."""
        _, form = ATTRIBUTES[context].get(kind & 0x3FFF, (None, "Hex"))
        word, typed_value = typed(form, value, kind & NET, self.order)
        meaning = None if kind & NET else self.reader.meaning(row, value, chooses)
        beside = reference_data.beside_value(meaning, word)
        return {"form": word, "value": typed_value, **beside}

    def of_hops(self, found, of):
        for *values, inside in found:
            yield {**head_object("hop", values), "attrs": [*self.of_list(inside, of)]}


def answer_object(flags, sort, values, tail, order):
    """What answers a message, or ends a dump."""
    if sort != "error":
        said = reference_data.of_tail(flags, tail, order) if sort == "done" else {}
        return {**head_object(sort, values or (0,)), "tail": tail.hex(), **said}
    code, *answered = values
    about, said = reference_data.of_error(flags, code, answered, tail, order)
    answers = {**head_object("message", answered), **about}
    return {"code": code, "answers": answers, "tail": tail.hex(), **said}


def body_object(sort, values, rest, order, flags=0):
    if sort == "bytes":
        return rest.hex()
    if sort in NEW:
        found = Attributes(order, bytes(values[:1])).of_list(rest, reference_data.of_family(sort))
        return {**head_object(sort, values), "attrs": [*found]}
    return answer_object(flags, sort, values, rest, order)


def message_object(fields, body, order):
    kind, flags, sequence, port = fields
    name, rows = KINDS.get(kind, OTHER)
    return {
        **{"message": kind, "type": name, "flags": flags, "flag_names": names(rows, flags)},
        **{"seq": sequence, "port": port, body[0]: body_object(*body, order, flags)},
        **({} if kind in KINDS else reference_data.of_message(kind, body[2], order)),
    }


def refused(number, fault):
    return {"datagram": number, **dict(zip(("refused", "at"), fault.args))}


def shown(number, data, order):
    """The object of a datagram."""
    messages = [message_object(*it, order) for it in read(data, order)]
    return {"datagram": number, "bytes": len(data), "messages": messages}


def checked(number, data, order):
    """The object of a datagram in a check."""
    return {"datagram": number, "canonical": written(read(data, order), order) == data}


def of_each(command, datagrams, order):
    """The objects of `show` or `check`, of each datagram by itself."""
    say = {"show": shown, "check": checked}[command]
    for number, data in enumerate(datagrams, 1):
        try:
            yield say(number, data, order)
        except Fault as fault:
            yield refused(number, fault)


def tabled(datagrams, dump):
    """The objects of a dump that is fed a recording."""
    unfed = 0
    for number, data in enumerate(datagrams, 1):
        if dump.end is not None:
            unfed += 1
            continue
        try:
            dump.feed(data)
        except Fault as fault:
            yield refused(number, fault)
    for number, body in enumerate(dump.table.values(), 1):
        yield {"entry": number, body[0]: body_object(*body, dump.order)}
    kind, code = dump.end or (0, 0)
    word = {ERROR: "error", DONE: "done", OVERRUN: "overrun"}.get(kind, "none")
    yield {
        **{"dump": dump.name, "seq": dump.sequence, "port": dump.port, "end": word},
        **({"code": code} if kind in (ERROR, DONE) else {}),
        **{"entries": len(dump.table), "missed": dump.missed, "ignored": dump.ignored},
        **{"unfed": unfed, "damaged": dump.is_damaged, "interrupted": dump.is_interrupted},
        **{"received": dump.received, "visits": dump.visits, "complete": dump.is_complete()},
    }


# The text, from the objects alone; but the size of a refused datagram stands in the text only.


def word(value, digits=""):
    """A value as a word of the text."""
    if digits:
        return f"0x{value:0{digits}x}"
    if isinstance(value, bool):
        return "yes" if value else "no"
    text = ",".join(value) if isinstance(value, list) else value
    return "-" if text is None or text == "" else str(text)


def words(found, *fields):
    return " ".join(f"{field} {word(found[field])}" for field in fields)


def head_words(head, found):
    """The fields of a head, each by its name and its value; names of bits have no name."""
    text = ""
    for field in HEADS[head].kept:
        text += f" {field.name} {word(found[field.name], field.digits)}"
        text += f" {word(found[field.names()])}" if field.bits else ""
    return text


def hop_lines(found, indent):
    for hop in found:
        yield f"{indent}hop{head_words('hop', hop)}"
        yield from attribute_lines(hop["attrs"], f"{indent}  ", "route")


def attribute_lines(found, indent, context):
    """Those of a context, which has the names of the text."""
    for it in found:
        name, _ = ATTRIBUTES[context].get(it["number"], (None, ""))
        front = f"{indent}attr {it['number']} {word(name)} {word(it['flags'])} {it['form']}"
        if "value" in it:
            yield f"{front} {word(it['value'])}"
            continue
        yield f"{front} {len(it['items'])}"
        if it["form"] == "hops":
            yield from hop_lines(it["items"], f"{indent}  ")
        else:
            inside = content(context, it["number"], NESTED)
            yield from attribute_lines(it["items"], f"{indent}  ", inside)


def body_lines(sort, found):
    if sort == "bytes":
        yield f"  bytes {word(found)}"
        return
    if sort == "error":
        text = f" code {found['code']} answers{head_words('message', found['answers'])}"
    else:
        text = head_words(sort, found)
    tail = f" tail {word(found['tail'])}" if "tail" in found else ""
    yield f"  {sort}{text}{tail}"
    if sort in NEW:
        yield from attribute_lines(found["attrs"], "    ", sort)


def message_lines(found):
    sort, body = [*found.items()][FRONT]
    flags = f"{word(found['flags'], '4')} {word(found['flag_names'])}"
    front = f"message {found['message']} {found['type']} flags {flags}"
    yield f"{front} {words(found, 'seq', 'port')}"
    yield from body_lines(sort, body)


def refusal(found):
    return f"refused {found['refused']}" + (f" at {found['at']}" if "at" in found else "")


def show_lines(found, sizes):
    for it, size in zip(found, sizes):
        yield f"datagram {it['datagram']} bytes {it.get('bytes', size)}"
        if "refused" in it:
            yield refusal(it)
        for message in it.get("messages", ()):
            yield from message_lines(message)


def check_lines(found, _):
    for it in found:
        answers = {True: "canonical", False: "accepted"}
        said = refusal(it) if "refused" in it else answers[it["canonical"]]
        yield f"datagram {it['datagram']} {said}"


def table_lines(found, _):
    *others, end = found
    yield words(end, "dump", "seq", "port")
    for it in others:
        if "refused" in it:
            yield f"datagram {it['datagram']} {refusal(it)}"
        else:
            (_, number), (sort, body) = it.items()
            yield f"entry {number}"
            yield from body_lines(sort, body)
    yield words(end, "end") + (f" {end['code']}" if "code" in end else "")
    yield words(end, "entries", "missed", "ignored", "unfed", "damaged", "interrupted")
    yield words(end, "received", "visits")
    yield words(end, "complete")


LINES = {"show": show_lines, "check": check_lines, "table": table_lines}


def text(command, objects, sizes):
    """The text that a command prints where it has these objects in JSON, of datagrams of these
    sizes."""
    return "".join(f"{line}\n" for line in LINES[command](objects, sizes))


def lines(objects):
    """The lines of JSON of these objects."""
    return "".join(f"{ENCODER.encode(it)}\n" for it in objects)
