#!/usr/bin/env python3
"""Holds share/rtnl.schema.json against lines of JSON.

  tests/schema.py          tests the schema
  tests/schema.py FILE ..  says which lines of these files it does not allow

The test goes over lines in data/lines_of_json/, worked by hand, that have each object, each field
and each word; over all that comes of them where one thing is changed, which must not be allowed;
over the ranges of numbers; and over the lines that the pages and other tests show. Two libraries
read the schema: jsonschema, and fastjsonschema, which compiles it, for the many lines of
compare.py; here they must agree. The last line is 'N passed, M failed', and the status is 1 where a case failed.
"""
import copy
import importlib
import importlib.util
import json
import os
import re
import subprocess
import sys
from typing import Any, Dict, Iterator, List, Optional, Tuple

sys.dont_write_bytecode = True
sys.path.insert(0, f"{os.path.dirname(os.path.realpath(__file__))}/helpers")
import counting

ROOT = os.path.dirname(os.path.dirname(os.path.realpath(__file__)))
COMMANDS = "show", "check", "table", "mirror"
# Files that show lines, and what stands in front of one.
PAGES = ["README.md", "share/man/man1/rtnl.1"]
PAGES += ["tests/data/rows/json.rows", "tests/data/rows/bytes.rows"]
PAGES += ["tests/refuse.sh", "tests/refuse/runs.rows"]
SHOWN = re.compile(r'(?:= )?(\{".*)')
# The libraries, and the Python of Debian, to which its packages of them belong.
LIBRARIES = "fastjsonschema", "jsonschema"
DEBIAN, PACKAGES = "/usr/bin/python3", "/usr/lib/python3/dist-packages"
# The keywords of the schema, which both libraries know, and those that may stand beside $ref.
NOTES = {"$schema", "$id", "$comment", "title", "description", "$defs"}
KEYWORDS = {"$ref", "type", "enum", "const", "anyOf", "not", "properties", "required", "items"}
KEYWORDS |= {"additionalProperties", "minProperties", "maxProperties", "minItems", "uniqueItems"}
KEYWORDS |= {"minimum", "maximum", "pattern", "patternProperties", *NOTES}

# A value of JSON, and what is wrong where something is.
Json = Any
REFERENCE: Any = importlib.import_module("reference")
Fault = Optional[str]


def has_libraries() -> bool:
    """Whether they are here. Missing ones are installed, and a Python that has them goes on."""

    def found() -> bool:
        return all(importlib.util.find_spec(name) for name in LIBRARIES)

    if not found():
        wanted = [word for it in LIBRARIES for word in (f"{PACKAGES}/{it}", f"python3-{it}")]
        subprocess.run([f"{ROOT}/tests/helpers/install_packages.sh", *wanted], check=False)
        is_there = all(os.path.exists(f"{PACKAGES}/{it}") for it in LIBRARIES)
        if is_there and os.path.realpath(sys.executable) != os.path.realpath(DEBIAN):
            os.execv(DEBIAN, [DEBIAN, *sys.argv])
        importlib.invalidate_caches()
    if not found():
        print("skipped: the schema of the lines of JSON, since its libraries are not here")
    return found()


def schema() -> Json:
    with open(f"{ROOT}/share/rtnl.schema.json", encoding="utf-8") as file:
        return json.load(file)


def part_of(whole: Json, place: str) -> Json:
    """The part of a schema at this place of its $defs, as a schema."""
    return {"$schema": whole["$schema"], "$defs": whole["$defs"], "$ref": f"#/$defs/{place}"}


def reader(whole: Json) -> Any:
    """What jsonschema makes of a schema."""
    return importlib.import_module("jsonschema").Draft202012Validator(whole)


class Allowed:
    """What a command may print as a line, by the compiled schema."""

    def __init__(self, command: str) -> None:
        self.schema = part_of(schema(), f"{command}_line")
        library = importlib.import_module("fastjsonschema")
        self.exception = library.JsonSchemaException
        # It changes the schema that it is given.
        self.compiled = library.compile(copy.deepcopy(self.schema))

    def has(self, line: Json) -> bool:
        try:
            self.compiled(line)
        except self.exception:
            return False
        return True

    def fault(self, line: Json) -> Fault:
        """Why a line is not allowed, or nothing where it is."""
        return None if self.has(line) else reason(self.schema, line)


def reason(whole: Json, value: Json) -> Fault:
    """Why a schema doesn't allow a value, or nothing where it does, at more length."""
    errors = reader(whole).iter_errors(value)
    best = importlib.import_module("jsonschema").exceptions.best_match(errors)
    return best and f"{best.message[:300]}, at {best.json_path[:300]}"


# The schema itself.


def parts(part: Json) -> Iterator[Json]:
    """A schema and each schema in it."""
    yield part
    inside = [part[key] for key in ("items", "not") if key in part] + part.get("anyOf", [])
    for key in ("properties", "patternProperties", "$defs"):
        inside += part.get(key, {}).values()
    for it in inside:
        yield from parts(it)


def fault_of_schema() -> Fault:
    """Why it is no schema, or none that means the same to all."""
    library = importlib.import_module("jsonschema")
    try:
        library.Draft202012Validator.check_schema(schema())
        library.Draft7Validator.check_schema(schema())
    except library.SchemaError as error:
        return str(error)
    for part in parts(schema()):
        if part.keys() - (NOTES | {"$ref"} if "$ref" in part else KEYWORDS):
            return f"other keywords than those that are known: {part}"
    return None


def fault_of_notes() -> Fault:
    """Which part has no title, which field no description, and which object is not closed."""
    for name, part in schema()["$defs"].items():
        if "title" not in part:
            return f"no title of {name}"
        if part.get("type") == "object" and part.get("additionalProperties") is not False:
            return f"{name} is open"
        for field, held in part.get("properties", {}).items():
            if "description" not in held and "$ref" not in held:
                return f"no description of {name}.{field}"
    return None


# The lines, and the changes of each.


def hand_made(command: str) -> List[Json]:
    with open(f"{ROOT}/tests/data/lines_of_json/{command}.jsonl", encoding="utf-8") as lines:
        return [json.loads(line) for line in lines]


# A message's body is its field of this index.
BODY = 6
OTHERS: Tuple[Json, ...] = (None, True, 0, "", [], {})
# Fields whose strings are words that the schema lists.
WORDS = "refused", "dump", "end", "type", "form", "flags", "fault", "table", "stale", "change"


# Rows of no value; of a value in each place; of a series; and what begins the fields of heads.
NO_VALUES = set("__ifi_pad ndm_pad1 ndm_pad2 res1 res2 tail padding".split())
NO_VALUES |= {"nlmsghdr", "rtattr", "rtnexthop", "unread"}
ALWAYS = set("nlmsg_len nlmsg_flags nlmsg_seq nlmsg_pid rta_len rtnh_len status".split())
ALWAYS |= {"rtnh_flags", "rtnh_hops", "rtnh_ifindex"}
COUNTER = re.compile(r"[A-Z0-9]+")
FRONTS = "__ifi_", "ifi_", "ifa_", "rtm_", "ndm_", "rta_", "rtnh_", "nlmsg_", "rtgen_"
FIELDS_OF_HEADS = {it.kernel for head in REFERENCE.HEADS.values() for it in head.fields} - {"flags"}
# Of what a kernel keeps beside an address, a neighbour or a route.
FIELDS_OF_HEADS |= set("ifa_prefered ifa_valid ndm_confirmed ndm_used ndm_updated".split())
FIELDS_OF_HEADS |= set("ndm_refcnt rta_clntref rta_lastuse rta_expires rta_error rta_used".split())
FIELDS_OF_HEADS |= set("rta_id rta_ts rta_tsage".split())


def is_struct(holder: Json) -> bool:
    """Whether an object in what a payload means is a struct, whose fields may have any names."""
    is_closed = "number" in holder or "name" in holder
    return not is_closed and any(it != it.upper() for it in holder)


def may_be(holder: Json, field: str, is_data: bool) -> Tuple[Json, ...]:
    """The values of other types that a field of this object may have: null for no name of an
    attribute, and all but null for what its payload means, where bytes stand beside that; of a
    field of a struct words, a number or nothing; of a row of bytes null or a number for its value,
    and null for its fault."""
    if "number" in holder:
        has_bytes = holder.get("form", "hex") == "hex"
        return {"name": (None,), "data": OTHERS[1:] if has_bytes else ()}.get(field, ())
    if is_data:
        return (0, "", []) if is_struct(holder) and field != "attrs" else ()
    name = holder.get("name", "")
    if field == "value":
        return others_of_row(name)
    return (None,) if field == "fault" and name.endswith(("_len", "unread")) else ()


def others_of_row(name: str) -> Tuple[Json, ...]:
    """The same of the value of a row of this name: a field of a head has a number, or nothing in a
    payload; other fields of structs, and attributes, may also have words."""
    if name in ("nlmsg_type", "rta_type"):
        return (0,)
    if name in NO_VALUES or name in ALWAYS or COUNTER.fullmatch(name):
        return ()
    return (None, 0) if name in FIELDS_OF_HEADS else (None, 0, "")


def is_field_too(row: Json) -> bool:
    """Whether a row would be one of some struct's field if its name had another letter."""
    name = row["name"]
    return name.islower() and row["fault"] is None and not name.startswith(FRONTS)


def changes(
    value: Json, name: str = "line", others: Tuple[Json, ...] = (), is_data: bool = False
) -> Iterator[Tuple[str, str, Json]]:
    """All that comes of a value by one change: the kind of the change, where it is, and that."""
    others = tuple(it for it in OTHERS if type(it) is not type(value) and it not in others)
    yield from (("another type", name, it) for it in others)
    if isinstance(value, str) and (name in WORDS or name == "name"):
        yield "another word", name, f"{value}s"
    if isinstance(value, dict):
        yield from changes_of_object(value, name, is_data)
    if isinstance(value, list):
        # One number may stand where one struct or one attribute does.
        number_too = (0,) if is_data and len(value) == 1 else ()
        for number, held in enumerate(value):
            for kind, place, it in changes(held, name, number_too, is_data):
                where = f"{name}[{number}]{place[len(name) :]}"
                yield kind, where, [*value[:number], it, *value[number + 1 :]]


def may_lack(holder: Json, field: str, is_data: bool) -> bool:
    """Whether an object may be without one of its fields. Without its sign an entry that is new or
    gone is one of a table."""
    if is_data and "number" not in holder:
        return True
    if field == "data":
        return "form" in holder or "number" not in holder
    if field == "kind":
        return "data" not in holder
    return field == "change" and "before" not in holder and "table" not in holder


def changes_of_object(
    value: Json, name: str, is_data: bool
) -> Iterator[Tuple[str, str, Json]]:
    """The same of an object: fields that are unknown, missing, renamed or changed."""
    is_open = is_data and is_struct(value)
    if not is_open:
        yield "an unknown field", name, {**value, "unknown": 0}
    for field, held in value.items():
        rest = {other: it for other, it in value.items() if other != field}
        if not is_open and not may_lack(value, field, is_data):
            yield "a missing field", f"{name}.{field}", rest
        if not is_open:
            yield "a renamed field", f"{name}.{field}", {**rest, f"{field}s": held}
        inside = is_data or field == "data"
        is_open_name = field == "name" and "offset" in value and is_field_too(value)
        for kind, place, it in changes(held, field, may_be(value, field, is_data), inside):
            if not (is_open_name and kind == "another word"):
                yield kind, f"{name}.{place}", {**value, field: it}


def fault_of_changes(allowed: Allowed, line: Json) -> Fault:
    """Which change of a line is allowed, or is read otherwise by the other library."""
    other = reader(allowed.schema)
    for kind, place, it in changes(line):
        if allowed.has(it) or other.is_valid(it):
            return f"{kind}, {place}: {json.dumps(it)[:400]}"
    return None


def drops(part: Json, place: str = "#") -> Iterator[Tuple[str, Json]]:
    """The schema without one of its fields, words or alternatives, and which one that is."""
    for key in part.keys() & {"enum", "anyOf"}:
        for number, it in enumerate(part[key]):
            front, rest = part[key][:number], part[key][number + 1 :]
            yield f"{place}/{key} {str(it)[:80]}", {**part, key: front + rest}
            for what, less in drops(it, f"{place}/{key}/{number}") if key == "anyOf" else ():
                yield what, {**part, key: [*front, less, *rest]}
    for key in part.keys() & {"properties", "patternProperties", "$defs"}:
        for name, it in part[key].items():
            others = {other: that for other, that in part[key].items() if other != name}
            if key != "$defs" and "additionalProperties" in part:
                yield f"{place}/{key} {name}", {**part, key: others}
            for what, less in drops(it, f"{place}/{key}/{name}"):
                yield what, {**part, key: {**others, name: less}}
    for what, less in drops(part["items"], f"{place}/items") if "items" in part else ():
        yield what, {**part, "items": less}


def fault_of_cover() -> Fault:
    """What the lines do without: a field, a word or an alternative that none of them has."""
    lines = [(command, line) for command in COMMANDS for line in hand_made(command)]
    for what, less in drops({"$defs": schema()["$defs"]}):
        whole = {"$schema": schema()["$schema"], **less}
        others = {it: reader(part_of(whole, f"{it}_line")) for it in COMMANDS}
        if all(others[command].is_valid(line) for command, line in lines):
            return f"no line has {what}"
    return None


# Numbers, texts, and fields that do not belong together.

# The least and the greatest integer of a letter, and of each that is no part of a head.
LETTERS = {"B": (0, 255), "H": (0, 65535), "I": (0, 2**32 - 1), "i": (-(2**31), 2**31 - 1)}
RANGES = {
    **{"u8": (0, 255), "u16": (0, 65535), "u32": (0, 2**32 - 1), "i32": (-(2**31), 2**31 - 1)},
    **{"datagram_number": (1, 2**24), "count": (0, 2**24), "shown/properties/bytes": (16, 65536)},
    **{"refused/properties/at": (0, 65535), "entry_number": (1, 65536)},
    **{"entry_count": (0, 65536), "dump/properties/visits": (0, 33 * 2**23)},
    **{"mirrored/properties/missed": (0, 2**64 - 1)},
    **{"row/properties/offset": (0, 2**23 - 16), "row/properties/length": (1, 16)},
    **{"row/properties/level": (0, 16), "attribute_number": (0, 16383)},
    **{"u64": (0, 2**64 - 1), "integer": (-(2**63), 2**64 - 1)},
}
WRONG: Dict[str, Tuple[Json, ...]] = {
    "hex": ("0", "0G", "AB", "0x00", "00 00"),
    "ipv4": ("", "1.2.3", "1.2.3.4.", "1.2.3.4.5", "1.2.3.256", "01.2.3.4", "1.2.3.4/8"),
    "ipv6": ("", "::", "fe80::1", ":".join(["0000"] * 7), ":".join(["0000"] * 9), "::1"),
    "text": ("", "\t", "a\x7f", "\u00e9"),
    "names": (["up"], [""], ["UP", "UP"], ["1"], ["A,B"], [None]),
    "attribute/properties/name": ("", "mtu", "-", "A B", "1"),
    "meant/properties/name": ("", "mtu", "-", "A B"),
    "named_value/properties/name": ("", "up", "-", "A B"),
    "named_bits/properties/names": (["up"], [""], ["UP", "UP"], [None]),
    "words": ("\t", "a\x7f", "\x85", "\0"),
    "message_kind": ("", "newqdisc", "RTM_NEWQDISC", "NEW", "NEW_QDISC", "QDISC"),
    "counters": ({"forwarding": 1}, {"A": "1"}, {"01": 1}, {"": 1}, {"A": True}),
    "struct": ({}, {"number": 1}, {"names": []}, {"attrs": []}, {"name": "a"}, {"a": None}),
    "structs": ([], [1], [{}], [[{"a": 1}]]),
    "series": (["1"], [None], [{"a": 1}], [[1]]),
    "headed": ({"attrs": []}, {"a": 1}, {"a": True, "attrs": []}, {"a": 1, "attrs": {}}),
    "attribute_type": ("", "MTU", "IFLA_", "ifla_mtu", "IFLA_mtu", "IFLA_A B", "KIND", "999"),
    "field_name": ("", "KIND", "ifi_index", "rta_types", "padding", "a b", "DPS", "tos", "res2"),
    "counter_name": ("", "mtu", "MTu", "6MTU", "_MTU", "A B"),
    "leaf": (None, True, [], {}, {"number": 1}, {"name": "UP"}, "\t", 0.5),
    "told": (0, "", True, [], {}),
    "message_type": ("", "newlink", "RTM_", "RTM_LINK", "NLMSG_", "RTM_NEW LINK", "16"),
    "row/properties/bytes": ("", "0", "0G", "AB", "0x00", "00 00", "00" * 17),
    "attribute/properties/flags": (["NET"], ["net", "net"], [""]),
}
WRONG["ipv6"] += (":".join(["FE80"] * 8), ":".join(["00000"] * 8))


def integers(whole: Json, name: str) -> List[str]:
    """The fields of an object that are integers."""

    def is_integer(part: Json) -> bool:
        held = whole["$defs"][part["$ref"].split("/")[-1]] if "$ref" in part else part
        return bool(held.get("type") == "integer")

    return [field for field, it in whole["$defs"][name]["properties"].items() if is_integer(it)]


def heads() -> Dict[str, str]:
    """The letters of the module struct for the integers of each head, by the second reading."""
    found = {name: head.form.replace("x", "") for name, head in REFERENCE.HEADS.items()}
    del found["bytes"]
    answered = found["message"]
    found.update({"error": "i", "answered": answered})
    return {**found, "message": answered[1:], "other_message": answered[1:]}


def ranges(whole: Json) -> Iterator[Tuple[str, Tuple[int, int]]]:
    """Each place of the schema that has integers, with the least and the greatest of them."""
    yield from RANGES.items()
    for name, letters in heads().items():
        for field, letter in zip(integers(whole, name), letters):
            yield f"{name}/properties/{field}", LETTERS[letter]


def fault_of_ranges() -> Fault:
    """Which part has another range, or has one that is not known here."""
    whole = schema()
    for name, letters in heads().items():
        if len(integers(whole, name)) != len(letters):
            return f"{name} has not {len(letters)} integers"
    for place, (least, most) in ranges(whole):
        other = reader(part_of(whole, place))
        if [other.is_valid(it) for it in (least - 1, least, most, most + 1)] != [0, 1, 1, 0]:
            return f"{place} is not from {least} to {most}"
    bounded = [part for part in parts(whole) if "minimum" in part or "maximum" in part]
    return None if len(bounded) == len(RANGES) else "a further range"


def fault_of_texts() -> Fault:
    for place, values in WRONG.items():
        other = reader(part_of(schema(), place))
        for value in values:
            if other.is_valid(value):
                return f"{place} may be {value!r}"
    return None


def bodies() -> Dict[str, Json]:
    """A body of each sort, of the lines of show."""
    messages = [it for line in hand_made("show") for it in line.get("messages", [])]
    return {list(it)[BODY]: it[list(it)[BODY]] for it in messages}


def fault_of_types() -> Fault:
    """Which number, name and body of a message go together and should not, or should and don't."""
    allowed = Allowed("show")
    names = [name for name, _ in REFERENCE.KINDS.values()] + ["other"]
    for kind in (*range(40), 65535):
        name, _ = REFERENCE.KINDS.get(kind, REFERENCE.OTHER)
        for other in names:
            for sort, body in bodies().items():
                head = {"message": kind, "type": other, "flags": 0, "flag_names": []}
                message = {**head, "seq": 0, "port": 0, sort: body}
                is_right = other == name and sort == REFERENCE.SORTS.get(kind, "bytes")
                if allowed.has({"datagram": 1, "bytes": 16, "messages": [message]}) != is_right:
                    return f"{kind}, {other}, {sort}"
    return None


def mixed() -> Iterator[Tuple[str, Json]]:
    """Lines whose fields do not belong together, and their commands."""
    link, addr = bodies()["link"], bodies()["addr"]
    yield from (("show", row) for row in mixed_rows())
    rows = [line for line in hand_made("show") if "offset" in line]
    yield from ((command, row) for command in COMMANDS[1:] for row in rows)
    yield from (("mirror", line) for line in mixed_of_mirror(link, addr))
    for it in mixed_meanings():
        yield "show", {"datagram": 1, "bytes": 16, "messages": [it]}
    yield "table", {"entry": 1}
    yield "table", {"link": link, "addr": addr}
    yield "table", {"entry": 1, "link": link, "addr": addr}
    yield "table", {"entry": 1, "link": addr}
    yield "mirror", {"datagram": 1, "refused": "total"}
    for command in COMMANDS:
        yield command, {"datagram": 1, "refused": "too large", "at": 0}
        yield command, {"datagram": 1, "refused": "total", "at": 0}
        yield command, {"datagram": 1, "bytes": 16, "messages": []}
        yield command, {"datagram": 1, "canonical": True, "refused": "cut", "at": 0}
    yield "show", {"datagram": 1, "refused": "total"}
    yield "check", {"datagram": 1, "refused": "total"}
    for dump in hand_made("table"):
        if dump.get("end") in ("overrun", "none"):
            yield from (("table", {**dump, "code": code}) for code in (0, 1))
        if dump.get("end") == "error":
            yield "table", {**dump, "code": 0}
    both = {"message": 16, "type": "newlink", "flags": 0, "flag_names": [], "seq": 0, "port": 0}
    both.update(link=link, addr=addr)
    for less in ("", *both):
        rest = {field: it for field, it in both.items() if field != less}
        if less != "addr":
            yield "show", {"datagram": 1, "bytes": 16, "messages": [rest]}
    held: List[Dict[str, Json]] = [{}, {"value": 0}, {"items": []}, {"value": 0, "items": []}]
    for form, right in (("u8", "value"), ("list", "items"), ("hops", "items")):
        front: Dict[str, Json] = {"number": 1, "name": None, "flags": [], "form": form}
        for fields in (it for it in held if list(it) != [right]):
            yield "table", {"entry": 1, "link": {**link, "attrs": [{**front, **fields}]}}


def mixed_meanings() -> Iterator[Json]:
    """Lines of `show` whose meanings do not belong where they stand."""
    value: Json = {"number": 6, "name": "UP"}
    bits: Json = {"number": 1, "names": ["UP"]}
    front: Json = {"number": 1, "name": None, "flags": []}
    texts: Json = {"text": "a", "ipv4": "0.0.0.0", "ipv6": ":".join(["0000"] * 8)}
    numbers: Json = {"u8": 1, "u16": 1, "u32": 1}
    attributes = [
        {**front, "form": it, "value": text, "data": value} for it, text in texts.items()
    ]
    attributes += [{**front, "form": it, "items": [], "data": value} for it in ("list", "hops")]
    attributes += [{**front, "form": it, "value": 1, "data": 1} for it in numbers]
    attributes += [{**front, "form": it, "value": 1, "data": bits} for it in ("u8", "u16")]
    attributes += [{**front, "form": "hex", "data": value}]
    attributes += [{**front, "flags": ["net"], "form": "hex", "value": "00", "data": 0}]
    attributes += [{**front, "flags": ["nested", "net"], "form": "u8", "value": 6, "data": value}]
    a_part: Json = {"number": 1, "name": None, "data": 1}
    of_bytes: Json = {"number": 1, "name": None, "value": "00"}
    for data in (
        [a_part, 1], [{"a": 1}, a_part], [{**a_part, "value": "00"}], [{**of_bytes, "flags": []}],
        [{"number": 1, "name": None}], {"A": 1, "a": 1}, {"a": [a_part]}, {"a": True}, {"a": {}},
        {"attrs": [{"a": 1}], "a": 1}, {**value, "names": []}, {"number": -1, "names": []},
        {"number": "6", "name": "UP"}, False, 0.5, [[1]], [True], ["a"], [None], {"A": "1"},
    ):
        attributes.append({**front, "form": "hex", "value": "00", "data": data})
    link = bodies()["link"]
    head: Json = {"message": 16, "type": "newlink", "flags": 0, "flag_names": []}
    head.update(seq=0, port=0)
    for it in attributes:
        yield {**head, "link": {**link, "attrs": [it]}}
    headed: Json = {"tcm_family": 0, "attrs": []}
    other: Json = {**head, "message": 36, "type": "other", "bytes": ""}
    said: Json = {"kind": "NEWQDISC", "data": headed}
    yield from ({**other, "data": it} for it in (headed, 1))
    yield from ({**other, **said, "data": it} for it in (1, [], {}, {"tcm_family": 0}, value))
    yield from ({**other, **said, "message": it} for it in (1, 16, 34))
    yield {**head, "link": link, "kind": "NEWLINK"}
    yield {**head, "link": link, **said}
    yield {**head, "message": 1, "type": "noop", "bytes": "", "kind": "NOOP"}
    error = bodies()["error"]
    answers = {it: that for it, that in error["answers"].items() if it not in said}
    message = {**head, "message": 2, "type": "error"}
    yield {**message, "error": {**error, "answers": {**answers, "data": headed}}}
    yield {**message, "error": {**error, "data": headed}}
    yield {**message, "error": {**error, "kind": "NEWLINK"}}


def mixed_of_mirror(link: Json, addr: Json) -> Iterator[Json]:
    """Lines of `mirror` whose fields do not belong together."""
    for line in hand_made("mirror"):
        if "current" in line:
            yield {**line, "current": not line["current"]}
        if "change" in line:
            others = "~=?" if line["change"] in "+-" else "+-~=?"
            yield from ({**line, "change": it} for it in others if it != line["change"])
    yield {"change": "~", "entry": 1, "link": link, "before": addr}
    yield {"change": "~", "entry": 1, "link": link, "addr": addr, "before": link}
    yield {"change": "+", "entry": 1, "link": link, "before": link}
    yield {"change": "-", "entry": 1, "link": link, "addr": addr}
    yield {"change": "=", "table": "link", "entries": 1, "stale": "lost"}
    yield {"table": "link", "entries": 1}
    yield {"table": "link", "entries": 1, "missed": 0, "current": True, "stale": "lost"}


def mixed_rows() -> Iterator[Json]:
    """Rows of bytes with a fault that is not theirs, or with a value of another part."""
    rows = [line for line in hand_made("show") if "offset" in line]
    faults = {(row["name"], row["fault"]) for row in rows}
    for row in rows:
        for fault in sorted({it for _, it in faults if it}):
            if (row["name"], fault) not in faults:
                yield {**row, "fault": fault}
        yield {**row, "value": 2**64}
        yield {**row, "value": -(2**63) - 1}
        if row["name"] in FIELDS_OF_HEADS | ALWAYS:
            yield {**row, "value": 2**32}
    for row in rows:
        if row["name"] in ("nlmsghdr", "rtattr", "rtnexthop"):
            yield {**row, "fault": None}
        if row["name"] in ("ifi_index", "ndm_ifindex", "rtnh_ifindex"):
            yield {**row, "value": 2**31}
        yield {**row, "canonical": True}
    yield {"datagram": 1, "refused": "cut", "at": 0, "offset": 0}


def fault_of_mixed() -> Fault:
    allowed = {it: Allowed(it) for it in COMMANDS}
    others = {it: reader(allowed[it].schema) for it in COMMANDS}
    for command, line in mixed():
        if allowed[command].has(line) or others[command].is_valid(line):
            return f"{command}: {json.dumps(line)[:400]}"
    return None


def fault_of_names() -> Fault:
    """Which attribute, message type, field or place in a series has a name that no row may have."""
    data: Any = importlib.import_module("reference_data")
    sorts = {"set": "attribute_type", "messages": "message_type", "array": "counter_name"}
    readers = {it: reader(part_of(schema(), it)) for it in (*sorts.values(), "field_name")}
    for block in data.BLOCKS.values():
        for row in block.rows if block.sort in sorts else ():
            front = block.said["prefix"] if block.sort == "array" else ""
            if not readers[sorts[block.sort]].is_valid(row.name[len(front):]):
                return row.name
        for row in block.rows if block.sort == "struct" else ():
            is_of_head = row.name in FIELDS_OF_HEADS | ALWAYS | NO_VALUES
            is_type = row.name in ("nlmsg_type", "rta_type")
            if readers["field_name"].is_valid(row.name) == (is_of_head or is_type):
                return row.name
    return None


# The test.


def fault_of_line(allowed: Allowed, line: Json) -> Fault:
    return allowed.fault(line) or reason(allowed.schema, line)


def read(path: str) -> List[str]:
    with open(path, encoding="utf-8") as file:
        return file.read().splitlines()


def shown(path: str) -> List[str]:
    """The lines of JSON that a page or a test shows."""
    lines = read(f"{ROOT}/{path}")
    if path.endswith(".1"):
        lines = [it.replace("\\e", "\\").replace("\\-", "-").replace("\\&", "") for it in lines]
    return [it[1] for it in map(SHOWN.fullmatch, lines) if it]


def fault_of_lines(lines: List[str]) -> Fault:
    """Which line is not allowed, or that there is none."""
    for line in lines:
        fault = reason(schema(), json.loads(line))
        if fault:
            return f"{fault}: {line[:400]}"
    return None if lines else "no line of JSON"


def cases() -> Iterator[Tuple[str, Fault]]:
    """The name of each case, and what is wrong with it."""
    yield "a schema", fault_of_schema()
    yield "titles, descriptions, closed objects", fault_of_notes()
    yield "ranges of numbers", fault_of_ranges()
    yield "texts", fault_of_texts()
    yield "names of rows", fault_of_names()
    yield "types of messages", fault_of_types()
    yield "fields that do not belong together", fault_of_mixed()
    yield "each field, word and alternative", fault_of_cover()
    is_whole = counting.whole("three of four lines that are changed")
    for command in COMMANDS:
        allowed = Allowed(command)
        for number, line in enumerate(hand_made(command), 1):
            yield f"{command}, line {number}", fault_of_line(allowed, line)
            if is_whole or number % 4 == 1:
                yield f"{command}, line {number}, changed", fault_of_changes(allowed, line)
    yield from ((path, fault_of_lines(shown(path))) for path in PAGES)


def main(paths: List[str]) -> int:
    found = ((it, fault_of_lines(read(it))) for it in paths) if paths else cases()
    if not has_libraries():
        found = iter(())
    return counting.counted((name, [fault] if fault else []) for name, fault in found)


if __name__ == "__main__":
    sys.exit(main(sys.argv[1:]))
