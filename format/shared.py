"""What include/, share/ and record/ say of rows: message types, the kinds of tables, the fields of
structs, the longest name, and the groups of notifications.
"""
import re
import textwrap
from typing import Dict, Iterable, List

from named import CONTEXTS, Blocks, Missing, Writer
from named import controls, families, first_types, named, numbered, put_in, put_lines

# The structs whose fields `show --bytes` names: those that only heads are, and those that stand in
# payloads too, where a value may have a name; and those of the fields that have a rule alone.
HEADS = "nlmsghdr", "rtnexthop"
SHARED = """ifinfomsg ifaddrmsg rtmsg ndmsg fib-rule-hdr rtgenmsg nlmsgerr ifa-cacheinfo
nda-cacheinfo rta-cacheinfo""".split()
ALONE = "nlmsg_len nlmsg_type rtnh_len msg flags action cstamp tstamp".split()
# What the schema says of the values of fields, and what else has such values: an action is of a
# rule, or of a filter, where it has a sign.
VALUES = {"u8": "u8", "u16": "u16", "u32": "u32", "s32": "i32"}
ALSO_HEADS = {"s32": ["status"]}
ALSO_SHARED = {"s32": ["action"]}
BLANKS = ["tail", "padding"]
WIDTH = 99


def enum(words: List[str], indent: int) -> str:
    """What `"name": ` says in a schema: words, on one line or on one each."""
    texts = [f'"{it}"' for it in words]
    line = f'{{ "enum": [{", ".join(texts)}] }}'
    if indent + len(f'"name": {line},') <= WIDTH:
        return line
    front = "\n" + " " * indent
    lines = f",{front}    ".join(texts)
    return f'{{{front}  "enum": [{front}    {lines}{front}  ]{front}}}'


def put_names(text: str, says: str, names: List[str]) -> str:
    """Names of rows of bytes whose value the schema says so."""
    behind = rf'"value": \{{ {re.escape(says)} \}},\n +"fault": \{{ "const": null \}}'
    place = rf'(?<="name": )\{{\s+"enum"[^{{}}]+\}}(?=,\n +{behind})'
    return put_lines(place, text, enum(names, 12))


def fields(text: str, blocks: Blocks) -> str:
    """The fields of the rows of bytes, by their type."""
    def of(kind: str, structs: Iterable[str]) -> List[str]:
        rows = [it for name in structs for it in blocks[name].rows if it.name not in ALONE]
        return [it.name for it in rows if it.words[0] == kind]

    for kind, value in VALUES.items():
        is_number = f'"$ref": "#/$defs/{value}"'
        is_told = f'"anyOf": [{{ {is_number} }}, {{ "$ref": "#/$defs/told" }}]'
        text = put_names(text, is_number, of(kind, HEADS) + ALSO_HEADS.get(kind, []))
        text = put_names(text, is_told, of(kind, SHARED) + ALSO_SHARED.get(kind, []))
    return put_names(text, '"const": null', of("pad", SHARED) + BLANKS)


def types(text: str, blocks: Blocks) -> str:
    """The numbers of message types, by their names."""
    rows = controls(blocks) + families(blocks)
    numbers = {f"{it.verb}{it.of}".lower(): it.row.number for it in rows}
    place = r'"message": \{ "const": (?P<number>\d+) \}, "type": \{ "const": "(?P<name>\w+)" \}'
    text = numbered(re.compile(place), text, lambda it: numbers[it["name"]])
    blank = " " * 18
    every = ", ".join(map(str, numbers.values()))
    lines = textwrap.fill(every, WIDTH, initial_indent=blank, subsequent_indent=blank)
    return put_lines(r'(?<="enum": \[\n) +[\d, \n]+(?=\n +\])', text, lines)


def kinds(blocks: Blocks) -> List[str]:
    return [it.lower() for it in first_types(blocks)]


def schema(text: str, blocks: Blocks) -> str:
    text = types(fields(text, blocks), blocks)
    fronts = dict.fromkeys(blocks[it.set].said["prefix"].split("_")[0] for it in CONTEXTS)
    text = put_lines(r'(?<="pattern": "\^\()IFLA(?:\|\w+)+(?=\)_\[)', text, "|".join(fronts))
    words = ", ".join(f'"{it}"' for it in kinds(blocks))
    return put_lines(r'(?<="Kind of a table", "enum": \[)[^]]+', text, words)


def completions(text: str, blocks: Blocks) -> str:
    """The kinds, with a blank or a comma between them."""
    words = re.compile(r"\blink([ ,])addr(?:\1[a-z]+)+")
    return put_in(words, text, lambda found: found[1].join(kinds(blocks)))


def errors(blocks: Blocks) -> str:
    """The names of errors by their numbers, as lines of an object."""
    words = ", ".join(f'"{it.value}": "{it.name}"' for it in blocks["errno"].rows)
    # A number stays on the line of its name.
    words, blank = words.replace(": ", ":\0"), "  "
    text = textwrap.fill(words, WIDTH, initial_indent=blank, subsequent_indent=blank)
    return text.replace("\0", " ")


def module(text: str, blocks: Blocks) -> str:
    """The bodies of a message, a function for each kind, and the names of errors."""
    text = put_lines(r"(?<=^def _errors: \{\n)[^}]+(?= \};$)", text, errors(blocks))
    bodies = "".join(f".{it} // " for it in kinds(blocks))
    text = put_lines(r"(?<=  \| )(?:\.\w+ // )+(?=\.get // )", text, bodies)
    lines = "".join(
        f'def {it}s: bodies("new{it}"), (_entry | .{it} // empty);\n' for it in kinds(blocks))
    return put_lines(r'(?:^def \w+s: bodies\("new\w+"\), [^\n]+\n)+', text, lines)


def longest(blocks: Blocks) -> int:
    """How many bytes the longest name of an attribute or of a message type has."""
    rows = [(it.set, row) for it in CONTEXTS for row in named(blocks[it.set])]
    rows += [("control", it.row) for it in controls(blocks)]
    rows += [("families", it.row) for it in families(blocks)]
    return max(len(blocks[name].said["prefix"] + row.name) for name, row in rows)


def header(text: str, blocks: Blocks) -> str:
    """What names of attributes begin with, and the room for any name and any request of a dump."""
    for it in CONTEXTS:
        prefix = blocks[it.set].said["prefix"]
        place = re.compile(rf"(?P<front>\tRTNLC_{it.name.upper()} = \d, +/\* )\w+(?=\*)")
        text = put_in(place, text, lambda found: found["front"] + prefix)
    size = {name: int(it.said["size"]) for name, it in blocks.items() if "size" in it.said}
    heads = (row.said("head") or "" for row in first_types(blocks).values())
    request, name = size["nlmsghdr"] + max(map(size.__getitem__, heads)), longest(blocks)
    rooms = {
        **{"that of links has ": request, "#define RTNLC_REQUEST ": request},
        **{"none has more bytes than ": name, "#define RTNLC_NAME ": name + 1},
    }
    for front, room in rooms.items():
        text = put_lines(rf"(?<={front})\d+", text, str(room))
    return text


def groups(text: str, blocks: Blocks) -> str:
    """The groups of notifications, which are numbered one after another."""
    block = blocks["groups"]
    if [it.number for it in block.rows] != list(range(1, len(block.rows) + 1)):
        raise Missing("a group between others")
    names = " ".join(it.name[len(block.said["prefix"]):].lower() for it in block.rows)
    return put_lines(r'(?<=tuple\("""\n).*?(?=\n"""\.split)', text, textwrap.fill(names, WIDTH))


COMPLETED = "_rtnl rtnl.bash rtnl.fish".split()
FILES: Dict[str, Writer] = {
    **{f"share/completions/{it}": completions for it in COMPLETED},
    "include/rtnlc.h": header,
    "share/rtnl.schema.json": schema,
    "share/rtnl.jq": module,
    "record/groups.py": groups,
}
