#!/usr/bin/env python3
"""Compares include/rtnlc.h and c/rtnlc.c with the code of crates/rtnl_c: the names, types and
order of the fields of each struct, and the parameters and the result of each call. The status is 1
where one differs.
"""
import glob
import os
import re
import sys

ROOT = os.path.join(os.path.dirname(os.path.abspath(__file__)), "../..")
# The structs of the header by the code's names.
NAMES = {
    "Options": "rtnlc_options",
    "Scanned": "rtnlc_scanned",
    "Broken": "rtnlc_broken_head",
    "Event": "rtnlc_event",
    "Taped": "rtnlc_taped",
    "MessageAt": "rtnlc_message",
    "AttrAt": "rtnlc_attr",
    "HopAt": "rtnlc_hop",
    "BodyHead": "rtnlc_family",
    "Holds": "rtnlc_holds",
    "Checked": "rtnlc_checked",
    "Shown": "rtnlc_shown",
    "StreamState": "rtnlc_stream",
    "BuilderState": "rtnlc_built",
    "Fed": "rtnlc_fed",
    "Put": "rtnlc_put",
    "Status": "rtnlc_status",
    "TableSize": "rtnlc_table",
    "FoundEntry": "rtnlc_found",
    "Change": "rtnlc_change",
    "Heard": "rtnlc_heard",
    "MirrorTableInfo": "rtnlc_mirrored",
    "Metric": "rtnlc_metric",
    "NextHop": "rtnlc_next_hop",
} | {f"{it.title()}Fields": f"rtnlc_{it}_request"
     for it in ("link", "addr", "route", "neigh", "rule")}
# What C keeps of a session or a mirror has no field that is compared: c/rtnlc.c makes the one of
# the other. A builder for C has the buffer beside what the code keeps. Bytes of a request are a
# slice in the code, and the gateway of a next hop is spread over its fields in C.
APART = ("rtnlc_session", "Handle", "rtnlc_mirror", "MirrorHandle", "rtnlc_builder", "rtnlc_bytes",
         "Gateway")
# Fields that have another name in C, where a field `sort` is enum rtnlc_sort.
FIELDS = {("RouteFields", "sort"): "route_type"}
# Where code stands whose structs are laid out as in C, beside rtnl_c.
REQUESTS = "crates/nl_request/src"
# Calls that answer words: they are made in c/rtnlc.c alone.
WORDS = {"code_name", "version", "proved"}
TYPES = {f"u{bits}": f"uint{bits}_t" for bits in (8, 16, 32, 64)}
TYPES |= {"i32": "int32_t", "usize": "size_t", "bool": "bool"}
TYPES |= {name: f"struct {it}" for name, it in NAMES.items()}
# What stands for a parameter of the code; one of the type Global takes no place.
PARAMETERS = {"Global": []} | {name: [it] for name, it in TYPES.items()}
for name in ("u8", "Event", "Change"):
    PARAMETERS[f"&[{name}]"] = [f"const {TYPES[name]} *", "size_t"]
    PARAMETERS[f"&mut [{name}]"] = [f"{TYPES[name]} *", "size_t"]
for name in NAMES:
    PARAMETERS[f"&{name}<'_>"] = [f"const {TYPES[name]} *"]
PARAMETERS["&Options"] = ["const struct rtnlc_options *"]
PARAMETERS["&StreamState"] = ["const struct rtnlc_stream *"]
PARAMETERS["&mut StreamState"] = ["struct rtnlc_stream *"]
PARAMETERS["&BuilderState"] = ["const struct rtnlc_built *"]
PARAMETERS["&mut BuilderState"] = ["struct rtnlc_built *"]
PARAMETERS["&mut Handle"] = ["struct rtnlc_session *"]
PARAMETERS["&mut MirrorHandle"] = ["struct rtnlc_mirror *"]


def text_of(file):
    with open(f"{ROOT}/{file}", encoding="utf-8") as it:
        return it.read()


def plain(text):
    """C without comments and lines of the preprocessor, on one line."""
    text = re.sub(r"/\*.*?\*/", " ", text, flags=re.S)
    return " ".join(re.sub(r"^#.*$", "", text, flags=re.M).split())


def structs_in_c(text):
    """Each struct by its name, with the name and the type of each field."""
    found = {}
    for name, body in re.findall(r"struct (\w+) \{([^{}]*)\}", text):
        rows = [re.findall(r"((?:const )?(?:struct )?\w+ \*?)(.*)", row)[0]
                for row in body.split(";") if row.strip()]
        named = [(kind, field) for kind, fields in rows for field in fields.split(",")]
        found[name] = [(field.strip(), kind.strip()) for kind, field in named]
    return found


def field_in_c(field, kind, structs):
    """The fields that stand in C for one of the code."""
    slice_of = re.fullmatch(r"&'a \[(\w+)\]", kind)
    if slice_of and slice_of[1] == "u8":
        return [(field, "struct rtnlc_bytes")]
    if slice_of:
        return [(field, f"const {TYPES[slice_of[1]]} *"), (f"{field[:-1]}_count", "size_t")]
    if kind in APART:
        return [(f"{field}_{inner}".replace("_bytes", ""), it) for inner, it in structs[kind]]
    return [(field, TYPES.get(kind, kind))]


def structs_in_code(text):
    """The same of the code's structs laid out as in C, by the header's names and types."""
    found = {}
    numbers = dict(re.findall(r"^const (\w+): usize = (\d+);$", text, re.M))
    struct = r"#\[repr\(C\)\]\s*(?:#\[[^\n]*\s*)*pub struct (\w+)(?:<'a>)? \{(.*?)\n\}"
    for name, body in re.findall(struct, text, re.S):
        body = re.sub(r"(\w+): \[(\w+); (\w+)\]",
                      lambda it: f"{it[1]}[{numbers.get(it[3], it[3])}]: {it[2]}", body)
        fields = re.findall(r"^\s*(?:pub )?([\w\[\]]+): (.+),$", body, re.M)
        found[NAMES.get(name, name)] = [
            it for field, kind in fields
            for it in field_in_c(FIELDS.get((name, field), field), kind, found)]
    return found


def types_of(parameters):
    """The types of the parameters of a declaration in C, with or without names."""
    found = []
    for it in parameters.split(","):
        kind = re.match(r"\s*((?:const )?(?:struct )?\w+)\s*(\*?)", it)
        found.append(f"{kind[1]} *" if kind[2] else kind[1])
    return found


def calls_in_c(text, prefix):
    calls = re.findall(rf"(struct \w+|uint8_t|void) {prefix}_(\w+)\(([^()]*)\);", text)
    return {name: (result, types_of(parameters)) for result, name, parameters in calls}


def calls_in_code(text):
    found = {}
    call = r'pub extern "C" fn rtnlc_(\w+)\(([^()]*)\)(?: -> (\w+))?'
    for name, parameters, result in re.findall(call, text):
        kinds = [it.partition(":")[2].strip() for it in parameters.split(",") if it.strip()]
        flat = [kind for it in kinds for kind in PARAMETERS.get(it, [f"unknown {it}"])]
        found[name] = (TYPES.get(result, result) or "void", flat)
    return found


def with_buffer(calls):
    """The calls of a builder as the code has them, in which its buffer stands apart."""
    found = dict(calls)
    for name, (result, kinds) in calls.items():
        if name.startswith("builder_"):
            is_read = kinds[0].startswith("const ")
            own = [kinds[0].replace("rtnlc_builder", "rtnlc_built")]
            buffer = [f"{'const ' if is_read else ''}uint8_t *", "size_t"]
            rest = [it.replace("void", "uint8_t") for it in kinds[1:]]
            is_new = name == "builder_new"
            found[name] = (result, own + (rest[:1] if is_new else buffer + rest))
    return found


def differences(what, one, other):
    for name in sorted({*one, *other}):
        if one.get(name) != other.get(name):
            yield f"{what} {name}: {one.get(name)} in C, {other.get(name)} in the code"


def main():
    header = plain(text_of("include/rtnlc.h"))
    files = sorted(glob.glob("crates/rtnl_c/src/**/*.rt", root_dir=ROOT, recursive=True))
    code = "\n".join(map(text_of, files))
    shared = "crates/nl_attr/src/events.rt", f"{REQUESTS}/gateway.rt", f"{REQUESTS}/route.rt"
    others = structs_in_code("\n".join(map(text_of, shared)))
    calls = calls_in_code(code)
    # A text is of bytes in the code, and of characters in the header.
    declared = calls_in_c(re.sub(r" char \*(out|text)", r" uint8_t *\1", header), "rtnlc")
    glue = plain(text_of("c/rtnlc.c"))
    glue = re.sub(r"(_(session|mirror)_\w+\()struct handle \*", r"\1struct rtnlc_\2 *", glue)
    between = calls_in_c(glue, "proved")
    structs, known = structs_in_c(header), structs_in_code(code) | others
    for name in APART:
        structs.pop(name, None)
        known.pop(name, None)
    found = [*differences("struct", structs, known)]
    found += differences("the call", with_buffer(declared), calls)
    found += differences("the proved call", between, calls)
    names = {*re.findall(r"\brtnlc_(\w+)\(", header)}
    found += [f"the call {name} is in C alone" for name in sorted(names - {*calls} - WORDS)]
    print("\n".join(found or [f"{len(calls)} calls, {len(structs)} structs"]))
    return 1 if found or not calls else 0


if __name__ == "__main__":
    sys.exit(main())
