#!/usr/bin/env python3
"""Compares what the package for Rust reads with what `rtnl` prints in JSON. AS_JSON is its program
that prints; RTNL is the program:

  compare.py AS_JSON RTNL

Of each recording of examples/ and tests/data/recordings/, the table of each family and what a
stream hands out, by the typed views; of these, of generated datagrams and of mutated ones each
message with all that is in it; and each verdict, those too of the datagrams in measure/. The last
line is 'N passed, M failed', and the status is 1 where a case failed.
"""
import glob
import ipaddress
import json
import os
import struct
import subprocess
import sys
import tempfile
from typing import Any, Dict, Iterator, List, Optional, Tuple

sys.dont_write_bytecode = True
HERE = os.path.dirname(os.path.realpath(__file__))
sys.path[:0] = [HERE, f"{HERE}/../../helpers"]
import datagrams
from counting import counted, whole
from json_of import Object, VIEWS, viewed

ROOT = os.path.realpath(f"{HERE}/../../..")
AS_JSON, RTNL = sys.argv[1:3]
Case = Tuple[str, List[str]]
# The lists inside others for whose attributes the library has names.
LISTS = ("LINKINFO", "METRICS")
# What both say of how a dump has ended.
STATUS = "end code ignored damaged interrupted received visits complete entries missed".split()


def lines(*words: str) -> List[str]:
    """What a program prints. A status of 1 says of `rtnl` that a datagram was refused."""
    ran = subprocess.run(words, stdout=subprocess.PIPE, check=False, text=True)
    if ran.returncode not in (0, 1):
        sys.exit(f"{' '.join(words)} ended with status {ran.returncode}")
    return ran.stdout.splitlines()


def objects(*words: str) -> List[Object]:
    return [json.loads(it) for it in lines(*words)]


def plain(value: Any) -> Any:
    """The same with each address in one form: ::ffff:1.2.3.4 has another one in Rust."""
    if isinstance(value, dict):
        return {name: plain(it) for name, it in value.items()}
    if isinstance(value, list):
        return [plain(it) for it in value]
    if isinstance(value, str) and ":" in value:
        front, slash, length = value.partition("/")
        return ipaddress.ip_address(front).compressed + slash + length
    return value


def difference(wanted: List[Any], found: List[Any]) -> List[str]:
    """The first of these that differs."""
    if len(wanted) != len(found):
        return [f"{len(found)} instead of {len(wanted)}"]
    for at, (one, other) in enumerate(zip(wanted, found), 1):
        if one != plain(other):
            return [f"{at}: expected {json.dumps(one)[:900]}, found {json.dumps(other)[:900]}"]
    return []


def ids_of(path: str) -> Tuple[int, int]:
    """The sequence number and the port id of the first message of a recording."""
    with open(path, encoding="ascii") as file:
        line = next(it for it in file if not it.startswith("#"))
    sequence, port = struct.unpack_from("<II", bytes.fromhex(line.strip()), 8)
    return sequence, port


def status(line: Object, names: List[str]) -> Object:
    return {name: line.get(name, 0) for name in names}


def table(path: str, family: str, ids: List[str]) -> List[str]:
    """What differs in the table of a family that a recording is read into."""
    options = ["--kind", family, "--seq", ids[0], "--port", ids[1]]
    *entries, end = objects(RTNL, "table", "--format", "json", *options, path)
    *found, own = objects(AS_JSON, "table", family, *ids, path)
    wanted: List[Object] = [{"entry": it["entry"], **viewed(it)} for it in entries]
    return difference([*wanted, status(end, STATUS)], [*found, status(own, STATUS)])


def stream(path: str, family: str, ids: List[str], shown: List[Object]) -> List[str]:
    """What differs in what a stream hands out: the NEW messages of the dump, up to its end."""
    wanted: List[Object] = []
    for message in (it for datagram in shown for it in datagram["messages"]):
        if [str(message["seq"]), str(message["port"])] == ids:
            if message["message"] == 3:
                break
            if family in message and message["type"] == f"new{family}":
                wanted.append({"entry": len(wanted) + 1, **viewed(message)})
    *found, _ = objects(AS_JSON, "stream", family, *ids, path)
    return difference(wanted, found)


def same_name(name: Optional[str], found: Optional[str], is_known: bool) -> bool:
    """Whether an attribute has the same name in both. JSON has names that the library has not: of
    numbers that the kernel doesn't use, and in lists other than those of LISTS."""
    if name is None:
        return True
    if found is None:
        return not is_known or name.startswith("UNUSED")
    return found.endswith(f"_{name}")


def attribute(of: Object, found: Object, is_known: bool = True) -> bool:
    """Whether an attribute is the same in both, in a list that the library has names for."""
    flags = [name for name in ("nested", "net") if found[name]]
    if (of["number"], of["flags"]) != (found["number"], flags):
        return False
    if not same_name(of["name"], found["name"], is_known):
        return False
    if "items" in of:
        inside = found.get(of["form"])
        if inside is None or len(inside) != len(of["items"]):
            return False
        if of["form"] == "hops":
            return all(map(next_hop, of["items"], inside))
        names = of["name"] in LISTS
        return all(attribute(*pair, names) for pair in zip(of["items"], inside))
    return "payload" in found and of["value"] == value(of["form"], found)


def value(form: str, found: Object) -> Any:
    """The bytes of an attribute, read in the form that `rtnl` has for it."""
    data = bytes.fromhex(found["payload"])
    if form in ("u8", "u16", "u32"):
        is_port = found["name"] == "NDA_PORT"
        return int.from_bytes(data, "big" if is_port else "little")
    if form == "text":
        return data[:-1 if data.endswith(b"\0") else len(data)].decode("latin-1")
    if form == "ipv6":
        return ":".join(data[at:at + 2].hex() for at in range(0, 16, 2))
    return ".".join(map(str, data)) if form == "ipv4" else data.hex()


def next_hop(of: Object, found: Object) -> bool:
    inside = found["attrs"]
    return (of["index"] & 0xFFFFFFFF == found["index"] and len(inside) == len(of["attrs"])
            and all(map(attribute, of["attrs"], inside)))


def message(of: Object, found: Object) -> bool:
    names = ("message", "flags", "seq", "port")
    body: Dict[str, Any] = viewed(of)
    for name, field in (("error", "code"), ("done", "status")):
        body.update({name: of[name][field]} if name in of else {})
    attrs: List[Object] = next((of[name]["attrs"] for name in VIEWS if name in of), [])
    return (all(of[name] == found[name] for name in names)
            and all(plain(found.get(name)) == it for name, it in body.items())
            and len(attrs) == len(found["attrs"]) and all(map(attribute, attrs, found["attrs"])))


def datagram(of: Object, found: Object) -> bool:
    if "refused" in of:
        return of == found
    own = found.get("messages", [])
    return len(own) == len(of["messages"]) and all(map(message, of["messages"], own))


def show(path: str, shown: List[Object]) -> List[str]:
    """The first datagram of which the messages differ, or the refusal."""
    found = objects(AS_JSON, "show", path)
    if len(found) != len(shown):
        return [f"{len(found)} instead of {len(shown)}"]
    pairs = zip(shown, found)
    wrong: Optional[Tuple[Object, Object]] = next((it for it in pairs if not datagram(*it)), None)
    return [] if wrong is None else [f"expected {json.dumps(wrong[0])[:900]}, "
                                     f"found {json.dumps(wrong[1])[:900]}"]


def verdicts(path: str) -> List[str]:
    wanted = lines(RTNL, "check", "--format", "json", path)
    return difference(list(map(json.loads, wanted)), objects(AS_JSON, "check", path))


def of_datagrams(name: str, path: str) -> Iterator[Case]:
    """The cases of a file of datagrams: each message, and each verdict."""
    shown = objects(RTNL, "show", "--format", "json", path)
    yield f"messages of {name}", show(path, shown)
    yield f"verdicts of {name}", verdicts(path)


def of_recording(path: str) -> Iterator[Case]:
    name, ids = os.path.relpath(path, ROOT), [str(it) for it in ids_of(path)]
    shown = objects(RTNL, "show", "--format", "json", path)
    for family in VIEWS:
        yield f"table {family} of {name}", table(path, family, ids)
        yield f"stream {family} of {name}", stream(path, family, ids, shown)
    yield from of_datagrams(name, path)


def made() -> Iterator[Tuple[str, List[bytes]]]:
    """Datagrams that are no recordings."""
    yield from datagrams.groups("<")
    yield from datagrams.mutated_groups("<")
    yield from (it for it in datagrams.hostile("<") if it[1])


def cases() -> Iterator[Case]:
    for folder in ("examples", "tests/data/recordings"):
        for path in sorted(glob.glob(f"{ROOT}/{folder}/*.hex")):
            yield from of_recording(path)
    for name in ("broken", "whole"):
        yield from of_datagrams(f"measure/{name}.hex", f"{ROOT}/measure/{name}.hex")
    if "RTNL_DATAGRAMS" in os.environ:
        yield from of_datagrams("cases of the program", os.environ["RTNL_DATAGRAMS"])
    for name, found in made():
        with tempfile.NamedTemporaryFile("w", suffix=".hex") as file:
            file.writelines(f"{it.hex()}\n" for it in found)
            file.flush()
            yield from of_datagrams(f"{name} datagrams", file.name)


if __name__ == "__main__":
    whole("19 of 20 mutations, and of what is made at random")
    sys.exit(counted(cases()))
