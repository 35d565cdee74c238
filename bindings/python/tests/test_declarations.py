"""The structs, calls and numbers of the package are those of rtnlc.h, by the C compiler."""
import ctypes
import re
import unittest
from typing import Any, Dict, Iterator, List, Tuple

import shared
from rtnl import Code, Operation, State, _families, _heads, _library, _structs, dump, names, table
from rtnl._library import BUILDER, CHANGES, EVENTS, MIRROR, OPTIONS, SESSION, STREAM

HEADER = ["#include <stddef.h>", "#include <rtnlc.h>"]
SCALARS = {
    ctypes.c_uint8: "uint8_t",
    ctypes.c_uint16: "uint16_t",
    ctypes.c_uint32: "uint32_t",
    ctypes.c_uint64: "uint64_t",
    ctypes.c_int32: "int32_t",
    ctypes.c_size_t: "size_t",
    ctypes.c_bool: "bool",
    ctypes.c_void_p: "void *",
    ctypes.c_char_p: "const char *",
    ctypes.POINTER(ctypes.c_uint8): "uint8_t *",
    None: "void",
    _library.Bytes: "const uint8_t *",
    _library.Room: "uint8_t *",
    _library.Text: "char *",
    _library.Data: "const void *",
    _library.ReadText: "const char *",
    OPTIONS: "const struct rtnlc_options *",
    EVENTS: "struct rtnlc_event *",
    SESSION: "struct rtnlc_session *",
    MIRROR: "struct rtnlc_mirror *",
    CHANGES: "struct rtnlc_change *",
    STREAM: "struct rtnlc_stream *",
    BUILDER: "struct rtnlc_builder *",
    _structs.Data: "const void *",
}
# These calls only read what they have for their first argument.
READS = {"rtnlc_stream_status", "rtnlc_builder_finish"}
CONTEXTS = "NO_CONTEXT LINK LINK_INFO ADDR ROUTE METRICS NEIGH RULE PLAIN".split()
SORTS = "MESSAGE BYTES LIST HOPS NEXT_HOP".split()


def name_of(kind: type) -> str:
    """The name of a struct in C."""
    return "rtnlc_" + re.sub("(?<=.)(?=[A-Z])", "_", kind.__name__).lower()


def structs() -> Dict[str, Any]:
    """Each struct, by its name in C."""
    kinds = [it for it in vars(_structs).values() if isinstance(it, type)]
    found = [it for it in kinds if issubclass(it, ctypes.Structure) and it is not ctypes.Structure]
    return {name_of(it): it for it in found}


def in_c(kind: Any) -> str:
    """A type in C. `uint64_t` and `size_t` are one class of ctypes. What a pointer leads to that
    isn't among the SCALARS is only read."""
    if kind in SCALARS:
        return SCALARS[kind]
    if issubclass(kind, ctypes.Structure):
        return f"struct {name_of(kind)}"
    if issubclass(kind, ctypes.Array):
        return f"{in_c(kind._type_)}[{kind._length_}]"
    return f"const {in_c(kind._type_)} *"


def of_fields() -> Iterator[str]:
    for name, kind in structs().items():
        yield f"sizeof(struct {name}) == {ctypes.sizeof(kind)}"
        yield f"_Alignof(struct {name}) == {ctypes.alignment(kind)}"
        for field, own in kind._fields_:
            place, size = getattr(kind, field).offset, ctypes.sizeof(own)
            member = f"((struct {name} *)0)->{field}"
            yield f"offsetof(struct {name}, {field}) == {place}"
            yield f"sizeof({member}) == {size}"
            yield f"__builtin_types_compatible_p(__typeof__({member}), {in_c(own)})"


def of_calls() -> Iterator[str]:
    for name, (result, arguments) in _library.CALLS.items():
        words = [in_c(it) for it in arguments]
        if name in READS:
            words = [f"const {it}" for it in words]
        kind = f"{in_c(result)} ({', '.join(words)})"
        yield f"__builtin_types_compatible_p(__typeof__({name}), {kind})"


def of_numbers() -> Iterator[str]:
    rows: List[Tuple[str, int]] = [(it.name, it.value) for it in [*Code, *State]]
    rows += [(name, getattr(_families, name)) for name in CONTEXTS]
    rows += [(name, getattr(_heads, name)) for name in SORTS]
    rows += [("REQUEST", dump.REQUEST), ("NAME", names.LONGEST)]
    rows += [(it.name, it.value) for it in Operation]
    yield from (f"RTNLC_{name} == {number}" for name, number in rows)


class Declarations(unittest.TestCase):
    def test_the_probe_finds_a_wrong_claim(self) -> None:
        wrong = shared.false_in_c(HEADER, ["RTNLC_OK == 0", "RTNLC_CUT == 2", "RTNLC_END == 255"])
        self.assertEqual(wrong, ['_Static_assert(RTNLC_CUT == 2, "");'])

    def test_fields(self) -> None:
        self.assertEqual(shared.false_in_c(HEADER, list(of_fields())), [])

    def test_all_fields_of_each_struct(self) -> None:
        with open(f"{shared.include()}/rtnlc.h", encoding="utf-8") as file:
            text = file.read()
        for name, kind in structs().items():
            body = text.partition(f"struct {name} {{\n")[2].partition("\n};")[0]
            found = [it.strip().rstrip(";").rpartition(" ")[2] for it in fields_of(body)]
            plain = [it.lstrip("*").partition("[")[0] for it in found]
            self.assertEqual(plain, [it for it, _ in kind._fields_], name)

    def test_calls(self) -> None:
        self.assertEqual(shared.false_in_c(HEADER, list(of_calls())), [])

    def test_numbers(self) -> None:
        self.assertEqual(shared.false_in_c(HEADER, list(of_numbers())), [])

    def test_all_numbers_of_each_list(self) -> None:
        with open(f"{shared.include()}/rtnlc.h", encoding="utf-8") as file:
            text = file.read()
        for name, kind in (("code", Code), ("state", State), ("operation", Operation)):
            body = text.partition(f"enum rtnlc_{name} {{\n")[2].partition("};")[0]
            self.assertEqual(body.count(" = "), len(kind), name)

    def test_words_of_each_code(self) -> None:
        """The library has others for each, and none for a number that is no code."""
        words = {str(it) for it in Code}
        self.assertEqual(len(words), len(Code))
        self.assertIn("no mirror", words)
        unknown: bytes = _library.LIBRARY.rtnlc_code_name(26)
        self.assertNotIn(unknown.decode(), words)

    def test_events_as_the_module_struct_reads_them(self) -> None:
        event = _structs.Event(1, 2, 3, 4, 1, True, False)
        self.assertEqual(_structs.EVENT.size, ctypes.sizeof(event))
        self.assertEqual(_structs.EVENT.unpack(bytes(event)), (1, 2, 3, 4, 1, True, False))

    def test_limits(self) -> None:
        claims = [
            f"RTNLC_STANDARD_{name.upper()} == {value}" for name, value in standard().items()
        ]
        claims += [f'sizeof RTNLC_VERSION == {len("0.3.0") + 1}', f"{table.LARGEST} == 1048576"]
        self.assertEqual(shared.false_in_c(HEADER, claims), [])


def standard() -> Dict[str, int]:
    """The limits that hold where none are handed in."""
    from rtnl import Limits

    limits = Limits()
    return {name: getattr(limits, name) for name in ("total", "datagram", "entries", "depth")}


def fields_of(body: str) -> Iterator[str]:
    """The fields of a struct in C, one by one, without comments."""
    plain = re.sub(r"/\*.*?\*/", "", body, flags=re.S)
    for line in filter(str.strip, plain.split(";")):
        yield from line.split(",")


if __name__ == "__main__":
    unittest.main()
