#!/usr/bin/env python3
"""Compares the rows of format/ with the kernel's headers, by the C compiler: numbers, the places,
sizes and signs of fields, and that no attribute is left out; with the YNL files of Debian's
linux-source-6.12, where that is installed, and in the whole gate, which installs it, with its
headers too; with one another; with what format/write.py writes from them; and with the tables of
crates/nl_values, which are read as the program does. Then it changes files that the script writes,
and tries rows that are wrong. The last line is 'N passed, M failed', and the status is 1 where one
differs.
"""
import importlib.util
import os
import re
import subprocess
import sys
import tempfile
from typing import Any, Dict, Iterator, List, NamedTuple, Optional, Tuple

sys.dont_write_bytecode = True
TESTS = os.path.dirname(os.path.realpath(__file__))
sys.path[:0] = [f"{TESTS}/../format", f"{TESTS}/helpers", TESTS]
import headers
import rows
import tables
import write
from counting import IS_WHOLE, counted, whole
from named import SIZES, Blocks
from rows import Block, Row

Case = Tuple[str, List[str]]
SOURCE = "/usr/src/linux-source-6.12.tar.xz"
# The Python of Debian, to which its package for YAML belongs.
DEBIAN, YAML = "/usr/bin/python3", "/usr/lib/python3/dist-packages/yaml"
SPECS = ("rt_link", "rt_addr", "rt_route", "tc")
# Under these keys a row names another block.
KEYS = "struct nested-attributes sub-message enum bits set head request class".split()
BIG = "byte-order=big-endian"
# The words of YNL, in its order, that are compared.
YNL = """byte-order min-len max-len max len sub-type struct nested-attributes sub-message selector
enum enum-as-flags display-hint multi-attr""".split()


class Claim(NamedTuple):
    """What the compiler is asked of a row, and the names without which it can't be."""

    name: str
    says: str
    needs: List[str]


def of_field(struct: str, row: Row) -> Claim:
    field, size = f"((struct {struct} *)0)->{row.name}", row.said("len") or SIZES.get(row.words[0])
    says = [f"offsetof(struct {struct}, {row.name}) == {row.value}"]
    says += [f"sizeof({field}) == {size}"] if size else []
    # A number with a length stands there as bytes, which have no sign.
    if row.words[0] in SIZES and not row.said("len"):
        says.append(f"((__typeof__({field}))-1 < 0) == {int(row.words[0].startswith('s'))}")
    return Claim(f"{struct}.{row.name}", " && ".join(says), [struct, *row.name.split(".")])


def claims(blocks: Blocks, is_later: bool) -> Iterator[Claim]:
    """What rows say of these headers. Fields of bits, with a + in their name, have no place."""
    for block in blocks.values():
        struct, is_new = block.name.replace("-", "_"), "since" in block.said and not is_later
        kept = [it for it in block.rows if is_later or not it.said("since")]
        if block.sort == "struct":
            yield from (of_field(struct, it) for it in kept if "+" not in it.name)
            if not is_new:
                yield Claim(struct, f"sizeof(struct {struct}) == {block.said['size']}", [struct])
        elif block.sort != "sub-message":
            call = "__builtin_bswap16" if "byte-order" in block.said else ""
            for it in kept:
                yield Claim(it.name, f"{call}({it.name}) == {it.value}", [it.name])


class Headers:
    """The headers that rows name: those of the system, or of Linux 6.12 in a folder."""

    def __init__(self, blocks: Blocks, folder: str = "") -> None:
        named = {it.said["header"] for it in blocks.values() if "header" in it.said}
        self.folder = folder
        self.options = [f"-I{folder}/none", f"-I{folder}/include/uapi"] if folder else []
        self.includes = ["#define BIT(at) (1U << (at))", "#include <stddef.h>"]
        for name in ("sys/socket.h", "linux/if_ether.h", "linux/in6.h", *sorted(named)):
            self.includes += [f"#if __has_include(<{name}>)", f"#include <{name}>", "#endif"]
        text = subprocess.run(
            ["cc", *self.options, "-E", "-dD", "-x", "c", "-"], input="\n".join(self.includes),
            capture_output=True, text=True, check=True).stdout
        self.words = set(re.findall(r"\w+", text))
        # The numbers of errors stand in no enum, but in two headers that define nothing else.
        files = re.split(r'^# \d+ "([^"]*)".*$', text, flags=re.M)
        named_files = zip(files[1::2], files[2::2])
        errors = "".join(of for path, of in named_files if "generic/errno" in path)
        text = re.sub(r"^#.*$", "", text, flags=re.M)
        enums = re.findall(r"\benum\b[^;{}]*\{(.*?)\}", text, re.S)
        self.enums = [re.findall(r"(?:^|,)\s*(\w+)", it) for it in enums]
        self.enums.append(re.findall(r"^#define (E\w+) \w+$", errors, re.M))

    def left_out(self, block: Block) -> Iterator[Claim]:
        """That what else is in the enum of a block marks its begin or end, or is newer than 6.12,
        and that a field that isn't there is behind the struct."""
        struct = block.name.replace("-", "_")
        if block.sort == "struct" and struct in self.words:
            for it in (it for it in block.rows if not it.said("since") or self.folder):
                if not self.words.issuperset(re.split(r"\W", it.name)):
                    says = f"sizeof(struct {struct}) <= {it.value}"
                    yield Claim(f"{struct}.{it.name}", says, [])
        if block.sort in ("struct", "sub-message") or "part" in block.said:
            return
        named = {name: it.number for it in block.rows for name in (it.name, it.said("alias"))}
        enum: List[str] = next((it for it in self.enums if named.keys() & set(it)), [])
        last = max((named[it] for it in enum if it in named), default=0)
        for name in (it for it in enum if it not in named and not it.startswith("__")):
            is_end = f"{name} {'==' if block.sort == 'set' else '>='} {last}"
            says = is_end if name.endswith("_MAX") else f"{name} <= 0"
            says += "" if self.folder else f" || {name} > {last}"
            yield Claim(f"{block.name} without {name}", says, [name])

    def cases(self, blocks: Blocks) -> Iterator[Case]:
        found = list(claims(blocks, bool(self.folder)))
        known = [it for it in found if self.words.issuperset(it.needs)]
        asked = known + [it for block in blocks.values() for it in self.left_out(block)]
        wrong = headers.refused([it.says for it in asked], self.includes, self.options)
        for at, it in enumerate(asked):
            yield it.name, ["not so there"] if at in wrong else []
        if self.folder:
            later = {it.name for of in blocks.values() for it in of.rows if "later" in it.words}
            missing = {it.name for it in found} - {it.name for it in known}
            yield "later than 6.12", sorted(missing ^ later)


def unpacked(folder: str, *paths: str, is_first: bool = False) -> bool:
    """Unpacks a part of the kernel's source, as far as its first of each; whether that is here."""
    if not os.path.exists(SOURCE):
        print(f"left out: {SOURCE} isn't here", file=sys.stderr)
        return False
    options = ["--strip-components=1", *["--occurrence=1"] * is_first, "-xJf", SOURCE]
    paths = tuple(f"linux-source-6.12/{it}" for it in paths)
    subprocess.run(["tar", "-C", folder, *options, *paths], check=True)
    return True


def with_source() -> None:
    """Installs the kernel's source and a reader of YAML, where these are missing. A Python that
    has the reader goes on."""
    has_yaml = bool(importlib.util.find_spec("yaml"))
    wanted = [SOURCE, "linux-source-6.12", *([] if has_yaml else [YAML, "python3-yaml"])]
    subprocess.run([f"{TESTS}/helpers/install_packages.sh", *wanted], check=False)
    is_other = os.path.realpath(sys.executable) != os.path.realpath(DEBIAN)
    if not has_yaml and is_other and os.path.exists(YAML):
        os.execv(DEBIAN, [DEBIAN, *sys.argv])
    importlib.invalidate_caches()


def plain_header(folder: str, name: str) -> None:
    """Puts what a header of the kernel's own says of numbers where the compiler finds it, without
    its code, which isn't for programs."""
    with open(f"{folder}/include/{name}", encoding="utf-8") as file:
        text = file.read()
    kept = re.findall(r"^#define \w+[ \t(](?:[^\n]*\\\n)*[^\n]*$", text, re.M)
    enums = re.findall(r"^(?:typedef )?enum\b[^{;]*{([^}]*)}", text, re.M)
    kept += (f"enum {{{it}}};" for it in enums)
    os.makedirs(os.path.dirname(f"{folder}/none/{name}"), exist_ok=True)
    with open(f"{folder}/none/{name}", "w", encoding="utf-8") as file:
        file.write("\n".join(kept) + "\n")


def kernel_headers(blocks: Blocks, folder: str) -> bool:
    """Unpacks the headers of Linux 6.12 that rows name; whether they are here."""
    own = {it.said["header"] for it in blocks.values() if it.said.get("header", "")[:4] == "net/"}
    if not unpacked(folder, "include/uapi", *(f"include/{it}" for it in sorted(own))):
        return False
    os.makedirs(f"{folder}/none/linux")
    for name in ("compiler", "compiler_types"):
        with open(f"{folder}/none/linux/{name}.h", "w", encoding="utf-8") as file:
            file.write("#define __user\n#define __force\n#define __counted_by(member)\n")
    for name in own:
        plain_header(folder, name)
    return True


def ynl(folder: str) -> List[Any]:
    """The files of YNL, where they are."""
    paths = [f"Documentation/netlink/specs/{it}.yaml" for it in SPECS]
    if not importlib.util.find_spec("yaml"):
        print("left out: YNL, for which python3-yaml isn't here", file=sys.stderr)
        return []
    if not unpacked(folder, *paths, is_first=True):
        return []
    yaml: Any = importlib.import_module("yaml")
    loader = getattr(yaml, "CSafeLoader", yaml.SafeLoader)
    return [yaml.load(open(f"{folder}/{it}", "rb"), loader) for it in paths]


def words_of(it: Dict[str, Any], kernel: Dict[str, str]) -> List[str]:
    """What YNL says of an attribute or a field, in the words of rows."""
    values = {**it, **it.get("checks", {})}
    if "selector" in it:
        values["selector"] = kernel.get(it["selector"], "TCA_KIND")
    found = [it for it in YNL if it in values]
    return [it["type"], *(key if values[key] is True else f"{key}={values[key]}" for key in found)]


def numbered(items: List[Any], number: int) -> Dict[int, Any]:
    """Items by their values, each one more than the one before where it has none."""
    found: Dict[int, Any] = {}
    for it in items:
        number = it.get("value", number) if isinstance(it, dict) else number
        found[number] = it
        number += 1
    return found


Said = Tuple[str, Optional[Row], Optional[List[str]]]


def side_by_side(name: str, ours: Dict[Any, Row], said: Dict[Any, List[str]]) -> Iterator[Said]:
    """Rows and what YNL says, by what both have for a key. A row may be later than these files."""
    for at in {*ours, *said}:
        row, words = ours.get(at), said.get(at)
        if (row or words != ["unused"]) and not (row and "later" in row.words):
            yield f"{name} {at}", row, words


def in_sets(spec: Dict[str, Any], blocks: Blocks) -> Iterator[Said]:
    for it in (it for it in spec["attribute-sets"] if it["attributes"] and "subset-of" not in it):
        ours = {row.number: row for row in blocks[it["name"]].rows}
        said = numbered(it["attributes"], 1)
        kernel = {said[at]["name"]: row.name for at, row in ours.items() if at in said}
        words = {at: words_of(attribute, kernel) for at, attribute in said.items()}
        yield from side_by_side(it["name"], ours, words)


def in_definitions(spec: Dict[str, Any], blocks: Blocks) -> Iterator[Said]:
    """Fields in their order but for padding, and values. Of tc-gen there is no struct in C."""
    for it in (it for it in spec["definitions"] if it["name"] != "tc-gen"):
        block = blocks[it["name"]]
        if block.sort == "struct":
            fields = [row for row in block.rows if row.words[0] != "pad"]
            members = [words_of(of, {}) for of in it["members"] if of["type"] != "pad"]
            yield from side_by_side(block.name, dict(enumerate(fields)), dict(enumerate(members)))
        elif it["type"] != "struct":
            ours = {row.number: row for row in block.rows}
            for at in numbered(it["entries"], 0):
                value = 1 << at if it["type"] == "flags" else at
                yield f"{block.name} {value}", ours.get(value), []


def in_messages(spec: Dict[str, Any], blocks: Blocks) -> Iterator[Said]:
    for it in spec.get("sub-messages", []):
        words: Dict[str, List[str]] = {}
        for of in it["formats"]:
            keys = {"struct": of.get("fixed-header"), "set": of.get("attribute-set")}
            words[of["value"]] = [f"{key}={keys[key]}" for key in keys if keys[key]] or ["none"]
        by_kind = {row.name: row for row in blocks[it["name"]].rows}
        yield from side_by_side(it["name"], by_kind, words)
    ours, operations = {row.number: row for row in blocks["families"].rows}, spec["operations"]
    for it in operations["list"]:
        head = it.get("fixed-header") or operations.get("fixed-header")
        for number in (it[way]["request"]["value"] for way in ("do", "dump") if way in it):
            yield it["name"], ours.get(number), [f"head={head}", f"set={it['attribute-set']}"]


def of_ynl(specs: List[Any], blocks: Blocks) -> Iterator[Case]:
    """A row says what YNL says and maybe more, or it says behind ynl= what YNL does, - nothing."""
    for find in (in_sets, in_definitions, in_messages):
        for name, row, said in (it for spec in specs for it in find(spec, blocks)):
            words = row.words if row else []
            is_said = said is not None and {*said} <= {*words} and (BIG in said) == (BIG in words)
            expected = None if is_said else "-" if said is None else ",".join(said)
            yield name, [] if row and row.said("ynl") == expected else [f"{row}, YNL: {said}"]


def gaps(block: Block) -> Iterator[str]:
    """The fields of a struct before which more is left out than aligns them."""
    end = 0
    for row in block.rows:
        size = int(row.said("len") or 0) or SIZES.get(row.words[0], 0)
        if row.number - end >= (size if size in (1, 2) else SIZES.get(row.words[0], 4)):
            yield row.name
        end = row.number + size
    if not 0 <= int(block.said["size"]) - end < 8:
        yield "the end"


def by_itself(blocks: Blocks) -> Iterator[Case]:
    """That what rows name is there, that all sets are reached, and that a name has one number."""
    numbers: Dict[str, int] = {}
    every = [(block, row) for block in blocks.values() for row in block.rows]
    reached = {row.said(key) for _, row in every for key in KEYS}
    for block, row in every:
        named = [it for it in map(row.said, KEYS) if it and it not in blocks]
        number = row.number if row.value and block.sort != "struct" else 0
        is_other = number != 0 and numbers.setdefault(row.name, number) != number
        yield row.name, [*(f"no block {it}" for it in named), *["two numbers"] * is_other]
    for block in blocks.values():
        if block.sort == "struct":
            yield block.name, [f"a gap before {it}" for it in gaps(block)]
        elif block.sort in ("set", "sub-message"):
            yield block.name, ["no row names it"] * (block.name not in reached)
        if block.sort == "sub-message" and "enum" in block.said:
            values = {row.name for it in block.said["enum"].split(",") for row in blocks[it].rows}
            yield block.name, sorted({row.name for row in block.rows} - values - {"*"})
        yield block.name, [] if block.rows else ["no rows"]


def of_written(blocks: Blocks) -> Iterator[Case]:
    """That each file is as format/write.py writes it."""
    for path, writes in write.writers(blocks).items():
        text = write.text_of(path)
        try:
            is_so = write.written(text, writes, blocks) == text
            yield path, [] if is_so else ["not what format/write.py writes"]
        except LookupError as error:
            yield path, [str(error)]


def of_changed(blocks: Blocks) -> Iterator[Case]:
    """That a changed file comes back, or has what is no row's, and that each file is tried."""
    writers = write.writers(blocks)
    untried = {path for part in write.PARTS for path in part.FILES}
    for line in lines_of("changed"):
        path, _, change = line.partition(": ")
        old, _, new = change.partition(" ->")
        text = write.text_of(path)
        other = text.replace(old, new[1:], 1)
        untried.discard(path)
        try:
            is_back = other != text and write.written(other, writers[path], blocks) == text
            yield line, [] if is_back else ["it stays so"]
        except LookupError:
            yield line, []
    yield "files with no change to try", sorted(untried)


def lines_of(name: str) -> List[str]:
    """The lines of a file of data but for comments."""
    with open(f"{TESTS}/data/format/{name}.txt", encoding="utf-8") as file:
        return [it for it in file.read().splitlines() if not it.startswith("#")]


def tried(line: str, blocks: Blocks, installed: Headers, specs: List[Any]) -> List[str]:
    """What is wrong where a wrong row is not found."""
    name, _, change = line.partition(": ")
    old, _, new = change.partition(" ->")
    block = blocks[name]
    texts = [" ".join([it.value, it.name, *it.words]).strip() for it in block.rows]
    changed = [it for it in (text.replace(old, new.strip()) for text in texts) if it]
    other = rows.block_of("\n".join([f"{block.sort} {name}", *changed]))._replace(said=block.said)
    if other == block:
        return ["no such row"]
    many = {**blocks, name: other}
    found = [*installed.cases({name: other}), *of_ynl(specs, many), *by_itself(many)]
    found += of_written(many)
    return [] if any(wrong for _, wrong in found) else ["not found"]


def main() -> int:
    if IS_WHOLE:
        with_source()
    blocks = rows.read()
    installed = Headers(blocks)
    cases = {"with the installed headers": list(installed.cases(blocks))}
    with tempfile.TemporaryDirectory() as folder:
        specs = ynl(folder)
        cases["with YNL"] = list(of_ynl(specs, blocks))
        if whole("rows and the headers of Linux 6.12") and kernel_headers(blocks, folder):
            cases["with the headers of Linux 6.12"] = list(Headers(blocks, folder).cases(blocks))
    cases["with one another"] = list(by_itself(blocks))
    cases["with what is written"] = list(of_written(blocks))
    folder = f"{TESTS}/../crates/nl_values/src/tables"
    cases["with the tables of nl_values"] = list(tables.cases(folder, blocks))
    cases["changed files"] = list(of_changed(blocks))
    wrong = lines_of("wrong") + (lines_of("wrong_by_ynl") if specs else [])
    cases["wrong rows"] = [(it, tried(it, blocks, installed, specs)) for it in wrong]
    for what, of in cases.items():
        print(f"{what}: {len(of)} compared, {sum(bool(it[1]) for it in of)} differ")
    return counted(it for of in cases.values() for it in of)


if __name__ == "__main__":
    sys.exit(main())
