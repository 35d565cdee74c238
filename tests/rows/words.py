"""The rows of a table: calls, their words and their input; rows `bytes NAME` name parts of it."""
import re
from typing import Dict, Iterator, List, NamedTuple, Optional, Tuple

from flat import Asked, Wrong

ORDERS = "little", "big"
FAMILIES = "link", "addr", "route", "neigh", "rule"
CONTEXTS = "link", "linkinfo", "addr", "route", "metrics", "neigh", "rule", "plain"
REASONS = "cut", "bad-length", "short-body", "too-long", "too-deep"
# The standard limits, by docs/FORMAT.md.
DEPTH = 8
LIMITS = {"depth": DEPTH, "datagram": 65536, "total": 1 << 30, "entries": 4096}
RANGES = {"u8": (0, 1 << 8), "u16": (0, 1 << 16), "u32": (0, 1 << 32), "u64": (0, 1 << 63),
          "i32": (-1 << 31, 1 << 31)}


def number_in(word: str, kind: str = "u32") -> int:
    """The number that a word is, in decimals or behind 0x, where it is one of this type; for one
    below 0 that with the same bits."""
    try:
        number = int(word, 16 if word.startswith("0x") else 10)
    except ValueError:
        raise Wrong(f"no number: {word}") from None
    least, end = RANGES[kind]
    if not least <= number < end:
        raise Wrong(f"no {kind}: {word}")
    return number % (1 << 32) if kind == "i32" else number


class Words:
    """The words of a row or a step, read from the first to the last."""

    def __init__(self, text: str) -> None:
        self.left = text.split()

    def word(self) -> str:
        if not self.left:
            raise Wrong("a word is missing")
        return self.left.pop(0)

    def has(self, word: str) -> bool:
        """Whether the next word is this one, which is then behind."""
        is_next = self.left[:1] == [word]
        del self.left[:is_next]
        return is_next

    def number(self, kind: str = "u32") -> int:
        return number_in(self.word(), kind)

    def number_of(self, key: str, otherwise: int, kind: str = "u32") -> int:
        """The number behind this word, where it is the next; else this one."""
        return self.number(kind) if self.has(key) else otherwise

    def one_of(self, names: Tuple[str, ...]) -> int:
        """The number of a name."""
        word = self.word()
        if word not in names:
            raise Wrong(f"a word that may not stand there: {word}")
        return names.index(word)

    def twin(self) -> int:
        """1 or 2 for a byte order that is named, else 0."""
        return 1 + self.one_of(ORDERS) if self.left[:1] and self.left[0] in ORDERS else 0

    def order(self) -> int:
        return self.twin() or 1

    def flags(self) -> List[int]:
        return [int(self.has("nested")), int(self.has("net"))]

    def depth(self) -> int:
        return self.number_of("depth", DEPTH, "u8")

    def limits(self, **standard: int) -> List[int]:
        """The byte order, and each limit that is named, in this order, or the standard one."""
        kinds = {"depth": "u8", "total": "u64"}
        order = self.order()
        return [order, *(self.number_of(it, standard.get(it, LIMITS[it]), kinds.get(it, "u32"))
                         for it in LIMITS)]

    def dump(self) -> List[int]:
        """`KIND FAMILY SEQ PORT`."""
        return [self.one_of(FAMILIES), self.number("u8"), self.number(), self.number()]

    def end(self) -> None:
        if self.left:
            raise Wrong(f"a word too many: {self.left[0]}")


class Bytes(Dict[str, bytes]):
    """Bytes by their names."""

    def part(self, word: str) -> bytes:
        """`NAME`, or `NAME:FROM..END` for a part."""
        found = re.fullmatch(r"(\w+)(?::(\d*)\.\.(\d*))?", word)
        if not found or found[1] not in self:
            raise Wrong(f"no bytes of this name: {word}")
        whole = self[found[1]]
        start, end = int(found[2] or 0), int(found[3] or len(whole))
        if not start <= end <= len(whole):
            raise Wrong(f"no such range: {word}")
        return whole[start:end]

    def word(self, word: str) -> bytes:
        if word[0].isupper():
            return self.part(word)
        digits, _, count = word.partition("*")
        try:
            return bytes.fromhex(digits) * int(count or 1)
        except ValueError:
            raise Wrong(f"no hexadecimal text: {word}") from None

    def line(self, line: str) -> bytes:
        """The bytes of the words of a line."""
        return b"".join(map(self.word, line.split()))


class Row(NamedTuple):
    """A row: its call, its words, and the lines of its input."""

    call: str
    words: Words
    lines: List[str]
    names: Bytes

    def bytes(self) -> bytes:
        """The bytes of all lines."""
        return b"".join(map(self.names.line, self.lines))

    def each(self) -> List[bytes]:
        """The bytes of each line."""
        return [*map(self.names.line, self.lines)]

    def two(self) -> List[bytes]:
        if len(self.lines) != 2:
            raise Wrong("not two lines")
        return self.each()

    def text(self) -> bytes:
        """The lines as a text, each with its end: a recording."""
        return "".join(f"{it}\n" for it in self.lines).encode()


class Block(NamedTuple):
    """Lines of a table: those of a row with its input, or others. Answers are left out."""

    lines: List[str]
    is_row: bool


def blocks(table: str) -> Iterator[Block]:
    """A row begins with a letter, its input with two blanks, and its answer with `=`."""
    block: Optional[Block] = None
    for line in table.splitlines():
        if line.startswith("="):
            continue
        if line.startswith("  ") and block:
            block.lines.append(line)
            continue
        if block:
            yield block
        block = Block([line], line[:1].isalpha())
    if block:
        yield block


def row_of(block: Block, names: Bytes) -> Optional[Row]:
    """The row of these lines; none where it names bytes, which then stand among the others."""
    words = Words(block.lines[0])
    lines = [it[2:] for it in block.lines[1:]]
    row = Row(words.word(), words, lines, names)
    if row.call != "bytes":
        return row
    name = words.word()
    words.end()
    if not name[0].isupper() or name in names:
        raise Wrong(f"no name, or one that is taken: {name}")
    names[name] = row.bytes()
    return None


def asked_in(row: Row, asked: Asked, spec: str) -> Asked:
    """Asks what these names say, read of the row's words and input."""
    words = row.words
    for it in spec.split():
        if it.isdigit():
            asked.put(int(it))
        elif it in RANGES:
            asked.put(words.number(it))
        elif it in ("limits", "flags", "dump"):
            asked.put(*getattr(words, it)())
        elif it in ("twin", "order", "depth"):
            asked.put(getattr(words, it)())
        elif it in ("base", "level"):
            asked.put(words.number_of(it, 0))
        elif it in NAMES:
            asked.put(words.one_of(NAMES[it]))
        elif it == "two":
            asked.data(*row.two())
        else:
            asked.data(getattr(row, it)())
    return asked


NAMES = {"family": FAMILIES, "context": CONTEXTS, "reason": REASONS}
