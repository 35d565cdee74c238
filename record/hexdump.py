"""Dumps in hexadecimal, with the offset in front of each row, and with the text beside it or
without: of xxd, hexdump -C, Wireshark's "copy as hex dump", tshark -x and Go's hex.Dump. Offset 0
begins a new datagram. The numbers of two bytes that hexdump prints without -C are taken with their
lowest byte first."""
import io
import re
from typing import BinaryIO, Iterator, NamedTuple, Optional, Tuple

import cooked
from output import LONGEST, Damaged, Item
from source import Source, lines

# None of these repeats more than a set of signs, since a repeated group would keep each turn.
# The offset of a row; hexdump alone has one of seven digits, and numbers of two bytes behind it.
OFFSET = re.compile(r"\s*([0-9A-Fa-f]{4,16}):?(?:\s+|$)")
OF_NUMBERS = re.compile(r"\s*([0-9A-Fa-f]{7})([0-9A-Fa-f ]*)")
PAIRS = re.compile(r"[0-9A-Fa-f]+[0-9A-Fa-f ]*")
GAP = re.compile(r"  +")
# The widths of eight bytes, and of a number with its blank.
HALF, NUMBER = 23, 5
# A row of this sign stands for rows that are the same as the one before: for so many bytes at most
# in all, since a few signs could stand for any number.
SAME = "*"
MOST_SAME = 1 << 24


class Row(NamedTuple):
    place: int
    data: bytes
    are_numbers: bool = False


def is_text_of(text: str, data: bytes) -> bool:
    """Whether the text beside a row is that of its bytes: any sign for what isn't printable."""
    if len(text) == len(data) + 2 and text[0] == text[-1] == "|":
        text = text[1:-1]
    else:
        begin = len(data) - len(data.lstrip(b" "))
        text, data = text.strip(" "), data[begin:].rstrip(b" ")
    return len(text) == len(data) and all(
        not 32 <= byte < 127 or sign == chr(byte) for sign, byte in zip(text, data))


def is_beside(line: str, begin: int, end: int, data: bytes) -> bool:
    """Whether the text of these bytes stands there. A long one is none, and isn't copied."""
    return end - begin <= len(data) + len("||") and is_text_of(line[begin:end], data)


def bytes_of(digits: str) -> Optional[bytes]:
    """The bytes of groups of pairs with one blank between them, where they are that."""
    if not PAIRS.fullmatch(digits) or "  " in digits or digits.endswith(" "):
        return None
    try:
        return bytes.fromhex(digits)
    except ValueError:
        return None


def readings(line: str, begin: int, end: int) -> Iterator[Tuple[str, int]]:
    """The digits of a row, and where the text beside them begins, which are told apart by a gap.
    There may be another gap behind the first eight bytes."""
    gaps = [it.span() for it, _ in zip(GAP.finditer(line, begin, end), range(2))]
    if not gaps:
        yield line[begin:end], end
        return
    first, behind = gaps[0]
    yield line[begin:first], behind
    if first == begin + HALF:
        last, text = gaps[1] if len(gaps) > 1 else (end, end)
        yield f"{line[begin:first]} {line[behind:last]}", text


def numbers_of(line: str) -> Optional[Row]:
    """The row of a line of hexdump, where it is one."""
    found = OF_NUMBERS.fullmatch(line)
    if not found:
        return None
    numbers = found[2].rstrip(" ")
    count, rest = divmod(len(numbers), NUMBER)
    if rest or numbers.count(" ") != count or numbers[::NUMBER].strip(" "):
        return None
    data = bytearray.fromhex(numbers)
    data[::2], data[1::2] = data[1::2], data[::2]
    return Row(int(found[1], 16), bytes(data), True)


def row_of(line: str) -> Optional[Row]:
    """The row of a line, where it is one. No part of a long line is taken before it is needed."""
    found = numbers_of(line)
    if found:
        return found
    offset = OFFSET.match(line)
    if not offset:
        return None
    place, begin, end = int(offset[1], 16), offset.end(), len(line.rstrip(" "))
    if begin >= end:
        return Row(place, b"")
    for digits, text in readings(line, begin, end):
        data = bytes_of(digits)
        if data and (text == end or is_beside(line, text, end, data)):
            return Row(place, data)
    return None


class Dump:
    """The rows of one datagram after another."""

    def __init__(self, is_cooked: bool) -> None:
        self.is_cooked, self.packets = is_cooked, cooked.Packets()
        self.begin, self.data, self.last, self.repeats = 0, bytearray(), b"", False
        self.same = 0

    def line(self, number: int, text: str) -> Iterator[Item]:
        """Takes a line, which may end the datagram before it."""
        row = row_of(text)
        if text.strip() == SAME and self.last and not self.repeats:
            self.repeats = True
        elif not row:
            raise Damaged(f"line {number}: no row of a hexadecimal dump")
        elif row.place == 0:
            yield from self.end(number)
            self.begin, self.data = number, bytearray()
            self.take(row.data, number)
        elif self.is_odd_end(row):
            self.data.pop()
        else:
            self.repeat(row.place, number)
            if not self.begin or row.place != len(self.data):
                raise Damaged(f"line {number}: offset {row.place:x} does not follow on "
                              f"{len(self.data)} bytes")
            self.take(row.data, number)

    def is_odd_end(self, row: Row) -> bool:
        """Whether it ends the datagram within its last number, of which one byte is there."""
        is_end = row.are_numbers and not row.data and row.place == len(self.data) - 1
        return is_end and not self.repeats and self.data[-1] == 0

    def repeat(self, place: int, number: int) -> None:
        """Puts the rows that are left out in front of the place."""
        missing = place - len(self.data)
        if not self.repeats:
            return
        if missing <= 0 or missing % len(self.last) or place > LONGEST:
            raise Damaged(f"line {number}: no rows like the last one lead to offset {place:x}")
        self.same += missing
        if self.same > MOST_SAME:
            raise Damaged(f"line {number}: rows left out for more than {MOST_SAME} bytes in all")
        self.data += self.last * (missing // len(self.last))
        self.repeats = False

    def take(self, data: bytes, number: int) -> None:
        self.last = data
        self.data += data
        if len(self.data) > LONGEST:
            raise Damaged(f"line {number}: a datagram above {LONGEST} bytes")

    def end(self, number: int) -> Iterator[Item]:
        """The datagram up to the line of this number."""
        if self.repeats:
            raise Damaged(f"line {number}: no row behind the {SAME}")
        data = bytes(self.data)
        if not data:
            return
        if self.is_cooked:
            source = Source(io.BytesIO(data))
            yield from self.packets.items(source, f"line {self.begin}", cooked.NETLINK, len(data),
                                          len(data))
        else:
            yield data


def found(dump: Dump, file: BinaryIO) -> Iterator[Item]:
    number = 0
    for number, text in lines(file, "utf-8"):
        if text.strip() and not text.startswith("#"):
            yield from dump.line(number, text)
        # It isn't kept while the next one is read.
        del text
    yield from dump.end(number + 1)


def items(file: BinaryIO, is_cooked: bool = False) -> Iterator[Item]:
    """Each datagram; if it is cooked, without the 16 bytes that nlmon puts in front."""
    dump = Dump(is_cooked)
    yield from dump.packets.counted(found(dump, file))
