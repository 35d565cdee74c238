"""The parts of a line of strace: whose call it is, and what the call's text says. Each takes time
and memory linear in the length of the line."""
import re
from typing import Iterator, NamedTuple, Optional, Tuple

from output import Damaged

# In front of a call stand the process, where there are many, and the time, where it was asked for.
TIME = re.compile(r"[0-9:.]+")
# A time since 1970 (-ttt): any other is one of a day, or since the call before.
ABSOLUTE = re.compile(r"([0-9]{9,12})\.([0-9]{1,9})")
CALL = re.compile(r"([a-z0-9_]+)\(|<\.\.\. ([a-z0-9_]+) resumed> ?")
# What stands at the end of a call that another process interrupts.
UNFINISHED = "<unfinished ...>"
ATTACHED = re.compile(r"strace: Process [0-9]+ attached")
SOCKET = re.compile(r"socket\(([^,)]*)(?:, [^,]*, ([^)]*))?")
DESCRIPTOR = re.compile(r"[a-z0-9_]+\(([0-9]+)(?:<NETLINK:\[(\w+))?")
BUFFER = r'("[^"]*"(?:\.\.\.)?|.)'
IN_VECTOR = re.compile(rf"iov_base={BUFFER}")
IN_ARGUMENT = re.compile(rf"[a-z0-9_]+\([0-9]+(?:<[^>]*>)?, *{BUFFER}")
# What stands in front of each byte in quotes, whose digits these are.
MARK, DIGITS = "\\x", re.compile(r"[0-9a-f]*")
# How many bytes a buffer has that isn't in a vector.
ROOM = re.compile(r", ([0-9]{1,19}), (?:0|MSG_[A-Z_|]+)(?:\)|, (?:NULL|\{|0x))")
# A number that a call answers; an error is none.
NUMBER = re.compile(r"[0-9]{1,19}")
ERROR = re.compile(r"-1 (E[A-Z]+)\b")
CUT = re.compile(r"msg_flags=(?:[A-Z_|]*\|)?MSG_TRUNC\b")


class Part(NamedTuple):
    """A call, or a part of one: the process, the time in microseconds, the call's name, its text,
    and whether it is the rest of a call that another line begins."""

    process: Optional[str]
    time: Optional[int]
    name: str
    text: str
    is_rest: bool


def microseconds(word: str) -> Optional[int]:
    """The time since 1970 that a word says, if it does."""
    found = ABSOLUTE.fullmatch(word)
    return int(f"{found[1]}{found[2][:6]:0<6}") if found else None


def front(line: str) -> Tuple[Optional[str], Optional[int], str]:
    """The process and the time that a line names, and what stands behind them."""
    process: Optional[str] = None
    time: Optional[int] = None
    if line.startswith("[pid "):
        inside, _, line = line[5:].partition("]")
        process = inside.strip(" ")
    for _ in range(2):
        line = line.lstrip(" ")
        word, _, rest = line.partition(" ")
        if not TIME.fullmatch(word):
            break
        process = word if process is None and word.isdecimal() else process
        time = microseconds(word) if time is None else time
        line = rest
    return process, time, line


def part_of(line: str) -> Optional[Part]:
    """The call of a line, where it has one."""
    process, time, text = front(line)
    found = CALL.match(text)
    if not found:
        return None
    is_rest = found[1] is None
    rest = text[found.end():] if is_rest else text
    return Part(process, time, found[1] or found[2], rest, is_rest)


def result_of(text: str) -> Optional[str]:
    """What the call answered that ends in this text, or nothing where it doesn't end there."""
    at = text.rfind(" = ")
    if at < 0 or not text[:at].rstrip(" ").endswith(")"):
        return None
    return text[at + 3:].partition(" ")[0].partition("<")[0]


def file_of(text: str) -> Optional[str]:
    """The number of the file that a call is of."""
    found = DESCRIPTOR.match(text)
    return found[1] if found else None


def error_of(text: str) -> Optional[str]:
    """The name of the error that the call answered which ends in this text."""
    found = ERROR.match(text, text.rfind(" = ") + 3)
    return found[1] if found else None


def unfinished(text: str) -> Optional[str]:
    """The text of a call that another line ends, or nothing where this one does."""
    text = text.rstrip(" ")
    if text.endswith(UNFINISHED):
        return text[:-len(UNFINISHED)].rstrip(" ")
    at = text.rfind("strace: Process ")
    return text[:at] if at >= 0 and ATTACHED.fullmatch(text, at) else None


def buffers(text: str) -> Iterator[str]:
    """The buffers that a call names, as they are printed."""
    if "iov_base=" in text:
        yield from (it[1] for it in IN_VECTOR.finditer(text))
        return
    found = IN_ARGUMENT.match(text)
    if found:
        yield found[1]


def has_quoted(text: str) -> bool:
    """Whether bytes stand in quotes in a call."""
    count = 0
    for count, it in enumerate(buffers(text), 1):
        if not it.startswith('"'):
            return False
    return count > 0


def quoted(text: str, number: int) -> bytes:
    """The bytes that stand in quotes in a call."""
    data = bytearray()
    for buffer in buffers(text):
        if buffer.endswith("..."):
            raise Damaged(f"line {number}: strace cut the bytes off; run it with -s 65536")
        inside = unmarked(buffer[1:-1])
        if inside is None:
            raise Damaged(f"line {number}: the bytes are not in hexadecimal; run strace with -xx")
        data += inside
    return bytes(data)


def unmarked(inside: str) -> Optional[bytes]:
    """The bytes of what stands in quotes, where all of it is in hexadecimal."""
    digits = inside.replace(MARK, "")
    are_marked = not any(inside[at::4].strip(sign) for at, sign in enumerate(MARK))
    is_whole = are_marked and 2 * len(digits) == len(inside) and DIGITS.fullmatch(digits)
    return bytes.fromhex(digits) if is_whole else None


def room_of(text: str) -> Optional[int]:
    """How many bytes the buffer has that isn't in a vector, where the call says so."""
    last = None
    for last in ROOM.finditer(text):
        pass
    return int(last[1]) if last else None
