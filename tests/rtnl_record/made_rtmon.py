"""Files of rtmon: messages as rtmon.c writes them, each aligned, behind times of type 15, which it
writes once before a dump, and before each message later."""
import struct
from typing import Iterator

from case import ONE, TWO, Case, said


def message(kind: int, body: bytes, order: str = "<") -> bytes:
    length = 16 + len(body)
    return struct.pack(f"{order}IHHII", length, kind, 0, 0, 0) + body + bytes(-length % 4)


def moment(order: str = "<", part: int = 42) -> bytes:
    """1,700,000,000 seconds and some microseconds after 1970."""
    return message(15, struct.pack(f"{order}II", 1700000000, part), order)


def cases() -> Iterator[Case]:
    time, later = (f"# 2023-11-14T22:13:20.0000{it}Z received\n" for it in (42, 43))
    for order in "<>":
        odd = message(16, b"12345", order)
        yield Case(f"rtmon {order}", ["rtmon", "-"],
                   moment(order) + odd + odd + moment(order, 43) + odd + moment(order), 0,
                   f"{time}{odd.hex()}\n{time}{odd.hex()}\n{later}{odd.hex()}\n")
    # A type 15 of another size is no time; a first message that is none says nothing of the order.
    other = message(15, b"1234")
    yield Case("rtmon without a time", ["rtmon", "-"], other + ONE, 0,
               f"# received\n{other.hex()}\n# received\n{ONE.hex()}\n")
    yield Case("rtmon of nothing", ["rtmon", "-"], b"", 0, "")
    yield Case("rtmon of a strange time", ["rtmon", "-"],
               message(15, struct.pack("<II", 0xFFFFFFFF, 0xFFFFFFFF)) + ONE, 0,
               f"# 2106-02-07T07:39:49.967295Z received\n{ONE.hex()}\n")
    for name, capture, line in (
            ("half a header", TWO[:15], "the capture ends within the header of a message"),
            ("half a message", ONE[:-1], "the capture ends within a message of 20 bytes"),
            ("a message without its padding", message(16, b"1")[:-1],
             "the capture ends within a message of 17 bytes"),
            ("a short length", b"\x0f" + TWO[1:], "a message of 15 bytes"),
            ("a message of 4 GiB", b"\xff\xff\xff\xff" + TWO[4:], "a message of 4294967295 bytes"),
            ("no length", bytes(16), "a message of 0 bytes")):
        yield Case(f"rtmon: {name}", ["rtmon", "-"], moment() + ONE + capture, 1,
                   f"{time}{ONE.hex()}\n", said(f"byte 44: {line}"))
