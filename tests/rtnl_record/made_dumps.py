"""Dumps in hexadecimal, each as its program prints it."""
from typing import Iterator

from case import ONE, TWO, Case, said

# 40 bytes: two rows and a half. The text has letters that look like digits, and blanks.
LONG = bytes.fromhex(
    "28000000100000000200000000000000" "61622063642020666520313220207c7c" "203132332020207c")
FORMS = {
    "xxd": """\
00000000: 2800 0000 1000 0000 0200 0000 0000 0000  (...............
00000010: 6162 2063 6420 2066 6520 3132 2020 7c7c  ab cd  fe 12  ||
00000020: 2031 3233 2020 207c                       123   |
""",
    "xxd -g 1 -u": """\
00000000: 28 00 00 00 10 00 00 00 02 00 00 00 00 00 00 00  (...............
00000010: 61 62 20 63 64 20 20 66 65 20 31 32 20 20 7C 7C  ab cd  fe 12  ||
00000020: 20 31 32 33 20 20 20 7C                           123   |
""",
    "xxd -c 20": """\
00000000: 2800 0000 1000 0000 0200 0000 0000 0000 6162 2063  (...............ab c
00000014: 6420 2066 6520 3132 2020 7c7c 2031 3233 2020 207c  d  fe 12  || 123   |
""",
    "hexdump -C": """\
00000000  28 00 00 00 10 00 00 00  02 00 00 00 00 00 00 00  |(...............|
00000010  61 62 20 63 64 20 20 66  65 20 31 32 20 20 7c 7c  |ab cd  fe 12  |||
00000020  20 31 32 33 20 20 20 7c                           | 123   ||
00000028
""",
    # As hex.Dump: as hexdump -C, without a last offset.
    "Go": """\
00000000  28 00 00 00 10 00 00 00  02 00 00 00 00 00 00 00  |(...............|
00000010  61 62 20 63 64 20 20 66  65 20 31 32 20 20 7c 7c  |ab cd  fe 12  |||
00000020  20 31 32 33 20 20 20 7c                           | 123   ||
""",
    "Wireshark, as hex and ASCII dump": """\
0000   28 00 00 00 10 00 00 00 02 00 00 00 00 00 00 00   (...............
0010   61 62 20 63 64 20 20 66 65 20 31 32 20 20 7c 7c   ab cd  fe 12  ||
0020   20 31 32 33 20 20 20 7c                            123   |
""",
    "Wireshark, as hex dump": """\
0000   28 00 00 00 10 00 00 00 02 00 00 00 00 00 00 00
0010   61 62 20 63 64 20 20 66 65 20 31 32 20 20 7c 7c
0020   20 31 32 33 20 20 20 7c
""",
    "hexdump -C without its text": """\
00000000  28 00 00 00 10 00 00 00  02 00 00 00 00 00 00 00
00000010  61 62 20 63 64 20 20 66  65 20 31 32 20 20 7c 7c
00000020  20 31 32 33 20 20 20 7c
""",
    "hexdump": """\
0000000 0028 0000 0010 0000 0002 0000 0000 0000
0000010 6261 6320 2064 6620 2065 3231 2020 7c7c
0000020 3120 3332 2020 7c20
0000028
""",
    "hexdump, indented": """\
    0000000 0028 0000 0010 0000 0002 0000 0000 0000
    0000010 6261 6320 2064 6620 2065 3231 2020 7c7c
    0000020 3120 3332 2020 7c20
    0000028
""",
    "signs of other alphabets, and blanks that were stripped": """\
0000   28 00 00 00 10 00 00 00 02 00 00 00 00 00 00 00   (···············
0010   61 62 20 63 64 20 20 66 65 20 31 32 20 20 7c 7c   ab cd  fe 12  ||
0020   20 31 32 33 20 20 20 7c   123   |
""",
}
FIRST = "00000000: 1000 0000 0100 0000 0200 0000 0000 0000  ................\n"
ZEROS = "00000000  30 00 00 00 00 00 00 00  00 00 00 00 00 00 00 00  |0...............|\n"
ROW = "00000010  00 00 00 00 00 00 00 00  00 00 00 00 00 00 00 00  |................|\n"
NUMBERS = "0000000 0030 0000 0000 0000 0000 0000 0000 0000\n"
NO_ROW = "no row of a hexadecimal dump"


def dump(name: str, text: str, status: int, output: str, errors: str = "") -> Case:
    return Case(f"xxd: {name}", ["xxd"], text.encode(), status, output, errors)


def whole() -> Iterator[Case]:
    line = f"{LONG.hex()}\n"
    for name, text in FORMS.items():
        yield dump(name, text, 0, line)
        yield dump(f"{name}, twice", text + text, 0, line + line)
        ended = "# a comment\n\n" + text.replace("\n", "\r\n")
        yield dump(f"{name}, with comments and returns", ended, 0, line)
    yield dump("nothing", "", 0, "")
    yield dump("rows left out", f"{ZEROS}{ROW}*\n00000030\n", 0, f"30{'00' * 47}\n")
    yield dump("rows left out in the middle",
               f"{ZEROS}{ROW}*\n00000040  01                 |.|\n00000041\n", 0,
               f"30{'00' * 63}01\n")
    yield dump("hexdump, rows left out", f"{NUMBERS}{NUMBERS.replace('0000 0030', '0010 0000')}*\n"
               "0000030\n", 0, f"30{'00' * 47}\n")
    odd = f"0000010 0201 0003{' ' * 30}\n0000013\n"
    yield dump("hexdump of an odd number of bytes", NUMBERS + odd + NUMBERS + odd, 0,
               f"30{'00' * 15}010203\n" * 2)
    yield dump("the longest datagram", f"{ROW.replace('10', '00', 1)}*\n00100000\n", 0,
               "00" * (1 << 20) + "\n")
    packet = "0000   00 04 03 38 00 00 00 00 00 00 00 00 00 00 00 {:02x}   ...8............\n"
    rest = "0010   10 00 00 00 01 00 00 00 02 00 00 00 00 00 00 00   ................\n"
    both = (packet.format(0) + rest + packet.format(16) + rest).encode()
    yield Case("xxd --cooked", ["xxd", "--cooked"], both, 0, f"{TWO.hex()}\n",
               said("left out: 1 packet of netlink protocol 16"))
    yield Case("xxd --cooked, a short one", ["xxd", "--cooked", "-"],
               both + b"0000   00 04\n", 1, f"{TWO.hex()}\n",
               said("left out: 1 packet of netlink protocol 16",
                    "line 5: 2 bytes of a netlink packet of 2"))


def damaged() -> Iterator[Case]:
    line = f"{TWO.hex()}\n"
    for name, row in (
            ("a word", "some words"),
            ("plain digits", "3800000018000200010000003930000002180000fe0300010000000008000100"),
            ("an odd digit", "00000000: 123"),
            ("another text", "00000000: 6162 6364  abce"),
            ("a text that was cut", "00000000: 6162 6364 6566  abc"),
            ("digits for a text", "00000000: 6162 6364  61"),
            ("half a row", ZEROS[:62]),
            ("words of four bytes, exchanged", "00000000: 64636261  abcd"),
            ("no offset", "12 34 56"),
            ("a long offset", "00000000000000000: 12")):
        # Whether the first datagram has ended isn't known where the row is none.
        yield dump(name, f"{FIRST}{FIRST}{row}\n{FIRST}", 1, line, said(f"line 3: {NO_ROW}"))
    yield dump("no row behind the sign", f"{FIRST}{ZEROS}*\n", 1, line,
               said("line 4: no row behind the *"))
    yield dump("a datagram behind the sign", f"{FIRST}{ZEROS}*\n{FIRST}", 1, line,
               said("line 4: no row behind the *"))
    yield dump("two signs", f"{FIRST}{ZEROS}*\n*\n00000030\n", 1, line, said(f"line 4: {NO_ROW}"))
    for end in ("00000010", "00000018", "0000000f", "00100010", "ffffffffffffff00"):
        yield dump(f"rows up to {end}", f"{FIRST}{ZEROS}*\n{end}\n", 1, line,
                   said(f"line 4: no rows like the last one lead to offset {int(end, 16):x}"))
    zeros = f"{ROW.replace('10', '00', 1)}*\n00100000\n"
    yield dump("rows left out for more than 16 MiB", zeros * 17 + zeros * 9999, 1,
               ("00" * (1 << 20) + "\n") * 16,
               said("line 51: rows left out for more than 16777216 bytes in all"))
    yield dump("a row is missing", f"{FIRST}{ZEROS}{ROW.replace('10', '20', 1)}", 1, line,
               said("line 3: offset 20 does not follow on 16 bytes"))
    yield dump("a row stands twice", f"{FIRST}{ZEROS}{ROW}{ROW}", 1, line,
               said("line 4: offset 10 does not follow on 32 bytes"))
    yield dump("an offset too many", f"{FIRST}{ZEROS}00000020\n", 1, line,
               said("line 3: offset 20 does not follow on 16 bytes"))
    for end, number in (("0000013", "line 4: offset 13"), ("0000012", "line 4: offset 12"),
                        ("0000015", "line 4: offset 15")):
        yield dump(f"hexdump, whole numbers up to {end}",
                   f"{FIRST}{NUMBERS}0000010 0201 0403\n{end}\n", 1, line,
                   said(f"{number} does not follow on 20 bytes"))
    yield dump("an odd end of bytes", f"{FIRST}{FIRST}0000000f\n", 1, line,
               said("line 3: offset f does not follow on 16 bytes"))
    yield dump("no front", ROW, 1, "", said("line 1: offset 10 does not follow on 0 bytes"))
    yield dump("a datagram above 1 MiB", f"{FIRST}0000: {'00' * ((1 << 20) + 1)}\n", 1, line,
               said("line 2: a datagram above 1048576 bytes"))
    yield Case("xxd: a line above 16 MiB", ["xxd"], FIRST.encode() + b"0" * ((1 << 24) + 1), 1,
               "", said("line 2: longer than 16777216 bytes"))
    yield Case("xxd: bytes", ["xxd"], ONE + b"\xff\n", 1, "", said(f"line 1: {NO_ROW}"))


def cases() -> Iterator[Case]:
    yield from whole()
    yield from damaged()
