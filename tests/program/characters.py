#!/usr/bin/env python3
"""Names files by every character that Python knows: the program shows as escapes those of the
categories Cc, Cf, Zl and Zp, backslashes and double quotes, and each other one as it is. The
status is 1 where it shows one otherwise, and a line says which."""
import subprocess
import sys
import unicodedata
from typing import Iterator, List

ESCAPED = "Cc", "Cf", "Zl", "Zp"
# What is no character, and what another version of Unicode may say.
UNKNOWN = "Cs", "Cn"
SHORT = {"\n": r"\n", "\r": r"\r", "\t": r"\t", "\\": r"\\", '"': r"\""}
LINE = "rtnl: to show a recording: rtnl show "
# An argument has at most 131,072 bytes.
TOGETHER = 20_000


def shown(character: str) -> str:
    if character in SHORT:
        return SHORT[character]
    if unicodedata.category(character) not in ESCAPED:
        return character
    code = ord(character)
    if code < 0x100:
        return f"\\x{code:02x}"
    return f"\\u{code:04x}" if code < 0x10000 else f"\\U{code:08x}"


def names() -> Iterator[str]:
    """Names that hold all characters; none has a blank but the last."""
    known = [chr(it) for it in range(1, 0x110000) if unicodedata.category(chr(it)) not in UNKNOWN]
    solid = [it for it in known if not it.isspace()]
    for at in range(0, len(solid), TOGETHER):
        yield "x" + "".join(solid[at : at + TOGETHER])
    yield "x" + "".join(it for it in known if it.isspace())


def main(program: List[str]) -> int:
    for name in names():
        ran = subprocess.run([*program, name], capture_output=True, check=False)
        found = ran.stderr.decode().split("\n")[-2]
        wanted = "".join(map(shown, name))
        if found not in (f"{LINE}{wanted}", f'{LINE}"{wanted}"'):
            wrong = [it for it in name if shown(it) not in found]
            print(f"shown otherwise: {wrong[:9]!a}", file=sys.stderr)
            return 1
    return 0


if __name__ == "__main__":
    sys.exit(main(sys.argv[1:]))
