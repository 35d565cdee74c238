"""Makes the pictures in docs/: the page in a scheme and a size, as PNGs of at most 256 colours."""
import collections
import struct
import zlib
from typing import Dict, Iterator, List, Tuple

from browser import Browser
from expected import ROOT
from used import HOP

# The pictures docs/page-NAME.png, each in a scheme and a size. The light ones show a fault.
PICTURES = (("light", "light", 1280, 760), ("dark", "dark", 1280, 760),
            ("narrow-light", "light", 360, 740), ("narrow-dark", "dark", 360, 740))
SIGNATURE = b"\x89PNG\r\n\x1a\n"
Color = Tuple[int, ...]


def chunks(data: bytes) -> Iterator[Tuple[bytes, bytes]]:
    at = len(SIGNATURE)
    while at < len(data):
        size, name = struct.unpack_from(">I4s", data, at)
        yield name, data[at + 8:at + 8 + size]
        at += 12 + size


def paeth(left: int, above: int, corner: int) -> int:
    near = [abs(above - corner), abs(left - corner), abs(left + above - 2 * corner)]
    return (left, above, corner)[near.index(min(near))]


def rows_of(data: bytes) -> Tuple[int, List[bytearray]]:
    """The rows of a PNG of 8 bits a channel, and how many channels a pixel has."""
    found: Dict[bytes, bytes] = {}
    for name, part in chunks(data):
        found[name] = found.get(name, b"") + part
    width, height, _, kind = struct.unpack_from(">IIBB", found[b"IHDR"])
    step, packed = {2: 3, 6: 4}[kind], zlib.decompress(found[b"IDAT"])
    rows, before = [], bytearray(width * step)
    for number in range(height):
        begin = number * (width * step + 1)
        way, row = packed[begin], bytearray(packed[begin + 1:begin + 1 + width * step])
        for at in range(len(row)):
            left, corner = (row[at - step], before[at - step]) if at >= step else (0, 0)
            above = before[at]
            row[at] = row[at] + (0, left, above, (left + above) // 2,
                                 paeth(left, above, corner))[way] & 255
        rows.append(row)
        before = row
    return step, rows


def chunk(name: bytes, data: bytes) -> bytes:
    return struct.pack(">I", len(data)) + name + data + struct.pack(">I", zlib.crc32(name + data))


def small(data: bytes) -> bytes:
    """The same picture in its 256 commonest colours, of five bits a channel."""
    step, rows = rows_of(data)
    pixels = [[tuple(it & 0xf8 for it in row[at:at + 3]) for at in range(0, len(row), step)]
              for row in rows]
    counts = collections.Counter(it for row in pixels for it in row)
    palette: List[Color] = [color for color, _ in counts.most_common(256)]

    def nearest(color: Color) -> int:
        return min(range(len(palette)), key=lambda it: sum(
            (one - other) ** 2 for one, other in zip(palette[it], color)))
    index = {color: nearest(color) for color in counts}
    lines = b"".join(b"\0" + bytes(index[it] for it in row) for row in pixels)
    head = struct.pack(">IIBBBBB", len(pixels[0]), len(rows), 8, 3, 0, 0, 0)
    # Five bits a channel, of which the greatest is white.
    colors = bytes(it | it >> 5 for color in palette for it in color)
    packed = zlib.compress(lines, 9)
    parts = ((b"IHDR", head), (b"PLTE", colors), (b"IDAT", packed), (b"IEND", b""))
    return SIGNATURE + b"".join(chunk(*it) for it in parts)


def make(page: str) -> None:
    with open(f"{ROOT}/examples/routes.hex", encoding="ascii") as file:
        routes = file.read()
    browser = Browser(page)
    try:
        browser.open()
        for name, scheme, width, height in PICTURES:
            browser.size(width, height)
            browser.scheme(scheme)
            is_fault = scheme == "light"
            browser.paste(f"{HOP}\n{routes}" if is_fault else routes, "auto")
            browser.call("click", "#fault" if is_fault else "#row-4")
            with open(f"{ROOT}/docs/page-{name}.png", "wb") as file:
                file.write(small(browser.picture()))
    finally:
        browser.close()
