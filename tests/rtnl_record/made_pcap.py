"""Captures of pcap and pcapng. The bytes are packed by pcap-savefile(5), the draft of pcapng and
the page of tcpdump.org on LINKTYPE_NETLINK; the places are counted by hand."""
import struct
from typing import Iterator

from case import ONE, TWO, Case, said

MICRO, NANO = 0xA1B2C3D4, 0xA1B23C4D
# The time of each packet of pcap, of one second and two parts of it; and that of time 0.
AT, AT_NANO = "# 1970-01-01T00:00:01.000002Z\n", "# 1970-01-01T00:00:01.000000Z\n"
AT_ZERO = "# 1970-01-01T00:00:00.000000Z\n"


def both_at(time: str) -> str:
    """The lines of the two datagrams, each behind this time."""
    return f"{time}{ONE.hex()}\n{time}{TWO.hex()}\n"


LINES, ZERO_LINES = both_at(AT), both_at(AT_ZERO)


def cooked(data: bytes, protocol: int = 0) -> bytes:
    """A packet of nlmon: its kind, 824 for netlink, ten bytes and the protocol, highest first."""
    return struct.pack(">HH10xH", 4, 824, protocol) + data


def pcap(*packets: bytes, order: str = "<", magic: int = MICRO, link_type: int = 253) -> bytes:
    head = struct.pack(f"{order}IHHiIII", magic, 2, 4, 0, 0, 262144, link_type)
    return head + b"".join(record(it, order=order) for it in packets)


def record(packet: bytes, size: int = -1, order: str = "<") -> bytes:
    whole = len(packet) if size < 0 else size
    return struct.pack(f"{order}IIII", 1, 2, len(packet), whole) + packet


def block(kind: int, body: bytes, order: str = "<") -> bytes:
    body += bytes(-len(body) % 4)
    length = struct.pack(f"{order}I", 12 + len(body))
    return struct.pack(f"{order}I", kind) + length + body + length


def section(order: str = "<", version: int = 1) -> bytes:
    return block(0x0A0D0D0A, struct.pack(f"{order}IHHq", 0x1A2B3C4D, version, 0, -1), order)


def interface(link_type: int = 253, longest: int = 0, order: str = "<") -> bytes:
    return block(1, struct.pack(f"{order}HHI", link_type, 0, longest), order)


def enhanced(packet: bytes, number: int = 0, order: str = "<", size: int = -1,
             options: bytes = b"") -> bytes:
    whole = len(packet) if size < 0 else size
    head = struct.pack(f"{order}IIIII", number, 0, 0, len(packet), whole)
    return block(6, head + packet + bytes(-len(packet) % 4) + options, order)


def simple(packet: bytes, size: int) -> bytes:
    return block(3, struct.pack("<I", size) + packet)


def obsolete(packet: bytes, number: int = 0) -> bytes:
    return block(2, struct.pack("<HHIIII", number, 0, 0, 0, len(packet), len(packet)) + packet)


def whole_pcaps() -> Iterator[Case]:
    both = (cooked(ONE), cooked(TWO))
    for order in "<>":
        for magic in (MICRO, NANO):
            yield Case(f"pcap {order} {magic:x}", ["pcap", "-"],
                       pcap(*both, order=order, magic=magic), 0,
                       both_at(AT if magic == MICRO else AT_NANO))
    # The high bits of the link type say how long a check sum is.
    yield Case("pcap with bits over the link type", ["pcap", "-"],
               pcap(*both, link_type=253 | 0x14000000), 0, LINES)
    yield Case("pcap without a packet", ["pcap", "-"], pcap(), 0, "")
    yield Case("pcap of Ethernet", ["pcap", "-"], pcap(*both, link_type=1), 0, "",
               said("left out: 2 packets of link type 1"))
    yield Case("pcap of other protocols", ["pcap", "-"],
               pcap(cooked(ONE), cooked(TWO, 16), cooked(ONE, 0x1000), cooked(TWO),
                    cooked(b"", 16)), 0, LINES, said("left out: 2 packets of netlink protocol 16",
                              "left out: 1 packet of netlink protocol 4096"))
    yield Case("pcap of an empty datagram", ["pcap", "-"], pcap(cooked(b""), cooked(ONE)), 0,
               f"{AT}# a datagram of 0 bytes\n{AT}{ONE.hex()}\n")
    yield Case("pcap of a datagram of another protocol above 1 MiB", ["pcap", "-"],
               pcap(cooked(bytes(1 << 21), 12), cooked(ONE)), 0, f"{AT}{ONE.hex()}\n",
               said("left out: 1 packet of netlink protocol 12"))
    yield Case("pcap of the longest datagram", ["pcap", "-"], pcap(cooked(bytes(1 << 20))), 0,
               AT + "00" * (1 << 20) + "\n")
    at = struct.pack("<IIII", 4102444799, 999999, 36, 36)
    yield Case("pcap of the year 2099", ["pcap", "-"], pcap() + at + cooked(ONE), 0,
               f"# 2099-12-31T23:59:59.999999Z\n{ONE.hex()}\n")


def damaged_pcaps() -> Iterator[Case]:
    first = f"{AT}{ONE.hex()}\n"
    front = pcap(cooked(ONE))  # 24 + 16 + 36 bytes
    for size in (0, 1, 3):
        yield Case(f"{size} bytes of pcap", ["pcap", "-"], front[:size], 1, "",
                   said("byte 0: the capture ends within its first bytes"))
    yield Case("no pcap", ["pcap", "-"], b"1400000003000200\n", 1, "",
               said("byte 0: neither pcap nor pcapng"))
    yield Case("half a header of pcap", ["pcap", "-"], front[:23], 1, "",
               said("byte 0: the capture ends within its header"))
    yield Case("another version of pcap", ["pcap", "-"], front[:4] + b"\3\0" + front[6:], 1, "",
               said("byte 4: version 3.4 of pcap"))
    yield Case("half a header of a packet", ["pcap", "-"], front + record(cooked(TWO))[:15], 1,
               first, said("byte 76: the capture ends within the header of a packet"))
    yield Case("half a packet", ["pcap", "-"], front + record(cooked(TWO))[:-1], 1, first,
               said("byte 76: the capture ends within a packet of 32 bytes"))
    yield Case("a packet that is shorter than its header", ["pcap", "-"],
               front + record(bytes(15)), 1, first, said("byte 76: 15 bytes of a netlink packet of 15"))
    yield Case("a packet of more bytes than it had", ["pcap", "-"],
               front + record(cooked(TWO), 31), 1, first,
               said("byte 76: 32 bytes of a netlink packet of 31"))
    yield Case("a packet that was cut", ["pcap", "-"],
               front + record(cooked(TWO)[:20], 32) + record(cooked(TWO)), 1,
               f"{first}{AT}# cut: 4 of 16 bytes\n{TWO.hex()[:8]}\n{AT}{TWO.hex()}\n",
               said("byte 76: the datagram was cut: 4 of 16 bytes are recorded"))
    longest = struct.pack("<IIII", 1, 2, 0xFFFFFFFF, 0xFFFFFFFF) + cooked(TWO)
    yield Case("a datagram of 4 GiB", ["pcap", "-"], front + longest, 1, first,
               said("byte 76: a datagram of 4294967279 bytes, above 1048576"))
    other = struct.pack("<IIII", 1, 2, 0xFFFFFFFF, 0xFFFFFFFF) + cooked(TWO, 3)
    yield Case("a packet of 4 GiB of another protocol", ["pcap", "-"], front + other, 1, first,
               said("left out: 1 packet of netlink protocol 3",
                    "byte 76: the capture ends within a packet of 4294967295 bytes"))
    yield Case("a packet of 4 GiB of Ethernet", ["pcap", "-"], pcap(link_type=1) + longest, 1, "",
               said("left out: 1 packet of link type 1",
                    "byte 24: the capture ends within a packet of 4294967295 bytes"))


def whole_pcapngs() -> Iterator[Case]:
    for order in "<>":
        blocks = [section(order), interface(order=order), enhanced(cooked(ONE), order=order),
                  enhanced(cooked(TWO), order=order)]
        yield Case(f"pcapng {order}", ["pcap", "-"], b"".join(blocks), 0, ZERO_LINES)
    yield Case("pcapng without a packet", ["pcap", "-"], section(), 0, "")
    # The interfaces of a section are its own: the second one has Ethernet first.
    yield Case("pcapng of two sections in different orders", ["pcap", "-"],
               section("<") + interface() + enhanced(cooked(ONE))
               + section(">") + interface(1, order=">") + interface(order=">")
               + enhanced(b"else", 0, order=">") + enhanced(cooked(TWO), 1, order=">"), 0,
               ZERO_LINES, said("left out: 1 packet of link type 1"))
    yield Case("pcapng of three interfaces", ["pcap", "-"],
               section() + interface(1) + interface(253) + interface(253)
               + enhanced(cooked(ONE), 2) + enhanced(b"else", 0) + enhanced(cooked(TWO), 1)
               + enhanced(cooked(b"", 4), 1), 0, ZERO_LINES,
               said("left out: 1 packet of link type 1",
                    "left out: 1 packet of netlink protocol 4"))
    yield Case("pcapng with packets of all sorts", ["pcap", "-"],
               section() + interface() + simple(cooked(ONE), 36) + obsolete(cooked(TWO)), 0,
               f"{ONE.hex()}\n{AT_ZERO}{TWO.hex()}\n")
    yield Case("pcapng with a bound for a simple packet", ["pcap", "-"],
               section() + interface(longest=20) + simple(cooked(ONE)[:20], 36), 1,
               f"# cut: 4 of 20 bytes\n{ONE.hex()[:8]}\n",
               said("byte 48: the datagram was cut: 4 of 20 bytes are recorded"))
    yield Case("pcapng with options and other blocks", ["pcap", "-"],
               section() + block(5, bytes(8)) + interface() + block(0xBAD, b"x" * 999)
               + enhanced(cooked(ONE), options=struct.pack("<HHIHH", 2, 4, 0, 0, 0))
               + block(4, b"") + enhanced(cooked(TWO)), 0, ZERO_LINES)


def damaged_pcapngs() -> Iterator[Case]:
    front = section() + interface() + enhanced(cooked(ONE))  # 28 + 20 + 68 bytes
    first, last = f"{AT_ZERO}{ONE.hex()}\n", enhanced(cooked(TWO))

    def damage(name: str, capture: bytes, line: str) -> Case:
        return Case(f"pcapng: {name}", ["pcap", "-"], front + capture, 1, first, said(line))

    header = "byte 116: the capture ends within the header of a block"
    yield damage("half a type", last[:3], header)
    yield damage("half a length", last[:7], header)
    for size in (8, 27, 59):
        yield damage(f"{size} bytes of a block", last[:size],
                     "byte 116: the capture ends within a "
                     f"{'packet of 32 bytes' if size == 59 else 'block'}")
    yield damage("no second length", last[:-4], "byte 116: the capture ends within a block")
    yield damage("another second length", last[:-1] + b"\1", "byte 116: the lengths of a block "
                 "differ")
    for length in (0, 8, 11, 13, 62, 0xFFFFFFFF):
        yield damage(f"a block of {length} bytes",
                     last[:4] + struct.pack("<I", length) + last[8:],
                     f"byte 116: a block of {length} bytes")
    yield damage("a block that is too short for a packet", block(6, bytes(16)),
                 "byte 116: a block of 28 bytes, too short")
    yield damage("an unknown interface", enhanced(cooked(TWO), 1),
                 "byte 116: a packet of the unknown interface 1")
    yield damage("a packet behind its block",
                 block(6, struct.pack("<IIIII", 0, 0, 0, 33, 33) + cooked(TWO)),
                 "byte 116: 33 bytes of a packet in a block of 64")
    yield damage("an unknown block of 4 GiB", struct.pack("<II", 9, 0xFFFFFFFC) + bytes(99999),
                 "byte 116: the capture ends within a block")
    yield damage("a section in no order", section()[:8] + b"\0" + section()[9:],
                 "byte 116: a section in no byte order")
    yield damage("a section of 16 bytes", block(0x0A0D0D0A, b"\x4d\x3c\x2b\x1a" + bytes(12))[:8]
                 + b"\x4d\x3c\x2b\x1a\1\0" + bytes(14), "byte 116: the lengths of a block differ")
    yield damage("another version", section(version=2), "byte 116: version 2.0 of pcapng")
    yield damage("a section without interfaces", section() + enhanced(cooked(TWO)),
                 "byte 144: a packet of the unknown interface 0")


def option(code: int, value: bytes, order: str = "<") -> bytes:
    return struct.pack(f"{order}HH", code, len(value)) + value + bytes(-len(value) % 4)


def at(ticks: int, options: bytes, order: str = "<") -> bytes:
    """A section whose interface has these options, and a packet of this time."""
    head = struct.pack(f"{order}HHI", 253, 0, 0) + options
    front = struct.pack(f"{order}IIIII", 0, ticks >> 32, ticks & 0xFFFFFFFF, 36, 36)
    return section(order) + block(1, head, order) + block(6, front + cooked(ONE), order)


def timed_pcapngs() -> Iterator[Case]:
    """Times by the options of the interface: the parts of a second, and the second of time 0."""
    end = option(0, b"")
    for name, ticks, options, time in (
            ("microseconds", 1700000000000042, b"", "2023-11-14T22:13:20.000042"),
            ("microseconds, said", 1700000000000042, option(9, b"\6"),
             "2023-11-14T22:13:20.000042"),
            ("nanoseconds", 1700000000000042999, option(2, b"nlmon0") + option(9, b"\x09") + end,
             "2023-11-14T22:13:20.000042"),
            ("halves of halves of a second", 1700000000 * 4 + 3, option(9, b"\x82") + end,
             "2023-11-14T22:13:20.750000"),
            ("seconds", 1700000000, option(9, b"\0"), "2023-11-14T22:13:20.000000"),
            ("a second to begin with", 42, option(14, (1700000000).to_bytes(8, "little")),
             "2023-11-14T22:13:20.000042"),
            ("an option behind the end", 42, end + option(9, b"\0"), "1970-01-01T00:00:00.000042"),
            ("an option of 3 bytes", 42, option(9, b"\0\0\0"), "1970-01-01T00:00:00.000042"),
            ("half an option", 42, struct.pack("<HH", 9, 99), "1970-01-01T00:00:00.000042"),
            ("a long option", 42, option(2, b"n" * 999) + option(9, b"\3"),
             "1970-01-01T00:00:00.042000")):
        yield Case(f"pcapng: {name}", ["pcap", "-"], at(ticks, options), 0,
                   f"# {time}Z\n{ONE.hex()}\n")
    yield Case("pcapng: nanoseconds, highest first", ["pcap", "-"],
               at(1700000000000042999, option(9, b"\x09", ">"), ">"), 0,
               f"# 2023-11-14T22:13:20.000042Z\n{ONE.hex()}\n")
    for name, ticks, options in (
            ("behind the year 9999", (1 << 64) - 1, b""),
            ("before 1970", 0, option(14, (-1).to_bytes(8, "little", signed=True)))):
        yield Case(f"pcapng: a time {name}", ["pcap", "-"], at(ticks, options), 0,
                   f"{ONE.hex()}\n")


def counts(*drops: int, number: int = 0) -> bytes:
    """Statistics of an interface: what it has dropped, and what the system has."""
    options = b"".join(option(code, it.to_bytes(8, "little")) for code, it in zip((5, 7), drops))
    return block(5, struct.pack("<III", number, 0, 0) + option(4, bytes(8)) + options)


def dropping_pcapngs() -> Iterator[Case]:
    """Packets that the capture says were dropped, in front of the packet that says so, or in
    statistics."""
    one, front = f"{AT_ZERO}{ONE.hex()}\n", section() + interface() + interface(1)
    lost = enhanced(cooked(ONE), options=option(4, (3).to_bytes(8, "little")))
    three, two = ("# dropped: {} packets, as the capture says\n".format(it) for it in (3, 2))

    def case(name: str, capture: bytes, output: str, *losses: str) -> Case:
        errors = [f"byte {it} were dropped" for it in losses]
        return Case(f"pcapng: {name}", ["pcap", "-"], front + capture, int(bool(losses)), output,
                    said(*errors) if losses else "")

    # The first block behind the interfaces begins at byte 68. A packet has 68 bytes, 80 with drops.
    says = "the capture says that"
    yield case("3 packets dropped before one", enhanced(cooked(ONE)) + lost, one + three + one,
               f"136: {says} 3 packets")
    yield case("none dropped",
               enhanced(cooked(ONE), options=option(4, bytes(8))) + counts(0, 0), one)
    yield case("2 dropped by the system", enhanced(cooked(ONE)) + counts(0, 2), one + two,
               f"136: {says} 2 packets")
    yield case("dropped, and counted again", lost + counts(3) + counts(2, 3), three + one + two,
               f"68: {says} 3 packets", f"196: {says} 2 packets")
    yield case("one dropped", counts(1), "# dropped: 1 packet, as the capture says\n",
               f"68: {says} 1 packet")
    yield case("dropped by Ethernet, and by an unknown interface",
               counts(5, number=1) + counts(5, number=2) + enhanced(cooked(ONE)), one)
    for drops, output, losses in ((2, two + one, (f"68: {says} 2 packets",)), (0xFFFF, one, ())):
        head = struct.pack("<HHIIII", 0, drops, 0, 0, 36, 36)
        yield case(f"{drops} dropped before a packet of the old form",
                   block(2, head + cooked(ONE)), output, *losses)


def cases() -> Iterator[Case]:
    yield from whole_pcaps()
    yield from damaged_pcaps()
    yield from whole_pcapngs()
    yield from damaged_pcapngs()
    yield from timed_pcapngs()
    yield from dropping_pcapngs()
