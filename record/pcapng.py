"""The blocks of a pcapng file. Each section has a byte order and interfaces of its own."""
import struct
from typing import Iterator, List, NamedTuple, Optional, Tuple

from cooked import NETLINK, Packets
from output import SECOND, Damaged, Item, Loss, dropped
from source import Source

# The first bytes of a section are the same in either order; the order is said behind its length.
SECTION = b"\x0a\x0d\x0d\x0a"
ORDERS = {b"\x1a\x2b\x3c\x4d": ">", b"\x4d\x3c\x2b\x1a": "<"}
INTERFACE, PACKET, SIMPLE, STATISTICS, ENHANCED = 1, 2, 3, 5, 6
# What a block has beside its body: its type, and its length in front and behind.
FRAME = 12
# What a section's body begins with: its byte order, its version and its length, which isn't used.
BEGINNING = 16
# Options: of an interface the parts of a second and the second of time 0; of a packet how many
# were dropped before it; of statistics how many the interface and the system have dropped.
RESOLUTION, OFFSET, DROPS = 9, 14, 4
DROPPED = (5, 7)
# A number of drops that says nothing.
UNKNOWN = 0xFFFF


class Interface:
    """What is said of an interface, and how many packets it is known to have dropped."""

    def __init__(self, link_type: int, longest: int) -> None:
        self.link_type, self.longest = link_type, longest
        self.parts, self.offset, self.drops = SECOND, 0, 0

    def take(self, code: int, value: bytes, order: str) -> None:
        """Takes an option."""
        if code == RESOLUTION and len(value) == 1:
            base = 2 if value[0] & 0x80 else 10
            self.parts = base ** (value[0] & 0x7F)
        elif code == OFFSET and len(value) == 8:
            self.offset, = struct.unpack(f"{order}q", value)

    def time(self, high: int, low: int) -> int:
        """A time in microseconds."""
        return (high << 32 | low) * SECOND // self.parts + self.offset * SECOND

    def lost(self, place: str, count: int) -> Iterator[Item]:
        """So many more packets were dropped, some of which may have been for rtnetlink."""
        if count > 0 and self.link_type == NETLINK:
            self.drops += count
            packets = f"{count} packet{'s' if count > 1 else ''}"
            yield dropped(f"{packets}, as the capture says")
            yield Loss(f"{place}: the capture says that {packets} were dropped")


class Block(NamedTuple):
    """A block's place, its type, the size of its body, and where that ends."""

    place: str
    kind: int
    size: int
    end: int


class Section:
    """The numbers and the interfaces of a section."""

    def __init__(self, source: Source, packets: Packets, order: str) -> None:
        self.source, self.packets, self.order = source, packets, order
        self.interfaces: List[Interface] = []

    def items(self, block: Block) -> Iterator[Item]:
        """What a block gives. All of its body is read."""
        if block.kind == INTERFACE:
            interface = Interface(*self.fields(block, "HxxI"))
            self.interfaces.append(interface)
            for code, value in self.options(block):
                interface.take(code, value, self.order)
        elif block.kind == ENHANCED:
            number, *time, kept, size = self.fields(block, "IIIII")
            yield from self.packet(block, number, kept, size, time)
        elif block.kind == PACKET:
            number, drops, *time, kept, size = self.fields(block, "HHIIII")
            yield from self.packet(block, number, kept, size, time, drops)
        elif block.kind == SIMPLE:
            size, = self.fields(block, "I")
            longest = self.interface(block, 0).longest or size
            yield from self.packet(block, 0, min(size, longest), size)
        elif block.kind == STATISTICS and block.size >= 12:
            number, = self.fields(block, "I8x")
            yield from self.statistics(block, number)
        self.source.skip(block.end - self.source.place, block.place, "a block")

    def fields(self, block: Block, form: str) -> List[int]:
        """The numbers at the front of a block's body."""
        form = f"{self.order}{form}"
        size = struct.calcsize(form)
        if block.size < size:
            raise Damaged(f"{block.place}: a block of {block.size + FRAME} bytes, too short")
        return [*struct.unpack(form, self.source.exactly(size, block.place, "a block"))]

    def interface(self, block: Block, number: int) -> Interface:
        if number >= len(self.interfaces):
            raise Damaged(f"{block.place}: a packet of the unknown interface {number}")
        return self.interfaces[number]

    def options(self, block: Block) -> Iterator[Tuple[int, bytes]]:
        """The options up to the end of a block, as far as they are whole, and their bytes, none of
        a long one."""
        while block.end - self.source.place >= 4:
            head = self.source.exactly(4, block.place, "a block")
            code, size = struct.unpack(f"{self.order}HH", head)
            if code == 0 or size + 3 & ~3 > block.end - self.source.place:
                return
            if size > 8:
                self.source.skip(size + 3 & ~3, block.place, "a block")
                continue
            yield code, self.source.exactly(size + 3 & ~3, block.place, "a block")[:size]

    def packet(self, block: Block, number: int, kept: int, size: int,
               time: Optional[List[int]] = None, drops: int = UNKNOWN) -> Iterator[Item]:
        """What the packet gives whose numbers were read, which stand in front of it."""
        interface = self.interface(block, number)
        if kept > block.end - self.source.place:
            raise Damaged(f"{block.place}: {kept} bytes of a packet in a block of "
                          f"{block.size + FRAME}")
        found = [*self.packets.items(self.source, block.place, interface.link_type, kept, size,
                                     interface.time(*time) if time else None)]
        if block.kind == ENHANCED:
            self.source.skip(-kept % 4, block.place, "a block")
            for code, value in self.options(block):
                if code == DROPS and len(value) == 8:
                    drops, = struct.unpack(f"{self.order}Q", value)
        yield from interface.lost(block.place, drops if drops != UNKNOWN else 0)
        yield from found

    def statistics(self, block: Block, number: int) -> Iterator[Item]:
        """What an interface has dropped in all, beyond what is known."""
        count = sum(struct.unpack(f"{self.order}Q", value)[0]
                    for code, value in self.options(block)
                    if code in DROPPED and len(value) == 8)
        if number < len(self.interfaces):
            interface = self.interfaces[number]
            yield from interface.lost(block.place, count - interface.drops)


def items(source: Source, packets: Packets) -> Iterator[Item]:
    """What a file gives, of which the type of the first block was read."""
    kind, section = SECTION, Section(source, packets, "")
    while kind:
        place = f"byte {source.place - len(kind)}"
        lengths = source.exactly(4, place, "the header of a block")
        if kind == SECTION:
            section = begun(source, packets, place)
        number, length = struct.unpack(f"{section.order}II", kind + lengths)
        size = length - FRAME - (BEGINNING if kind == SECTION else 0)
        if size < 0 or length % 4:
            raise Damaged(f"{place}: a block of {length} bytes")
        found = [*section.items(Block(place, number, size, source.place + size))]
        if source.exactly(4, place, "a block") != lengths:
            raise Damaged(f"{place}: the lengths of a block differ")
        yield from found
        kind = source.up_to(4)
        if 0 < len(kind) < 4:
            raise Damaged(f"byte {source.place - len(kind)}: the capture ends within the header "
                          "of a block")


def begun(source: Source, packets: Packets, place: str) -> Section:
    """The section that begins at the place, by the front of its body."""
    head = source.exactly(BEGINNING, place, "the header of a section")
    order = ORDERS.get(head[:4])
    if order is None:
        raise Damaged(f"{place}: a section in no byte order")
    version = struct.unpack_from(f"{order}HH", head, 4)
    if version[0] != 1:
        raise Damaged(f"{place}: version {version[0]}.{version[1]} of pcapng")
    return Section(source, packets, order)
