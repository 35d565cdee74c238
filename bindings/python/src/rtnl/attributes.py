"""The attributes of a message, those in an attribute, and next hops."""
import struct
from typing import Dict, Iterator, Optional, Sequence, Tuple, Union, overload

from . import values
from ._buffers import Order
from ._families import holds
from ._heads import ATTRIBUTE_SIZE, BYTES, HOPS, LIST, PAYLOAD, WORDS, Fields, Heads
from ._tape import SIZE
from .constants import RTA_GATEWAY, RTA_VIA
from .names import attribute_name
from .values import HardwareAddress, IPAddress

# struct rtnexthop
NEXT_HOP = {"little": struct.Struct("<HBBi"), "big": struct.Struct(">HBBi")}


class Attribute:
    """An attribute where it stands. Its values are None where the payload has another size, or
    where it holds attributes or next hops; NLA_F_NET_BYTEORDER is not looked at."""

    __slots__ = ("_heads", "_at", "_end", "_context", "_fields")

    def __init__(self, heads: Heads, at: int, end: int, context: int) -> None:
        self._heads, self._at, self._end, self._context = heads, at, end, context
        self._fields: Fields = heads.fields(at)

    def __repr__(self) -> str:
        name = self.name or self.number
        return f"<Attribute {name} of {len(self.payload)} bytes at {self.place}>"

    @property
    def place(self) -> int:
        """The offset of its head in the datagram, in bytes."""
        return self._fields[0]

    @property
    def number(self) -> int:
        """Its type, without the two flag bits."""
        return self._fields[2]

    @property
    def name(self) -> Optional[str]:
        """Its name in the kernel's headers, as IFLA_IFNAME; None where it has none here."""
        return attribute_name(self._context, self.number)

    @property
    def nested(self) -> bool:
        """The flag NLA_F_NESTED."""
        return self._fields[5]

    @property
    def net(self) -> bool:
        """The flag NLA_F_NET_BYTEORDER."""
        return self._fields[6]

    @property
    def context(self) -> int:
        """Where it stands, which says what its number means: `enum rtnlc_context`."""
        return self._context

    @property
    def payload(self) -> memoryview:
        """The bytes behind its head, without padding and not copied."""
        begin = self.place + ATTRIBUTE_SIZE
        return memoryview(self._heads.data)[begin : begin + self._fields[1]]

    def _inside(self, sort: int) -> Optional[Tuple[int, int, int, int]]:
        """Where the heads in it begin and end, their level and context, where it is of a sort."""
        _, _, number, level, own, nested, _ = self._fields
        if own != sort:
            return None
        end = self._heads.behind(self._at, self._end)
        return self._at + 1, end, level + 1, holds(self._context, number, nested)

    @property
    def attributes(self) -> Optional["Attributes"]:
        """The attributes in it; None where it holds bytes or next hops."""
        found = self._inside(LIST)
        return None if found is None else Attributes(self._heads, *found)

    @property
    def hops(self) -> Optional["NextHops"]:
        """The next hops in it; None where it holds bytes or attributes."""
        found = self._inside(HOPS)
        return None if found is None else NextHops(self._heads, *found)

    def as_bytes(self) -> Optional[bytes]:
        """A copy of its payload; None where it holds attributes or next hops."""
        return bytes(self.payload) if self._fields[4] == BYTES else None

    def u8(self) -> Optional[int]:
        """A number of one byte."""
        return values.number(self.as_bytes(), self._heads.numbers.u8)

    def u16(self) -> Optional[int]:
        """A number of two bytes."""
        return values.number(self.as_bytes(), self._heads.numbers.u16)

    def u32(self) -> Optional[int]:
        """A number of four bytes."""
        return values.number(self.as_bytes(), self._heads.numbers.u32)

    def u64(self) -> Optional[int]:
        """A number of eight bytes."""
        return values.number(self.as_bytes(), self._heads.numbers.u64)

    def text(self) -> Optional[str]:
        """The bytes before the first zero byte, decoded as names of files are."""
        return values.text(self.as_bytes())

    def address(self) -> Optional[IPAddress]:
        """An address of 4 or 16 bytes."""
        return values.address(self.as_bytes())

    def hardware_address(self) -> Optional[HardwareAddress]:
        """A hardware address, of any length."""
        return values.hardware_address(self.as_bytes())


class Attributes:
    """Attributes one after another, in their order, duplicates too. Of a number the first counts:
    what is asked by number is of that one, and None where there is none."""

    __slots__ = ("_heads", "_begin", "_end", "_level", "_context", "_first")

    def __init__(self, heads: Heads, begin: int, end: int, level: int, context: int) -> None:
        self._heads, self._begin, self._end = heads, begin, end
        self._level, self._context = level, context
        self._first: Optional[Dict[int, int]] = None

    def __iter__(self) -> Iterator[Attribute]:
        heads, end, context = self._heads, self._end, self._context
        for at in heads.of_level(self._begin, end, self._level):
            yield Attribute(heads, at, end, context)

    def __len__(self) -> int:
        return sum(1 for _ in self._heads.of_level(self._begin, self._end, self._level))

    def __contains__(self, number: int) -> bool:
        return number in self._numbers()

    def __repr__(self) -> str:
        return f"<Attributes {' '.join(str(it.name or it.number) for it in self)}>"

    @property
    def order(self) -> Order:
        """The order of their numbers: `little` or `big`."""
        return self._heads.order

    @property
    def context(self) -> int:
        """Where they stand, which says what their numbers mean: `enum rtnlc_context`."""
        return self._context

    def _numbers(self) -> Dict[int, int]:
        """Where the first head of each number stands behind the first of all; found when it is
        first asked for."""
        first = self._first
        if first is None:
            first = self._first = self._heads.first(self._begin, self._end, self._level)
        return first

    def find(self, number: int) -> Optional[Attribute]:
        """The first attribute of a number."""
        at = self._numbers().get(number)
        if at is None:
            return None
        return Attribute(self._heads, self._begin + at, self._end, self._context)

    def attributes(self, number: int) -> Optional["Attributes"]:
        """The attributes in the first one of a number."""
        found = self.find(number)
        return None if found is None else found.attributes

    def hops(self, number: int) -> Optional["NextHops"]:
        """The next hops in it."""
        found = self.find(number)
        return None if found is None else found.hops

    def as_bytes(self, number: int) -> Optional[bytes]:
        """A copy of its payload; None where it holds attributes or next hops."""
        at = (self._first or self._numbers()).get(number)
        if at is None:
            return None
        heads = self._heads
        place, size, sort = PAYLOAD.unpack_from(heads.tape, (self._begin + at) * SIZE)
        if sort != BYTES:
            return None
        place += ATTRIBUTE_SIZE
        return bytes(heads.data[place : place + size])

    def u8(self, number: int) -> Optional[int]:
        """Its number of one byte; None where the payload has another size."""
        return values.number(self.as_bytes(number), self._heads.numbers.u8)

    def u16(self, number: int) -> Optional[int]:
        """Its number of two bytes."""
        return values.number(self.as_bytes(number), self._heads.numbers.u16)

    def u32(self, number: int) -> Optional[int]:
        """Its number of four bytes."""
        return values.number(self.as_bytes(number), self._heads.numbers.u32)

    def u64(self, number: int) -> Optional[int]:
        """Its number of eight bytes."""
        return values.number(self.as_bytes(number), self._heads.numbers.u64)

    def text(self, number: int) -> Optional[str]:
        """Its bytes before the first zero byte, decoded as names of files are."""
        return values.text(self.as_bytes(number))

    def address(self, number: int) -> Optional[IPAddress]:
        """Its address of 4 or 16 bytes."""
        return values.address(self.as_bytes(number))

    def hardware_address(self, number: int) -> Optional[HardwareAddress]:
        """Its hardware address, of any length."""
        return values.hardware_address(self.as_bytes(number))

    def via(self, number: int) -> Optional[IPAddress]:
        """Its address in a struct rtvia, as RTA_VIA has one."""
        return values.via(self.as_bytes(number), self._heads.numbers.u16)


def gateway(attributes: Attributes) -> Optional[IPAddress]:
    """Where a route, or a next hop, leads: RTA_GATEWAY, or else the address in RTA_VIA."""
    found = attributes.address(RTA_GATEWAY)
    return attributes.via(RTA_VIA) if found is None else found


class NextHop:
    """A next hop of a route with RTA_MULTIPATH."""

    __slots__ = ("_fields", "attributes")

    attributes: Attributes
    """Its attributes, which are those of a route."""

    def __init__(self, heads: Heads, at: int, end: int, level: int, context: int) -> None:
        self._fields = NEXT_HOP[heads.order].unpack_from(heads.data, heads.words[at * WORDS])
        self.attributes = Attributes(heads, at + 1, end, level + 1, context)

    def __repr__(self) -> str:
        return f"<NextHop index={self.index} gateway={self.gateway}>"

    @property
    def flags(self) -> int:
        """The bits RTNH_F_*."""
        found: int = self._fields[1]
        return found

    @property
    def weight(self) -> int:
        """Its share of the packets, from 1 to 256. The kernel's field, `rtnh_hops`, has one
        less."""
        found: int = self._fields[2]
        return found + 1

    @property
    def index(self) -> int:
        """The interface that it leaves by."""
        found: int = self._fields[3]
        return found

    @property
    def gateway(self) -> Optional[IPAddress]:
        """RTA_GATEWAY, or else the address in RTA_VIA."""
        return gateway(self.attributes)


class NextHops(Sequence[NextHop]):
    """Next hops one after another."""

    __slots__ = ("_heads", "_bounds", "_level", "_context")

    def __init__(self, heads: Heads, begin: int, end: int, level: int, context: int) -> None:
        self._heads, self._level, self._context = heads, level, context
        self._bounds = [*heads.of_level(begin, end, level), end]

    def __len__(self) -> int:
        return len(self._bounds) - 1

    @overload
    def __getitem__(self, index: int) -> NextHop:
        ...

    @overload
    def __getitem__(self, index: slice) -> Sequence[NextHop]:
        ...

    def __getitem__(self, index: Union[int, slice]) -> Union[NextHop, Sequence[NextHop]]:
        found = range(len(self))[index]
        if isinstance(found, range):
            return [self[at] for at in found]
        return self._between(self._bounds[found], self._bounds[found + 1])

    def __iter__(self) -> Iterator[NextHop]:
        return map(self._between, self._bounds, self._bounds[1:])

    def _between(self, begin: int, end: int) -> NextHop:
        return NextHop(self._heads, begin, end, self._level, self._context)
