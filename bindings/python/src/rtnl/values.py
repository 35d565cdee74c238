"""What payloads say. None stands for none, and for one of another size than the value has."""
import socket
from functools import lru_cache
from ipaddress import IPv4Address, IPv4Network, IPv6Address, IPv6Network, ip_network
from socket import inet_ntop
from struct import Struct
from typing import NamedTuple, Optional, Union

# Of the addresses in a dump many are the same.
ADDRESSES_KEPT = 1024
# The address family of each version.
FAMILIES = {4: socket.AF_INET, 6: socket.AF_INET6}
IPAddress = Union[IPv4Address, IPv6Address]
IPNetwork = Union[IPv4Network, IPv6Network]


class _IPv4(IPv4Address):
    """An address with a faster way to the text that ipaddress has of it."""

    __slots__ = ()

    def __str__(self) -> str:
        return inet_ntop(socket.AF_INET, self.packed)

    def __repr__(self) -> str:
        return f"IPv4Address('{self}')"


class _IPv6(IPv6Address):
    """The same of IPv6. Of an address that inet_ntop(3) ends as one of IPv4, the text is that of
    ipaddress, which depends on its version."""

    __slots__ = ()

    def __str__(self) -> str:
        text = inet_ntop(socket.AF_INET6, self.packed)
        return super().__str__() if "." in text else text

    def __repr__(self) -> str:
        return f"IPv6Address('{self}')"


class HardwareAddress(bytes):
    """The address of a device on its link, of any length.

    >>> print(HardwareAddress(b"\\x02\\x00\\x00\\x00\\x00\\x01"))
    02:00:00:00:00:01
    """

    __slots__ = ()

    def __str__(self) -> str:
        return self.hex(":")

    def __repr__(self) -> str:
        return f"HardwareAddress('{self}')"


class Prefix(NamedTuple):
    """An address and how many of its bits count, whatever they are.

    >>> print(Prefix(IPv4Address("192.0.2.0"), 24))
    192.0.2.0/24
    """

    address: IPAddress
    length: int

    def __str__(self) -> str:
        return f"{self.address}/{self.length}"

    @property
    def network(self) -> Optional[IPNetwork]:
        """The network of the address; None where the length is above the address's bits."""
        if self.length > self.address.max_prefixlen:
            return None
        return ip_network((int(self.address), self.length), strict=False)


class Numbers:
    """What reads the numbers of a datagram, in their order."""

    __slots__ = ("u8", "u16", "u32", "u64")

    def __init__(self, order: str) -> None:
        self.u8, self.u16 = Struct(f"{order}B"), Struct(f"{order}H")
        self.u32, self.u64 = Struct(f"{order}I"), Struct(f"{order}Q")


NUMBERS = {"little": Numbers("<"), "big": Numbers(">")}


def number(payload: Optional[bytes], form: Struct) -> Optional[int]:
    """A number of exactly so many bytes as its form has."""
    if payload is None or len(payload) != form.size:
        return None
    found: int = form.unpack(payload)[0]
    return found


def text(payload: Optional[bytes]) -> Optional[str]:
    """The bytes before the first zero byte, or all. Those that are no UTF-8 stand as in the names
    of files, so that os.fsencode has them back."""
    if payload is None:
        return None
    return payload.split(b"\0", 1)[0].decode("utf-8", "surrogateescape")


def address(payload: Optional[bytes]) -> Optional[IPAddress]:
    """An address of 4 or 16 bytes."""
    if payload is None or len(payload) not in (4, 16):
        return None
    return _address(payload)


@lru_cache(maxsize=ADDRESSES_KEPT)
def _address(payload: bytes) -> IPAddress:
    return _IPv4(payload) if len(payload) == 4 else _IPv6(payload)


def via(payload: Optional[bytes], form: Struct) -> Optional[IPAddress]:
    """The address in a struct rtvia, which has a family in front, of this form: that of IPv4 or of
    IPv6."""
    if payload is None:
        return None
    family, found = number(payload[:2], form), address(payload[2:])
    return found if found and family == FAMILIES[found.version] else None


def hardware_address(payload: Optional[bytes]) -> Optional[HardwareAddress]:
    """A hardware address, of any length."""
    return None if payload is None else HardwareAddress(payload)


def prefix(found: Optional[IPAddress], length: int) -> Optional[Prefix]:
    """An address with its length."""
    return None if found is None else Prefix(found, length)
