"""The heads of messages that are built: structs of the kernel's headers, whose fields have the
names that the views have."""
import struct
from dataclasses import astuple, dataclass
from ipaddress import IPv4Interface, IPv4Network, IPv6Interface, IPv6Network
from typing import ClassVar, Tuple, Union

from ._buffers import Order
from .values import FAMILIES, IPAddress, IPNetwork, Prefix

PrefixLike = Union[Prefix, IPNetwork, IPv4Interface, IPv6Interface]
"""An address and how many of its bits count."""
MARKS = {"little": "<", "big": ">"}


@dataclass(frozen=True)
class Head:
    """What a message of a family begins with. A field that a number doesn't fit is a ValueError
    where it is built."""

    _form: ClassVar[str]

    def packed(self, order: Order) -> bytes:
        """Its bytes, with numbers of this order."""
        try:
            return struct.pack(MARKS[order] + self._form, *astuple(self))
        except struct.error as error:
            raise ValueError(f"a number of {self} doesn't fit its field: {error}") from None


@dataclass(frozen=True)
class LinkHead(Head):
    """The head of a link, struct ifinfomsg."""

    _form = "BxHIII"

    family: int = 0
    """AF_UNSPEC, or the address family whose settings are meant."""
    type: int = 0
    """ARPHRD_*, which the kernel doesn't look at."""
    index: int = 0
    """The interface; 0 where its name says which it is, or for a new one."""
    flags: int = 0
    """The bits IFF_*."""
    change: int = 0
    """Which of them are to be taken over."""


@dataclass(frozen=True)
class AddressHead(Head):
    """The head of an address, struct ifaddrmsg."""

    _form = "BBBBI"

    family: int = 0
    """As AF_INET."""
    length: int = 0
    """How many bits of the address are those of its network."""
    flags: int = 0
    """The bits IFA_F_*, as far as they fit."""
    scope: int = 0
    """RT_SCOPE_*: where it holds."""
    index: int = 0
    """Its interface."""

    @classmethod
    def on(cls, prefix: PrefixLike, index: int) -> "AddressHead":
        """That of an address with the length of its network's prefix, on an interface."""
        family, length = family_and_length(prefix)
        return cls(family=family, length=length, index=index)


@dataclass(frozen=True)
class RouteHead(Head):
    """The head of a route, struct rtmsg.

    >>> from ipaddress import ip_network
    >>> RouteHead.to(ip_network("192.0.2.0/24"), type=1).destination_length
    24
    """

    _form = "BBBBBBBBI"

    family: int = 0
    """As AF_INET."""
    destination_length: int = 0
    """How many bits of the destination count, RTA_DST."""
    source_length: int = 0
    """The same of the source, RTA_SRC."""
    tos: int = 0
    """The type of service of packets."""
    table: int = 0
    """RT_TABLE_*; RTA_TABLE has one above 255."""
    protocol: int = 0
    """RTPROT_*: who makes it."""
    scope: int = 0
    """RT_SCOPE_*: how far its destination is."""
    type: int = 0
    """RTN_*: what becomes of a packet."""
    flags: int = 0
    """The bits RTM_F_* and RTNH_F_*."""

    @classmethod
    def to(cls, prefix: PrefixLike, **fields: int) -> "RouteHead":
        """That of a route to these addresses: its family and the length of its destination, and
        other fields."""
        family, length = family_and_length(prefix)
        return cls(family=family, destination_length=length, **fields)


@dataclass(frozen=True)
class NeighbourHead(Head):
    """The head of a neighbour, struct ndmsg."""

    _form = "BxxxIHBB"

    family: int = 0
    """As AF_INET, or AF_BRIDGE of an entry of a bridge."""
    index: int = 0
    """Its interface."""
    state: int = 0
    """The bits NUD_*."""
    flags: int = 0
    """The bits NTF_*."""
    type: int = 0
    """RTN_*."""


@dataclass(frozen=True)
class RuleHead(Head):
    """The head of a rule, struct fib_rule_hdr."""

    _form = "BBBBBxxBI"

    family: int = 0
    """As AF_INET."""
    destination_length: int = 0
    """How many bits of the destination count, FRA_DST."""
    source_length: int = 0
    """The same of the source, FRA_SRC."""
    tos: int = 0
    """The type of service of packets."""
    table: int = 0
    """RT_TABLE_*; FRA_TABLE has one above 255."""
    action: int = 0
    """FR_ACT_*: what it does."""
    flags: int = 0
    """The bits FIB_RULE_*."""


def address_and_length(prefix: PrefixLike) -> Tuple[IPAddress, int]:
    """The address of a prefix, as it is said, and how many bits of it count."""
    if isinstance(prefix, Prefix):
        return prefix.address, prefix.length
    if isinstance(prefix, (IPv4Interface, IPv6Interface)):
        return prefix.ip, prefix.network.prefixlen
    if isinstance(prefix, (IPv4Network, IPv6Network)):
        return prefix.network_address, prefix.prefixlen
    raise TypeError(f"{prefix!r} is no address with a length: take ip_network or ip_interface")


def family_and_length(prefix: PrefixLike) -> Tuple[int, int]:
    """The address family of a prefix, and how many bits of it count."""
    address, length = address_and_length(prefix)
    return int(FAMILIES[address.version]), length
