"""Requests that change something: each is one message, with the bytes that ip(8) sends."""
import ctypes
import enum
import os
import socket
from dataclasses import dataclass, field
from ipaddress import IPv4Address, IPv6Address
from typing import Any, ClassVar, Mapping, NamedTuple, Optional, Sequence, Tuple

from . import _structs
from ._buffers import Readable, plain, within
from ._library import LIBRARY
from .builder import hops_of, require
from .errors import Code
from .head import PrefixLike, address_and_length
from .limits import STANDARD, Limits
from .values import FAMILIES, IPAddress

# Room for most messages, and for the longest that is not refused with an attribute of the longest
# behind it: with that much the limit of 65,536 bytes is met before the end of the room.
USUAL, MOST = 1024, 2 * 65536


class Operation(enum.IntEnum):
    """What a request asks for, in the words of ip(8): `enum rtnlc_operation`. Each has
    NLM_F_REQUEST and NLM_F_ACK, so the kernel answers it, with an error or an acknowledgement."""

    ADD = 0
    """Made, and refused where it is there: NLM_F_CREATE and NLM_F_EXCL."""
    REPLACE = 1
    """Made, or put in the place of what is there: NLM_F_CREATE and NLM_F_REPLACE."""
    CHANGE = 2
    """Put in the place of what is there: NLM_F_REPLACE. Links take SET."""
    APPEND = 3
    """Made behind those that are there: NLM_F_CREATE and NLM_F_APPEND. Of routes, and of a
    bridge's entries."""
    PREPEND = 4
    """Made before those that are there: NLM_F_CREATE. Of routes."""
    SET = 5
    """Fields of what is there are set: no flag besides. Of links."""
    DELETE = 6
    """Taken away: a message of the type DEL; those above are of the type NEW."""


@dataclass(frozen=True)
class Request:
    """A link, an address, a route, a neighbour or a rule, as the kernel is asked to make it, to
    change it or to take it away. Its fields have the names that the views have.

    >>> link = LinkRequest(name="eth0", up=True)
    >>> link.packed(Operation.SET, seq=1, limits=Limits(big=False)).hex(" ", 8)
    '2c000000 1000050001000000 0000000000000000 0000000001000000 0100000009000300 6574683000000000'

    What is None is not put, and neither is a text, nor bytes, of length 0. Numbers are put as they
    are: 0 is a number, as that of a `master`. A `family` that is 0 is none that is said.
    """

    _call: ClassVar[Any]

    def packed(self, operation: Operation, seq: int = 0, limits: Limits = STANDARD) -> bytes:
        """Its message, of port id 0, with numbers in the order of the limits, which say no more
        here: the type and flags of the operation, the head, and the attributes that are there, in
        the order in which ip(8) sends them.

        It is a datagram of its own. Its length is a multiple of four, so several in one datagram
        are put one behind another, as by `b"".join`; the kernel answers each, by its `seq`.

        What the kernel would refuse is put as it is: an address of another version than its
        family's, or an operation that the family doesn't know. An Error has the code TOO_LONG for
        an attribute of more than 65,535 bytes; MISMATCH for a metric's number of 16,384 or more;
        TOO_LARGE for a message of more than 65,536 bytes. A number that doesn't fit its field, or
        that is no Operation, is a ValueError; and what is no address is a TypeError.
        """
        within(32, seq=seq)
        made, number = self._made(), Operation(operation).value
        for room in (USUAL, MOST):
            out = ctypes.create_string_buffer(room)
            put = self._call(ctypes.byref(made), number, seq, limits.big, out, room)
            if put.code != Code.NO_ROOM:
                break
        require(put.code)
        return ctypes.string_at(out, put.len)

    def _made(self) -> ctypes.Structure:
        """The struct of the library. Whatever it points to is kept with it."""
        raise NotImplementedError


@dataclass(frozen=True)
class LinkRequest(Request):
    """A link: the one with `index`; or, where that is 0, the one with `name`. ADD, REPLACE, SET
    and DELETE are for links."""

    _call = LIBRARY.rtnlc_request_link

    name: Optional[str] = None
    """IFLA_IFNAME: which one it is; beside an index, its new name."""
    index: int = 0
    """0 where its name says which it is, or the kernel chooses the index of a new one."""
    up: Optional[bool] = None
    """IFF_UP: it is brought up, or down; None leaves it as it is."""
    mtu: Optional[int] = None
    """IFLA_MTU: the largest packet, in bytes."""
    master: Optional[int] = None
    """IFLA_MASTER: the index of the link that it is to belong to, as a bridge; 0 takes it out."""
    link: Optional[int] = None
    """IFLA_LINK: the index of the link below it, as that of a VLAN."""
    hardware_address: Optional[Readable] = None
    """IFLA_ADDRESS, as a HardwareAddress or other bytes."""
    kind: Optional[str] = None
    """IFLA_INFO_KIND of a virtual link, as `vlan`."""
    data: Optional[Readable] = None
    """IFLA_INFO_DATA: attributes of the kind's own, as their bytes; not put without a kind."""

    def _made(self) -> ctypes.Structure:
        made = _structs.LinkRequest(
            name=_text(self.name),
            address=_bytes(self.hardware_address),
            kind=_text(self.kind),
            data=_bytes(self.data),
            has_up=self.up is not None,
            up=bool(self.up),
        )
        _put(made, 31, index=self.index)
        _put_given(made, 32, mtu=self.mtu, master=self.master, link=self.link)
        return made


class Lifetimes(NamedTuple):
    """How long an address is preferred, and how long valid, in seconds; 2**32 - 1 is for ever."""

    preferred: int = 0xFFFFFFFF
    valid: int = 0xFFFFFFFF


@dataclass(frozen=True)
class AddressRequest(Request):
    """An address of a link. ADD, REPLACE, CHANGE and DELETE are for addresses."""

    _call = LIBRARY.rtnlc_request_addr

    local: PrefixLike
    """IFA_LOCAL: the link's own address, as of an ip_interface(), and the length of its network's
    prefix."""
    index: int
    """The index of its link."""
    peer: Optional[PrefixLike] = None
    """IFA_ADDRESS: that of the other end of a point-to-point link, whose length counts then, and
    not that of `local`; None puts the own one."""
    broadcast: Optional[IPAddress] = None
    """IFA_BROADCAST."""
    label: Optional[str] = None
    """IFA_LABEL: what the link is called for this address."""
    flags: int = 0
    """The bits IFA_F_*: those above 255 stand in IFA_FLAGS."""
    scope: int = 0
    """RT_SCOPE_*: where it holds."""
    lifetimes: Optional[Lifetimes] = None
    """IFA_CACHEINFO."""

    def _made(self) -> ctypes.Structure:
        address, length = address_and_length(self.local)
        peer = None
        if self.peer is not None:
            peer, length = address_and_length(self.peer)
        made = _structs.AddrRequest(
            local=_address("local", address),
            peer=_address("peer", peer),
            broadcast=_address("broadcast", self.broadcast),
            label=_text(self.label),
            has_lifetimes=self.lifetimes is not None,
            family=FAMILIES[address.version],
        )
        _put(made, 32, index=self.index, flags=self.flags)
        _put(made, 8, prefix_length=length, scope=self.scope)
        if self.lifetimes is not None:
            preferred, valid = self.lifetimes
            _put(made, 32, preferred=preferred, valid=valid)
        return made


@dataclass(frozen=True)
class NextHopRequest:
    """One of several next hops of a RouteRequest: struct rtnexthop."""

    gateway: Optional[IPAddress] = None
    """RTA_GATEWAY."""
    index: int = 0
    """The index of the link that packets leave by; 0 for none."""
    weight: int = 1
    """Its share of the packets beside the others, as `weight` of ip(8): from 1 to 256. The
    kernel's field, `rtnh_hops`, has one less."""
    flags: int = 0
    """The bits RTNH_F_*."""

    def _made(self) -> _structs.NextHop:
        packed = _packed("gateway", self.gateway) or b""
        made = _structs.NextHop(hops=hops_of(self.weight), gateway_len=len(packed))
        made.gateway[: len(packed)] = packed
        _put(made, 31, index=self.index)
        _put(made, 8, flags=self.flags)
        return made


@dataclass(frozen=True)
class RouteRequest(Request):
    """A route. All operations but SET are for routes.

    ip(8) makes one with the table RT_TABLE_MAIN, the protocol RTPROT_BOOT and the type
    RTN_UNICAST, and for IPv4 with the scope RT_SCOPE_LINK where there is no gateway; it deletes
    one with that table, protocol and type 0, and for IPv4 the scope RT_SCOPE_NOWHERE.
    """

    _call = LIBRARY.rtnlc_request_route

    destination: Optional[PrefixLike] = None
    """RTA_DST, with its length; None of the default route."""
    gateway: Optional[IPAddress] = None
    """RTA_GATEWAY."""
    index: Optional[int] = None
    """RTA_OIF: the index of the link that packets leave by."""
    table: int = 0
    """RT_TABLE_*: one above 255 stands in RTA_TABLE."""
    protocol: int = 0
    """RTPROT_*: who makes it."""
    type: int = 0
    """RTN_*: what becomes of a packet."""
    scope: int = 0
    """RT_SCOPE_*: how far its destination is."""
    priority: Optional[int] = None
    """RTA_PRIORITY: its metric; of two routes the lesser one counts."""
    preferred_source: Optional[IPAddress] = None
    """RTA_PREFSRC: the address that packets of this machine are given."""
    source: Optional[PrefixLike] = None
    """RTA_SRC, with its length: the packets that it is for."""
    tos: int = 0
    """The type of service that it is for."""
    flags: int = 0
    """RTNH_F_ONLINK for a gateway that is on the link."""
    metrics: Mapping[int, int] = field(default_factory=dict)
    """RTA_METRICS: the value of each number RTAX_*, in this order; not put where it is empty."""
    hops: Sequence[NextHopRequest] = ()
    """RTA_MULTIPATH: several next hops in the place of one; not put where it is empty."""
    family: Optional[int] = None
    """As AF_INET6. None, as AF_UNSPEC, is that of its first address: of the destination, the
    source, the gateway, the preferred source and the gateways of the hops; and AF_INET where it
    has none, as by ip(8)."""

    def _made(self) -> ctypes.Structure:
        destination, destination_length = _prefix(self.destination)
        source, source_length = _prefix(self.source)
        metrics, hops = _metrics(self.metrics), [*self.hops]
        gateways = [it.gateway for it in hops]
        own = [destination, source, self.gateway, self.preferred_source, *gateways]
        made = _structs.RouteRequest(
            destination=_address("destination", destination),
            source=_address("source", source),
            gateway=_address("gateway", self.gateway),
            preferred_source=_address("preferred_source", self.preferred_source),
            metrics=metrics,
            metric_count=len(metrics),
            hops=(_structs.NextHop * len(hops))(*(it._made() for it in hops)),
            hop_count=len(hops),
        )
        _put(made, 32, table=self.table, flags=self.flags)
        _put(made, 8, destination_length=destination_length, source_length=source_length)
        _put(made, 8, family=_family(self.family, socket.AF_INET, *own), tos=self.tos)
        _put(made, 8, protocol=self.protocol, scope=self.scope)
        _put_given(made, 32, priority=self.priority)
        # Two that have other names in the library.
        within(8, type=self.type)
        made.route_type = self.type
        if self.index is not None:
            within(32, index=self.index)
            made.oif, made.has_oif = self.index, True
        return made


@dataclass(frozen=True)
class NeighbourRequest(Request):
    """A neighbour. ADD, REPLACE, CHANGE and DELETE are for neighbours, and APPEND for entries of a
    bridge."""

    _call = LIBRARY.rtnlc_request_neigh

    address: Optional[IPAddress] = None
    """NDA_DST."""
    index: int = 0
    """The index of its link."""
    hardware_address: Optional[Readable] = None
    """NDA_LLADDR, as a HardwareAddress or other bytes: its address on the link."""
    state: int = 0
    """The bits NUD_*: ip(8) takes NUD_PERMANENT where none is said."""
    flags: int = 0
    """The bits NTF_*."""
    vlan: Optional[int] = None
    """NDA_VLAN, of an entry of a bridge."""
    family: Optional[int] = None
    """As AF_BRIDGE of an entry of a bridge. None, as AF_UNSPEC, is that of its address, and
    AF_BRIDGE where it has none."""

    def _made(self) -> ctypes.Structure:
        made = _structs.NeighRequest(
            destination=_address("address", self.address),
            link_address=_bytes(self.hardware_address),
        )
        _put(made, 31, index=self.index)
        _put(made, 16, state=self.state)
        family = _family(self.family, socket.AF_BRIDGE, self.address)
        _put(made, 8, flags=self.flags, family=family)
        _put_given(made, 16, vlan=self.vlan)
        return made


@dataclass(frozen=True)
class RuleRequest(Request):
    """A rule. ADD and DELETE are for rules.

    One that is added has the action FR_ACT_TO_TBL and a table, or another action and table 0;
    ip(8) deletes one with action 0.
    """

    _call = LIBRARY.rtnlc_request_rule

    source: Optional[PrefixLike] = None
    """FRA_SRC, with its length: `from`."""
    destination: Optional[PrefixLike] = None
    """FRA_DST, with its length: `to`."""
    action: int = 0
    """FR_ACT_*: what it does."""
    table: int = 0
    """RT_TABLE_*: one above 255 stands in FRA_TABLE."""
    priority: Optional[int] = None
    """FRA_PRIORITY: the lesser one is looked at first."""
    mark: Optional[int] = None
    """FRA_FWMARK: the mark of the packets that it is for."""
    mask: Optional[int] = None
    """FRA_FWMASK: the bits of the mark that count."""
    input_name: Optional[str] = None
    """FRA_IIFNAME: the name of the link that packets come by."""
    output_name: Optional[str] = None
    """FRA_OIFNAME: the name of the link that packets leave by."""
    target: Optional[int] = None
    """FRA_GOTO: the priority of the rule that is looked at next, of the action FR_ACT_GOTO."""
    suppress_prefix_length: Optional[int] = None
    """FRA_SUPPRESS_PREFIXLEN: routes of the table with no more bits than this are passed over."""
    invert: bool = False
    """FIB_RULE_INVERT: it is for the packets that don't match."""
    tos: int = 0
    """The type of service that it is for."""
    family: Optional[int] = None
    """As AF_INET6. None, as AF_UNSPEC, is that of the source, or else that of the destination, and
    AF_INET where it has neither, as by ip(8)."""

    def _made(self) -> ctypes.Structure:
        source, source_length = _prefix(self.source)
        destination, destination_length = _prefix(self.destination)
        made = _structs.RuleRequest(
            source=_address("source", source),
            destination=_address("destination", destination),
            iif=_text(self.input_name),
            oif=_text(self.output_name),
            invert=self.invert,
        )
        _put(made, 8, source_length=source_length, destination_length=destination_length)
        family = _family(self.family, socket.AF_INET, source, destination)
        _put(made, 8, family=family, tos=self.tos, action=self.action)
        _put(made, 32, table=self.table)
        _put_given(made, 32, mark=self.mark, mask=self.mask, target=self.target)
        _put_given(made, 32, suppress_prefix_length=self.suppress_prefix_length)
        _put_given(made, 32, priority=self.priority)
        return made


def _bytes(data: Optional[Readable]) -> _structs.Bytes:
    """These bytes, or none."""
    own = b"" if data is None else plain(data)
    return _structs.Bytes(own, len(own))


def _text(text: Optional[str]) -> _structs.Bytes:
    """A text without a zero byte, encoded as names of files are."""
    return _bytes(None if text is None else os.fsencode(text))


def _packed(name: str, address: Optional[IPAddress]) -> Optional[bytes]:
    """The bytes of an address: 4 or 16. A TypeError where it is none of the module ipaddress."""
    if address is None:
        return None
    if not isinstance(address, (IPv4Address, IPv6Address)):
        raise TypeError(f"{name} must be an IPv4Address or an IPv6Address, not {address!r}")
    return plain(address.packed)


def _address(name: str, address: Optional[IPAddress]) -> _structs.Bytes:
    return _bytes(_packed(name, address))


def _prefix(prefix: Optional[PrefixLike]) -> Tuple[Optional[IPAddress], int]:
    """The address of a prefix and its length, or none."""
    return (None, 0) if prefix is None else address_and_length(prefix)


def _family(family: Optional[int], other: int, *addresses: Optional[IPAddress]) -> int:
    """The family that is said, or else that of the first address, or another one: the kernel
    refuses a request of AF_UNSPEC."""
    if family is not None and family != socket.AF_UNSPEC:
        return family
    return next((FAMILIES[it.version] for it in addresses if it is not None), other)


def _metrics(metrics: Mapping[int, int]) -> Any:
    """An array of them."""
    rows = [*metrics.items()]
    for number, value in rows:
        within(16, metric=number)
        within(32, value=value)
    return (_structs.Metric * len(rows))(*(_structs.Metric(*it) for it in rows))


def _put(made: ctypes.Structure, bits: int, **numbers: int) -> None:
    """Sets numbers of a struct that have so many bits. A ValueError where one doesn't fit."""
    within(bits, **numbers)
    for name, value in numbers.items():
        setattr(made, name, value)


def _put_given(made: ctypes.Structure, bits: int, **numbers: Optional[int]) -> None:
    """The same of those that are there, and that they are."""
    for name, value in numbers.items():
        if value is not None:
            _put(made, bits, **{name: value})
            setattr(made, f"has_{name}", True)
