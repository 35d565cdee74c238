"""A proved reader and builder of rtnetlink datagrams (netlink(7), rtnetlink(7)), over the library
librtnlc.

A datagram is bytes: what one receive on a netlink socket gave. Nothing here opens a socket.

* Datagram: the messages of a datagram, their attributes, and views of the five families: Link,
  Address, Route, Neighbour and Rule. Of what breaks a rule it raises an Error, with its place.
* Session: reads dumps into bounded tables.
* Stream: reads dumps of any length in constant space. A MessageList keeps what it hands out.
* Builder: puts messages, with a LinkHead, AddressHead, RouteHead, NeighbourHead or RuleHead, and
  hands out a datagram that is never malformed.
* LinkRequest, AddressRequest, RouteRequest, NeighbourRequest and RuleRequest: one message each,
  that asks the kernel for an Operation.
* scan, tape, check and show: what the library says of a datagram.

The kernel's numbers, as RTM_NEWLINK, are in rtnl.constants.
"""
from ._loading import VERSION as __version__
from ._view import View
from .address import Address
from .attributes import Attribute, Attributes, NextHop, NextHops
from .builder import Builder
from .datagram import Datagram, Event, Scanned, Taped, scan, tape
from .dump import Dump, State, Status, request
from .errors import Code, Error, LibraryError
from .head import AddressHead, Head, LinkHead, NeighbourHead, RouteHead, RuleHead
from .limits import Limits
from .link import Link
from .message import Message, Messages
from .message_list import MessageList
from .names import attribute_name, type_name
from .neighbour import Neighbour
from .requests import (
    AddressRequest,
    Lifetimes,
    LinkRequest,
    NeighbourRequest,
    NextHopRequest,
    Operation,
    Request,
    RouteRequest,
    RuleRequest,
)
from .route import Route
from .rule import Rule
from .session import Fed, Session
from .stream import Items, Stream
from .table import Table
from .text import Checked, check, show
from .values import HardwareAddress, Prefix

__all__ = [
    "Address",
    "AddressHead",
    "AddressRequest",
    "Attribute",
    "Attributes",
    "Builder",
    "Checked",
    "Code",
    "Datagram",
    "Dump",
    "Error",
    "Event",
    "Fed",
    "HardwareAddress",
    "Head",
    "Items",
    "LibraryError",
    "Lifetimes",
    "Limits",
    "Link",
    "LinkHead",
    "LinkRequest",
    "Message",
    "MessageList",
    "Messages",
    "Neighbour",
    "NeighbourHead",
    "NeighbourRequest",
    "NextHop",
    "NextHopRequest",
    "NextHops",
    "Operation",
    "Prefix",
    "Request",
    "Route",
    "RouteHead",
    "RouteRequest",
    "Rule",
    "RuleHead",
    "RuleRequest",
    "Scanned",
    "Session",
    "State",
    "Status",
    "Stream",
    "Table",
    "Taped",
    "View",
    "__version__",
    "attribute_name",
    "check",
    "request",
    "scan",
    "show",
    "tape",
    "type_name",
]
