"""Addresses of links."""
from typing import Optional

from . import values
from ._families import ADDR
from ._view import View
from .constants import (
    IFA_ADDRESS,
    IFA_BROADCAST,
    IFA_FLAGS,
    IFA_LABEL,
    IFA_LOCAL,
    IFA_PROTO,
    IFA_RT_PRIORITY,
)
from .values import IPAddress, Prefix


class Address(View, context=ADDR, form="BBBBI", shown=("prefix", "index", "label")):
    """RTM_NEWADDR or RTM_DELADDR: struct ifaddrmsg, and attributes IFA_*."""

    __slots__ = ()

    @property
    def family(self) -> int:
        """The address family, as AF_INET."""
        return self._head[0]

    @property
    def scope(self) -> int:
        """RT_SCOPE_*."""
        return self._head[3]

    @property
    def index(self) -> int:
        """The number of the link that has it."""
        return self._head[4]

    @property
    def prefix(self) -> Optional[Prefix]:
        """IFA_ADDRESS, with its length. Of a point-to-point link it is that of the other end, and
        `local` is the link's own."""
        return values.prefix(self.attributes.address(IFA_ADDRESS), self._head[1])

    @property
    def local(self) -> Optional[IPAddress]:
        """IFA_LOCAL."""
        return self.attributes.address(IFA_LOCAL)

    @property
    def broadcast(self) -> Optional[IPAddress]:
        """IFA_BROADCAST."""
        return self.attributes.address(IFA_BROADCAST)

    @property
    def label(self) -> Optional[str]:
        """IFA_LABEL: the link's name, or what it was called for this address."""
        return self.attributes.text(IFA_LABEL)

    @property
    def flags(self) -> int:
        """The bits IFA_F_*: IFA_FLAGS, or else the lowest eight of the head."""
        found = self.attributes.u32(IFA_FLAGS)
        return self._head[2] if found is None else found

    @property
    def priority(self) -> Optional[int]:
        """IFA_RT_PRIORITY: the priority of the route that comes with it."""
        return self.attributes.u32(IFA_RT_PRIORITY)

    @property
    def protocol(self) -> Optional[int]:
        """IFA_PROTO: who set it."""
        return self.attributes.u8(IFA_PROTO)
