"""Links: the interfaces of a machine."""
from typing import Optional

from ._families import LINK
from ._view import View
from .constants import (
    IFLA_ADDRESS,
    IFLA_BROADCAST,
    IFLA_GROUP,
    IFLA_IFALIAS,
    IFLA_IFNAME,
    IFLA_INFO_KIND,
    IFLA_LINK,
    IFLA_LINKINFO,
    IFLA_MASTER,
    IFLA_MTU,
    IFLA_OPERSTATE,
    IFLA_QDISC,
    IFLA_TXQLEN,
)
from .values import HardwareAddress

STATES = ("UNKNOWN", "NOTPRESENT", "DOWN", "LOWERLAYERDOWN", "TESTING", "DORMANT", "UP")
"""The word of each number IF_OPER_*."""


class Link(
    View, context=LINK, form="BxHiII", shown=("index", "name", "state", "mtu", "hardware_address")
):
    """RTM_NEWLINK, RTM_DELLINK or RTM_SETLINK: struct ifinfomsg, and attributes IFLA_*."""

    __slots__ = ()

    @property
    def family(self) -> int:
        """The address family, AF_UNSPEC for the link itself."""
        return self._head[0]

    @property
    def type(self) -> int:
        """ARPHRD_*, as 1 for Ethernet."""
        return self._head[1]

    @property
    def index(self) -> int:
        """The number by which the kernel knows it."""
        return self._head[2]

    @property
    def flags(self) -> int:
        """The bits IFF_*."""
        return self._head[3]

    @property
    def name(self) -> Optional[str]:
        """IFLA_IFNAME, decoded as names of files are."""
        return self.attributes.text(IFLA_IFNAME)

    @property
    def mtu(self) -> Optional[int]:
        """IFLA_MTU: the largest packet, in bytes."""
        return self.attributes.u32(IFLA_MTU)

    @property
    def hardware_address(self) -> Optional[HardwareAddress]:
        """IFLA_ADDRESS."""
        return self.attributes.hardware_address(IFLA_ADDRESS)

    @property
    def broadcast(self) -> Optional[HardwareAddress]:
        """IFLA_BROADCAST."""
        return self.attributes.hardware_address(IFLA_BROADCAST)

    @property
    def operstate(self) -> Optional[int]:
        """IFLA_OPERSTATE: IF_OPER_*."""
        return self.attributes.u8(IFLA_OPERSTATE)

    @property
    def state(self) -> Optional[str]:
        """The word of IFLA_OPERSTATE, as `ip link` has it; None for a number without one."""
        found = self.operstate
        return None if found is None or found >= len(STATES) else STATES[found]

    @property
    def kind(self) -> Optional[str]:
        """IFLA_INFO_KIND in IFLA_LINKINFO, as `bridge`; hardware has none."""
        found = self.attributes.attributes(IFLA_LINKINFO)
        return None if found is None else found.text(IFLA_INFO_KIND)

    @property
    def master(self) -> Optional[int]:
        """IFLA_MASTER: the index of the link that it belongs to, as a bridge."""
        return self.attributes.u32(IFLA_MASTER)

    @property
    def link(self) -> Optional[int]:
        """IFLA_LINK: the index of the link below it, as that of a VLAN."""
        return self.attributes.u32(IFLA_LINK)

    @property
    def alias(self) -> Optional[str]:
        """IFLA_IFALIAS: a text that an administrator gave it."""
        return self.attributes.text(IFLA_IFALIAS)

    @property
    def qdisc(self) -> Optional[str]:
        """IFLA_QDISC: the name of its queueing discipline."""
        return self.attributes.text(IFLA_QDISC)

    @property
    def queue_length(self) -> Optional[int]:
        """IFLA_TXQLEN: how many packets wait to be sent at most."""
        return self.attributes.u32(IFLA_TXQLEN)

    @property
    def group(self) -> Optional[int]:
        """IFLA_GROUP."""
        return self.attributes.u32(IFLA_GROUP)
