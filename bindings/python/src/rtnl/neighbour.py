"""Neighbours: what stands behind an address on a link."""
from typing import Optional

from ._families import NEIGH
from ._view import View
from .constants import NDA_DST, NDA_LLADDR, NDA_MASTER, NDA_PROBES, NDA_VLAN, NDA_VNI
from .values import HardwareAddress, IPAddress


class Neighbour(
    View, context=NEIGH, form="BxxxiHBB", shown=("address", "hardware_address", "index", "state")
):
    """RTM_NEWNEIGH or RTM_DELNEIGH: struct ndmsg, and attributes NDA_*."""

    __slots__ = ()

    @property
    def family(self) -> int:
        """The address family, as AF_INET; AF_BRIDGE for an entry of a bridge."""
        return self._head[0]

    @property
    def index(self) -> int:
        """The number of the link that it is on."""
        return self._head[1]

    @property
    def state(self) -> int:
        """The bits NUD_*."""
        return self._head[2]

    @property
    def flags(self) -> int:
        """The bits NTF_*."""
        return self._head[3]

    @property
    def type(self) -> int:
        """RTN_*."""
        return self._head[4]

    @property
    def address(self) -> Optional[IPAddress]:
        """NDA_DST."""
        return self.attributes.address(NDA_DST)

    @property
    def hardware_address(self) -> Optional[HardwareAddress]:
        """NDA_LLADDR: its address on the link; none while it is not resolved."""
        return self.attributes.hardware_address(NDA_LLADDR)

    @property
    def master(self) -> Optional[int]:
        """NDA_MASTER: the number of the bridge that the link belongs to."""
        return self.attributes.u32(NDA_MASTER)

    @property
    def probes(self) -> Optional[int]:
        """NDA_PROBES: how often it was asked for."""
        return self.attributes.u32(NDA_PROBES)

    @property
    def vlan(self) -> Optional[int]:
        """NDA_VLAN."""
        return self.attributes.u16(NDA_VLAN)

    @property
    def vni(self) -> Optional[int]:
        """NDA_VNI."""
        return self.attributes.u32(NDA_VNI)
