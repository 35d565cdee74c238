"""Routes."""
from typing import Optional

from . import values
from ._families import ROUTE
from ._view import View
from .attributes import Attributes, NextHops, gateway
from .constants import (
    RTA_DST,
    RTA_IIF,
    RTA_MARK,
    RTA_METRICS,
    RTA_MULTIPATH,
    RTA_OIF,
    RTA_PREFSRC,
    RTA_PRIORITY,
    RTA_SRC,
    RTA_TABLE,
)
from .values import IPAddress, Prefix


class Route(
    View, context=ROUTE, form="BBBBBBBBI", shown=("destination", "gateway", "index", "table")
):
    """RTM_NEWROUTE or RTM_DELROUTE: struct rtmsg, and attributes RTA_*."""

    __slots__ = ()

    @property
    def family(self) -> int:
        """The address family, as AF_INET."""
        return self._head[0]

    @property
    def destination_length(self) -> int:
        """The bits of the destination that count: 0 of a default route."""
        return self._head[1]

    @property
    def tos(self) -> int:
        """The type of service that it is for, or 0."""
        return self._head[3]

    @property
    def table(self) -> int:
        """The number of its table: RTA_TABLE, or else that of the head."""
        found = self.attributes.u32(RTA_TABLE)
        return self._head[4] if found is None else found

    @property
    def protocol(self) -> int:
        """Who set it: RTPROT_*."""
        return self._head[5]

    @property
    def scope(self) -> int:
        """RT_SCOPE_*."""
        return self._head[6]

    @property
    def type(self) -> int:
        """What becomes of a packet: RTN_*."""
        return self._head[7]

    @property
    def flags(self) -> int:
        """The bits RTM_F_* and RTNH_F_*."""
        return self._head[8]

    @property
    def destination(self) -> Optional[Prefix]:
        """RTA_DST, with its length; a default route has none."""
        return values.prefix(self.attributes.address(RTA_DST), self._head[1])

    @property
    def source(self) -> Optional[Prefix]:
        """RTA_SRC, with its length: the packets that it is for."""
        return values.prefix(self.attributes.address(RTA_SRC), self._head[2])

    @property
    def gateway(self) -> Optional[IPAddress]:
        """RTA_GATEWAY, or else the address in RTA_VIA."""
        return gateway(self.attributes)

    @property
    def index(self) -> Optional[int]:
        """RTA_OIF: the number of the link that packets leave by."""
        return self.attributes.u32(RTA_OIF)

    @property
    def input_index(self) -> Optional[int]:
        """RTA_IIF: the number of the link that packets come by."""
        return self.attributes.u32(RTA_IIF)

    @property
    def preferred_source(self) -> Optional[IPAddress]:
        """RTA_PREFSRC: the address that packets of this machine are given."""
        return self.attributes.address(RTA_PREFSRC)

    @property
    def priority(self) -> Optional[int]:
        """RTA_PRIORITY: its metric; of two routes the lesser one counts."""
        return self.attributes.u32(RTA_PRIORITY)

    @property
    def mark(self) -> Optional[int]:
        """RTA_MARK."""
        return self.attributes.u32(RTA_MARK)

    @property
    def metrics(self) -> Optional[Attributes]:
        """RTA_METRICS: the attributes RTAX_* in it."""
        return self.attributes.attributes(RTA_METRICS)

    @property
    def hops(self) -> Optional[NextHops]:
        """RTA_MULTIPATH: its next hops, each with an index and a gateway of its own."""
        return self.attributes.hops(RTA_MULTIPATH)
