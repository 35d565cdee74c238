"""Rules: which table is looked at for a packet."""
from typing import Optional

from . import values
from ._families import RULE
from ._view import View
from .constants import (
    FRA_DST,
    FRA_FWMARK,
    FRA_FWMASK,
    FRA_GOTO,
    FRA_IIFNAME,
    FRA_OIFNAME,
    FRA_PRIORITY,
    FRA_PROTOCOL,
    FRA_SRC,
    FRA_TABLE,
)
from .values import Prefix


class Rule(
    View,
    context=RULE,
    form="BBBBBxxBI",
    shown=("priority", "source", "destination", "mark", "table"),
):
    """RTM_NEWRULE or RTM_DELRULE: struct fib_rule_hdr, and attributes FRA_*."""

    __slots__ = ()

    @property
    def family(self) -> int:
        """The address family, as AF_INET."""
        return self._head[0]

    @property
    def tos(self) -> int:
        """The type of service that it is for, or 0."""
        return self._head[3]

    @property
    def table(self) -> int:
        """The number of its table: FRA_TABLE, or else that of the head."""
        found = self.attributes.u32(FRA_TABLE)
        return self._head[4] if found is None else found

    @property
    def action(self) -> int:
        """What it does: FR_ACT_*."""
        return self._head[5]

    @property
    def flags(self) -> int:
        """The bits FIB_RULE_*."""
        return self._head[6]

    @property
    def priority(self) -> Optional[int]:
        """FRA_PRIORITY: the lesser one is looked at first; the kernel leaves 0 out."""
        return self.attributes.u32(FRA_PRIORITY)

    @property
    def mark(self) -> Optional[int]:
        """FRA_FWMARK: the mark of the packets that it is for."""
        return self.attributes.u32(FRA_FWMARK)

    @property
    def mask(self) -> Optional[int]:
        """FRA_FWMASK: the bits of the mark that count."""
        return self.attributes.u32(FRA_FWMASK)

    @property
    def source(self) -> Optional[Prefix]:
        """FRA_SRC, with its length: `from`."""
        return values.prefix(self.attributes.address(FRA_SRC), self._head[2])

    @property
    def destination(self) -> Optional[Prefix]:
        """FRA_DST, with its length: `to`."""
        return values.prefix(self.attributes.address(FRA_DST), self._head[1])

    @property
    def input_name(self) -> Optional[str]:
        """FRA_IIFNAME: the name of the link that packets come by."""
        return self.attributes.text(FRA_IIFNAME)

    @property
    def output_name(self) -> Optional[str]:
        """FRA_OIFNAME: the name of the link that packets leave by."""
        return self.attributes.text(FRA_OIFNAME)

    @property
    def target(self) -> Optional[int]:
        """FRA_GOTO: the priority of the rule that is looked at next."""
        return self.attributes.u32(FRA_GOTO)

    @property
    def protocol(self) -> Optional[int]:
        """FRA_PROTOCOL: who set it."""
        return self.attributes.u8(FRA_PROTOCOL)
