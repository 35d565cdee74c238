"""The limits of a reading."""
import ctypes
import sys
from dataclasses import dataclass, field, fields
from typing import Any

from ._buffers import Order
from ._library import LIBRARY
from ._structs import Options
from .errors import Code, Error, require


@dataclass(frozen=True)
class Limits:
    """The limits of a call, of a session or of a stream. One that is out of its range is an Error
    with the code BAD_LIMIT.

    >>> Limits(depth=33)
    Traceback (most recent call last):
    rtnl.errors.Error: bad limit
    """

    total: int = 1 << 30
    """Bytes of all datagrams of a session or a stream at most: 0 to 2**40."""
    datagram: int = 65536
    """Bytes of a datagram at most: a multiple of 4 from 16 to 1,048,576."""
    entries: int = 4096
    """Entries of each table of a session at most: 0 to 65,536."""
    depth: int = 8
    """Levels that containers may open at most: 0 to 32."""
    big: bool = sys.byteorder == "big"
    """Numbers have their highest byte first, as on s390x; by default as on this machine."""
    pointer: Any = field(init=False, repr=False, compare=False)
    """To the struct of the library. It is for calls of the package."""

    def __post_init__(self) -> None:
        values = {it.name: getattr(self, it.name) for it in fields(self) if it.init}
        options = Options(**values)
        # The numbers of a struct wrap around: one that doesn't fit is out of its range, too.
        if any(getattr(options, name) != value for name, value in values.items()):
            raise Error(Code.BAD_LIMIT)
        object.__setattr__(self, "pointer", ctypes.pointer(options))
        require(LIBRARY.rtnlc_scan(None, 0, self.pointer).code)

    @property
    def order(self) -> Order:
        """The order of numbers: `little` or `big`."""
        return "big" if self.big else "little"


STANDARD = Limits()
"""The limits that hold where none are handed in."""
