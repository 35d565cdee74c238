"""The names of message types and of attributes in the kernel's headers."""
from ctypes import create_string_buffer
from functools import lru_cache
from typing import Any, Optional

from ._buffers import within
from ._families import KEPT
from ._library import LIBRARY
from .errors import Code, require

# Room for any name: RTNLC_NAME.
LONGEST = 32


@lru_cache(maxsize=KEPT)
def type_name(kind: int) -> Optional[str]:
    """That of a message type, as RTM_NEWLINK or NLMSG_DONE; None of one of no family here.

    >>> type_name(16)
    'RTM_NEWLINK'
    """
    within(16, kind=kind)
    return _name(LIBRARY.rtnlc_type_name, kind)


@lru_cache(maxsize=KEPT)
def attribute_name(context: int, number: int) -> Optional[str]:
    """That of an attribute of this number where it stands, as IFLA_IFNAME; None where it has no
    name here. `context` is that of an Attribute, or of Attributes."""
    within(8, context=context)
    within(16, number=number)
    return _name(LIBRARY.rtnlc_attr_name, context, number)


def _name(call: Any, *numbers: int) -> Optional[str]:
    out = create_string_buffer(LONGEST)
    put = call(*numbers, out, LONGEST)
    if put.code == Code.END:
        return None
    require(put.code)
    return out.raw[: put.len].decode("ascii")
