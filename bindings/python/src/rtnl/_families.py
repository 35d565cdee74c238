"""What the library says of message types and of what attributes hold, asked for once."""
from functools import lru_cache

from ._library import LIBRARY

# enum rtnlc_context
NO_CONTEXT, LINK, LINK_INFO, ADDR, ROUTE, METRICS, NEIGH, RULE, PLAIN = range(9)
# Message types and attributes that are asked for again are few; others must not fill the memory.
KEPT = 512


@lru_cache(maxsize=KEPT)
def context_of(kind: int) -> int:
    """The context of the attributes that a message of this type has; 0 where none are read."""
    found: int = LIBRARY.rtnlc_family_of(kind).context
    return found


@lru_cache(maxsize=KEPT)
def holds(context: int, number: int, nested: bool) -> int:
    """The context of what an attribute holds."""
    found: int = LIBRARY.rtnlc_holds(context, number, nested).context
    return found
