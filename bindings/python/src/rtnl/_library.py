"""The calls of the shared library, which is loaded here."""
import ctypes
from ctypes import (
    POINTER,
    c_bool,
    c_char_p,
    c_int32,
    c_size_t,
    c_uint8,
    c_uint16,
    c_uint32,
    c_uint64,
    c_void_p,
)
from typing import Any, Dict, Tuple

from . import _loading
from ._structs import (
    AddrRequest,
    Builder,
    Change,
    Checked,
    Event,
    Family,
    Fed,
    Found,
    Heard,
    Holds,
    LinkRequest,
    Mirror,
    Mirrored,
    NeighRequest,
    Options,
    Put,
    RouteRequest,
    RuleRequest,
    Scanned,
    Session,
    Shown,
    Status,
    Stream,
    Table,
    Taped,
)


class Bytes(c_void_p):
    """const uint8_t *: bytes that a call reads."""


class Room(c_void_p):
    """uint8_t *: room that a call writes bytes to."""


class Text(c_void_p):
    """char *: room that a call writes a text to."""


class Data(c_void_p):
    """const void *: bytes of any sort that a call reads."""


class ReadText(c_void_p):
    """const char *: a text that a call reads."""


SESSION, STREAM, OPTIONS = POINTER(Session), POINTER(Stream), POINTER(Options)
EVENTS, BUILDER = POINTER(Event), POINTER(Builder)
MIRROR, CHANGES = POINTER(Mirror), POINTER(Change)
DATAGRAM = (Bytes, c_size_t)
REQUEST = (c_uint16, c_uint8, c_uint32, c_uint32, Room, c_size_t)
# What stands behind the struct of a request that changes something.
CHANGE = (c_uint8, c_uint32, c_bool, Room, c_size_t)

# What each call answers, and its arguments.
CALLS: Dict[str, Tuple[Any, Tuple[Any, ...]]] = {
    "rtnlc_scan": (Scanned, (*DATAGRAM, OPTIONS)),
    "rtnlc_tape": (Taped, (*DATAGRAM, OPTIONS, EVENTS, c_size_t)),
    "rtnlc_check": (Checked, (*DATAGRAM, OPTIONS)),
    "rtnlc_show": (Shown, (c_size_t, *DATAGRAM, OPTIONS, Text, c_size_t)),
    "rtnlc_family_of": (Family, (c_uint16,)),
    "rtnlc_holds": (Holds, (c_uint8, c_uint16, c_bool)),
    "rtnlc_type_name": (Put, (c_uint16, Text, c_size_t)),
    "rtnlc_attr_name": (Put, (c_uint8, c_uint16, Text, c_size_t)),
    "rtnlc_code_name": (c_char_p, (c_uint8,)),
    "rtnlc_proved": (c_bool, ()),
    "rtnlc_request": (Put, (c_uint16, c_uint8, c_uint32, c_bool, Room, c_size_t)),
    "rtnlc_session_new": (c_uint8, (SESSION, OPTIONS)),
    "rtnlc_session_free": (None, (SESSION,)),
    "rtnlc_session_begin": (Put, (SESSION, *REQUEST)),
    "rtnlc_session_feed": (Fed, (SESSION, *DATAGRAM)),
    "rtnlc_session_abandon": (c_uint8, (SESSION,)),
    "rtnlc_session_status": (Status, (SESSION,)),
    "rtnlc_session_table": (Table, (SESSION, c_uint16)),
    "rtnlc_session_entry": (Put, (SESSION, c_uint16, c_uint32, Room, c_size_t)),
    "rtnlc_session_key": (Put, (SESSION, c_uint16, c_uint32, Room, c_size_t)),
    "rtnlc_session_find": (Found, (SESSION, c_uint16, *DATAGRAM)),
    "rtnlc_mirror_new": (c_uint8, (MIRROR, OPTIONS, c_uint32)),
    "rtnlc_mirror_free": (None, (MIRROR,)),
    "rtnlc_mirror_begin": (Put, (MIRROR, *REQUEST)),
    "rtnlc_mirror_feed": (Heard, (MIRROR, *DATAGRAM, CHANGES, c_size_t, Room, c_size_t)),
    "rtnlc_mirror_lost": (c_uint8, (MIRROR,)),
    "rtnlc_mirror_table": (Mirrored, (MIRROR, c_uint16)),
    "rtnlc_mirror_entry": (Put, (MIRROR, c_uint16, c_uint32, Room, c_size_t)),
    "rtnlc_mirror_key": (Put, (MIRROR, c_uint16, c_uint32, Room, c_size_t)),
    "rtnlc_mirror_find": (Found, (MIRROR, c_uint16, *DATAGRAM)),
    "rtnlc_stream_new": (c_uint8, (STREAM, OPTIONS)),
    "rtnlc_stream_begin": (Put, (STREAM, *REQUEST)),
    "rtnlc_stream_feed": (Fed, (STREAM, *DATAGRAM, EVENTS, c_size_t)),
    "rtnlc_stream_abandon": (c_uint8, (STREAM,)),
    "rtnlc_stream_status": (Status, (STREAM,)),
    "rtnlc_builder_new": (c_uint8, (BUILDER, OPTIONS, Room, c_size_t)),
    "rtnlc_builder_begin": (
        c_uint8,
        (BUILDER, c_uint16, c_uint16, c_uint32, c_uint32, Data, c_size_t),
    ),
    "rtnlc_builder_message": (
        c_uint8,
        (BUILDER, c_uint16, c_uint16, c_uint32, c_uint32, Data, c_size_t),
    ),
    "rtnlc_builder_put": (c_uint8, (BUILDER, c_uint16, Data, c_size_t)),
    "rtnlc_builder_put_text": (c_uint8, (BUILDER, c_uint16, ReadText, c_size_t)),
    "rtnlc_builder_put_u8": (c_uint8, (BUILDER, c_uint16, c_uint8)),
    "rtnlc_builder_put_u16": (c_uint8, (BUILDER, c_uint16, c_uint16)),
    "rtnlc_builder_put_u32": (c_uint8, (BUILDER, c_uint16, c_uint32)),
    "rtnlc_builder_put_u64": (c_uint8, (BUILDER, c_uint16, c_uint64)),
    "rtnlc_builder_put_be16": (c_uint8, (BUILDER, c_uint16, c_uint16)),
    "rtnlc_builder_put_be32": (c_uint8, (BUILDER, c_uint16, c_uint32)),
    "rtnlc_builder_put_be64": (c_uint8, (BUILDER, c_uint16, c_uint64)),
    "rtnlc_builder_open": (c_uint8, (BUILDER, c_uint16)),
    "rtnlc_builder_open_hop": (c_uint8, (BUILDER, c_uint8, c_uint8, c_int32)),
    "rtnlc_builder_close": (c_uint8, (BUILDER,)),
    "rtnlc_builder_end": (c_uint8, (BUILDER,)),
    "rtnlc_builder_finish": (Put, (BUILDER,)),
    "rtnlc_request_link": (Put, (POINTER(LinkRequest), *CHANGE)),
    "rtnlc_request_addr": (Put, (POINTER(AddrRequest), *CHANGE)),
    "rtnlc_request_route": (Put, (POINTER(RouteRequest), *CHANGE)),
    "rtnlc_request_neigh": (Put, (POINTER(NeighRequest), *CHANGE)),
    "rtnlc_request_rule": (Put, (POINTER(RuleRequest), *CHANGE)),
}


def declared(library: ctypes.PyDLL) -> ctypes.PyDLL:
    """The library with the types of its calls. A LibraryError where it lacks one."""
    for name, (result, arguments) in CALLS.items():
        try:
            call = getattr(library, name)
        except AttributeError as error:
            raise _loading.LibraryError(f"{error}. {_loading.HELP}") from None
        call.restype, call.argtypes = result, arguments
    return library


LIBRARY = declared(_loading.load())
