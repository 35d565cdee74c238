"""The structs of rtnlc.h, field by field, under their names there without `rtnlc_`."""
import struct
from ctypes import (
    POINTER,
    Structure,
    c_bool,
    c_char_p,
    c_int32,
    c_size_t,
    c_uint8,
    c_uint16,
    c_uint32,
    c_uint64,
    c_void_p,
)


class Options(Structure):
    """The limits of a call, of a session or of a stream."""

    _fields_ = [
        ("total", c_uint64),
        ("datagram", c_uint32),
        ("entries", c_uint32),
        ("depth", c_uint8),
        ("big", c_bool),
        ("seed", c_uint8 * 16),
    ]


class Scanned(Structure):
    """What a scan answers."""

    _fields_ = [("visits", c_uint64), ("place", c_uint32), ("code", c_uint8)]


class Event(Structure):
    """A head."""

    _fields_ = [
        ("place", c_uint32),
        ("len", c_uint32),
        ("number", c_uint16),
        ("level", c_uint8),
        ("sort", c_uint8),
        ("nested", c_bool),
        ("net", c_bool),
    ]


# The same struct, as the module struct reads it out of a tape.
EVENT = struct.Struct("@IIHBB??2x")


class Taped(Structure):
    """What a tape answers."""

    _fields_ = [("count", c_size_t), ("visits", c_uint64), ("place", c_uint32), ("code", c_uint8)]


class Family(Structure):
    """What the body of a message begins with."""

    _fields_ = [("head_size", c_uint8), ("context", c_uint8)]


class Holds(Structure):
    """What an attribute holds."""

    _fields_ = [("sort", c_uint8), ("context", c_uint8)]


class Checked(Structure):
    """What a check answers."""

    _fields_ = [("place", c_uint32), ("code", c_uint8), ("canonical", c_bool)]


class Shown(Structure):
    """The length of a text."""

    _fields_ = [("len", c_size_t), ("code", c_uint8)]


class Put(Structure):
    """The length of a request, an entry or a key."""

    _fields_ = [("len", c_size_t), ("code", c_uint8)]


class Status(Structure):
    """Where a dump stands."""

    _fields_ = [
        ("received", c_uint64),
        ("visits", c_uint64),
        ("ignored", c_uint64),
        ("seq", c_uint32),
        ("port", c_uint32),
        ("status", c_int32),
        ("kind", c_uint16),
        ("family", c_uint8),
        ("state", c_uint8),
        ("damaged", c_bool),
        ("interrupted", c_bool),
        ("complete", c_bool),
        ("code", c_uint8),
    ]


class Fed(Structure):
    """What a datagram was to a dump."""

    _fields_ = [
        ("events", c_size_t),
        ("items", c_uint32),
        ("ignored", c_uint32),
        ("place", c_uint32),
        ("ended", c_bool),
        ("code", c_uint8),
    ]


class Session(Structure):
    """The handle of a session."""

    _fields_ = [("at", c_void_p)]


class Table(Structure):
    """The size of a table."""

    _fields_ = [("missed", c_uint64), ("count", c_uint32), ("limit", c_uint32), ("code", c_uint8)]


class Found(Structure):
    """The index of an entry."""

    _fields_ = [("index", c_uint32), ("code", c_uint8)]


class Mirror(Structure):
    """The handle of a mirror."""

    _fields_ = [("at", c_void_p)]


class Change(Structure):
    """What became of a message."""

    _fields_ = [
        ("before", c_uint32),
        ("before_len", c_uint32),
        ("index", c_uint32),
        ("kind", c_uint16),
        ("effect", c_uint8),
        ("code", c_uint8),
    ]


class Heard(Structure):
    """What became of a datagram."""

    _fields_ = [
        ("visits", c_uint64),
        ("changes", c_size_t),
        ("before", c_size_t),
        ("place", c_uint32),
        ("code", c_uint8),
    ]


class Mirrored(Structure):
    """How a table of a mirror stands."""

    _fields_ = [
        ("missed", c_uint64),
        ("count", c_uint32),
        ("limit", c_uint32),
        ("seq", c_uint32),
        ("stale", c_uint8),
        ("dumps", c_bool),
        ("code", c_uint8),
    ]


class Stream(Structure):
    """Where the dumps of a socket stand."""

    _fields_ = [
        ("total", c_uint64),
        ("received", c_uint64),
        ("visits", c_uint64),
        ("ignored", c_uint64),
        ("datagram", c_uint32),
        ("entries", c_uint32),
        ("seq", c_uint32),
        ("port", c_uint32),
        ("status", c_int32),
        ("kind", c_uint16),
        ("family", c_uint8),
        ("state", c_uint8),
        ("depth", c_uint8),
        ("big", c_uint8),
        ("damaged", c_uint8),
        ("interrupted", c_uint8),
    ]


# How many heads a builder has open at most.
MOST_OPEN = 33


class Built(Structure):
    """What is built in a buffer, and how far."""

    _fields_ = [
        ("total", c_uint64),
        ("entries", c_uint32),
        ("datagram", c_uint32),
        ("len", c_uint32),
        ("starts", c_uint32 * MOST_OPEN),
        ("contents", c_uint8 * MOST_OPEN),
        ("count", c_uint8),
        ("depth", c_uint8),
        ("big", c_uint8),
        ("refusal", c_uint8),
    ]


class Builder(Structure):
    """A builder over a buffer."""

    _fields_ = [("out", POINTER(c_uint8)), ("room", c_size_t), ("built", Built)]


class Data(c_char_p):
    """const void *: bytes that the struct keeps."""


class Bytes(Structure):
    """Bytes of the caller's: an address in network order, or a name without its zero byte."""

    _fields_ = [("at", Data), ("len", c_size_t)]


class LinkRequest(Structure):
    """A link."""

    _fields_ = [
        ("name", Bytes),
        ("address", Bytes),
        ("kind", Bytes),
        ("data", Bytes),
        ("index", c_int32),
        ("mtu", c_uint32),
        ("master", c_uint32),
        ("link", c_uint32),
        ("has_mtu", c_bool),
        ("has_master", c_bool),
        ("has_link", c_bool),
        ("has_up", c_bool),
        ("up", c_bool),
    ]


class AddrRequest(Structure):
    """An address of a link."""

    _fields_ = [
        ("local", Bytes),
        ("peer", Bytes),
        ("broadcast", Bytes),
        ("label", Bytes),
        ("index", c_uint32),
        ("flags", c_uint32),
        ("preferred", c_uint32),
        ("valid", c_uint32),
        ("has_lifetimes", c_bool),
        ("family", c_uint8),
        ("prefix_length", c_uint8),
        ("scope", c_uint8),
    ]


class Metric(Structure):
    """A metric of a route."""

    _fields_ = [("number", c_uint16), ("value", c_uint32)]


class NextHop(Structure):
    """One of several next hops of a route."""

    _fields_ = [
        ("index", c_int32),
        ("flags", c_uint8),
        ("hops", c_uint8),
        ("gateway_len", c_uint8),
        ("gateway", c_uint8 * 16),
    ]


class RouteRequest(Structure):
    """A route."""

    _fields_ = [
        ("destination", Bytes),
        ("source", Bytes),
        ("gateway", Bytes),
        ("preferred_source", Bytes),
        ("metrics", POINTER(Metric)),
        ("metric_count", c_size_t),
        ("hops", POINTER(NextHop)),
        ("hop_count", c_size_t),
        ("table", c_uint32),
        ("flags", c_uint32),
        ("priority", c_uint32),
        ("oif", c_uint32),
        ("has_priority", c_bool),
        ("has_oif", c_bool),
        ("family", c_uint8),
        ("destination_length", c_uint8),
        ("source_length", c_uint8),
        ("tos", c_uint8),
        ("protocol", c_uint8),
        ("scope", c_uint8),
        ("route_type", c_uint8),
    ]


class NeighRequest(Structure):
    """A neighbour."""

    _fields_ = [
        ("destination", Bytes),
        ("link_address", Bytes),
        ("index", c_int32),
        ("state", c_uint16),
        ("vlan", c_uint16),
        ("has_vlan", c_bool),
        ("family", c_uint8),
        ("flags", c_uint8),
    ]


class RuleRequest(Structure):
    """A rule."""

    _fields_ = [
        ("source", Bytes),
        ("destination", Bytes),
        ("iif", Bytes),
        ("oif", Bytes),
        ("table", c_uint32),
        ("mark", c_uint32),
        ("mask", c_uint32),
        ("target", c_uint32),
        ("suppress_prefix_length", c_uint32),
        ("priority", c_uint32),
        ("has_mark", c_bool),
        ("has_mask", c_bool),
        ("has_target", c_bool),
        ("has_suppress_prefix_length", c_bool),
        ("has_priority", c_bool),
        ("invert", c_bool),
        ("family", c_uint8),
        ("source_length", c_uint8),
        ("destination_length", c_uint8),
        ("tos", c_uint8),
        ("action", c_uint8),
    ]
