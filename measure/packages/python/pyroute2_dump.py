"""A dump by pyroute2."""
from typing import Iterator

from pyroute2.netlink import NLM_F_DUMP, NLM_F_DUMP_INTR, NLM_F_REQUEST, NLMSG_DONE, nlmsg
from pyroute2.netlink.rtnl.marshal import MarshalRtnl
from source import PORT, Source

MARSHAL = MarshalRtnl()


def messages(source: Source) -> Iterator[nlmsg]:
    """Those of all datagrams."""
    while data := source.recv():
        for message in MARSHAL.parse(data):
            if message["header"]["error"]:
                raise message["header"]["error"]
            yield message


def dump(source: Source, kind: int, family: int, seq: int) -> Iterator[nlmsg]:
    request = MARSHAL.msg_map[kind]()
    request["family"] = family
    request["header"]["type"] = kind
    request["header"]["flags"] = NLM_F_REQUEST | NLM_F_DUMP
    request["header"]["sequence_number"] = seq
    request.encode()
    source.send(request.data)
    interrupted = False
    for message in messages(source):
        header = message["header"]
        if header["sequence_number"] != seq or header["pid"] != PORT:
            continue
        interrupted |= bool(header["flags"] & NLM_F_DUMP_INTR)
        if header["type"] == NLMSG_DONE:
            if interrupted:
                raise OSError("interrupted")
            return
        yield message
    raise EOFError("the answer ended early")
