"""Reads the datagram on standard input by pyroute2, asks for the value of each attribute, and
prints how many messages there are. An error that stands in a message is written to standard error,
as an exception is, and the status is 1."""
import sys

from pyroute2.netlink.rtnl.marshal import MarshalRtnl  # type: ignore


def visit(value: object) -> None:
    """Each value is decoded when it is asked for."""
    if isinstance(value, dict):
        for attribute in value.get("attrs", ()):
            visit(attribute[1])
    elif isinstance(value, (list, tuple)):
        for each in value:
            visit(each)


def main() -> int:
    count = status = 0
    for message in MarshalRtnl().parse(sys.stdin.buffer.read()):
        visit(message)
        count += 1
        error = message["header"].get("error")
        if error:
            print(error, file=sys.stderr)
            status = 1
    print(count)
    return status


if __name__ == "__main__":
    sys.exit(main())
