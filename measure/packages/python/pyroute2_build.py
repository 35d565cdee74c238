"""Builds requests for routes by pyroute2: the message of a request, and its bytes.
usage: pyroute2_build.py one|two COUNT
"""
import sys

from pyroute2.netlink.rtnl.rtmsg import rtmsg

FLAGS = 0x605


def hop(last, index):
    return {"hops": 9, "oif": index, "flags": 0, "attrs": [("RTA_GATEWAY", f"192.0.2.{last}")]}


def request(number, two):
    to = f"{10 + (number >> 16)}.{number >> 8 & 255}.{number & 255}.0"
    destination, priority = ("RTA_DST", to), ("RTA_PRIORITY", number % 1024)
    # In the order in which ip(8) sends them.
    if two:
        attrs = [destination, priority, ("RTA_MULTIPATH", [hop(254, 10), hop(253, 11)])]
    else:
        attrs = [destination, ("RTA_GATEWAY", "192.0.2.254"), priority, ("RTA_OIF", 10)]
    message = rtmsg()
    for name, value in [("family", 2), ("dst_len", 24), ("table", 254), ("proto", 3), ("type", 1)]:
        message[name] = value
    message["attrs"] = attrs
    message["header"].update({"type": 24, "flags": FLAGS, "sequence_number": number})
    message.encode()
    return message.data


def main(way, count):
    total = 0
    for number in range(count):
        data = request(number, way == "two")
        total += len(data) + data[-1] + data[24]
        if number == 0:
            print(data.hex())
    print(total)


if __name__ == "__main__":
    main(sys.argv[1], int(sys.argv[2]))
