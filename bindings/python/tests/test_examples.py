"""The five programs, over a socket at whose other end this test plays the kernel, and over the
kernel where the machine opens a socket. What they print was written by hand, or is in the JSON of
the program `rtnl`, or in the kernel's files."""
import contextlib
import errno
import os
import re
import shutil
import socket
import struct
import subprocess
import sys
import tempfile
import threading
import unittest
from ipaddress import ip_address
from typing import Any, Dict, Iterator, List, Sequence, Tuple

import shared
from shared import PACKAGE, attr, done, error, link, message, route

Answers = Sequence[Sequence[bytes]]

# How many lines an example has at most, where it isn't 60.
LINES = {"source.py": 120, "route_add.py": 80}
# The answers to request 1 of port 0, by which the programs ask here.
NUMBERS = {"seq": 1, "port": 0}
LO = link(1, attr(3, b"lo\0"), attr(4, b"\0\0\1\0"), attr(16, b"\0"), attr(1, bytes(6)))
ETH = link(
    7, attr(3, b"eth0\0"), attr(4, b"\xdc\5\0\0"), attr(16, b"\6"), attr(1, b"\2\0\0\0\0\1")
)
BROKEN = b"\xff\xff\0\0" + message(16, LO, **NUMBERS)[4:]


def words(*found: object) -> str:
    return " ".join("-" if it is None or it == "" else str(it) for it in found)


class Kernel:
    """Answers the requests that come over a socket, one after another, and then closes it."""

    def __init__(self, folder: str, answers: Answers) -> None:
        self.path, self.answers = f"{folder}/socket", answers
        self.requests: List[bytes] = []
        self.listening = socket.socket(socket.AF_UNIX, socket.SOCK_SEQPACKET)
        self.listening.bind(self.path)
        self.listening.listen(1)
        self.thread = threading.Thread(target=self.answer)
        self.thread.start()

    def answer(self) -> None:
        connection, _ = self.listening.accept()
        connection.setsockopt(socket.SOL_SOCKET, socket.SO_SNDBUF, 1 << 20)
        # A program that a datagram ends has closed its socket before the next one is sent.
        with connection, contextlib.suppress(BrokenPipeError):
            for datagrams in self.answers:
                if self.answers[0]:
                    self.requests.append(connection.recv(4096))
                for it in datagrams:
                    connection.send(it)

    def end(self) -> None:
        self.thread.join()
        self.listening.close()
        os.unlink(self.path)


class Examples(unittest.TestCase):
    def setUp(self) -> None:
        self.folder = tempfile.mkdtemp()
        self.addCleanup(shutil.rmtree, self.folder)

    def ran(self, name: str, *arguments: str) -> Tuple[str, str, int]:
        command = [sys.executable, "-X", "dev", "-W", "error", f"{PACKAGE}/examples/{name}.py"]
        pipe = subprocess.PIPE
        ran = subprocess.run(
            [*command, *arguments], stdout=pipe, stderr=pipe, timeout=60, check=False
        )
        return ran.stdout.decode(errors="replace"), ran.stderr.decode(), ran.returncode

    def over(
        self, name: str, *answers: Sequence[bytes], words: Sequence[str] = ()
    ) -> Tuple[str, str, int]:
        """What a program prints over these answers, which has these arguments."""
        kernel = Kernel(self.folder, answers)
        found = self.ran(name, *words, kernel.path)
        kernel.end()
        self.requests = kernel.requests
        return found

    def heard(self, *datagrams: bytes) -> Tuple[str, str, int]:
        """What `watch` prints of these: it asks for nothing."""
        return self.over("watch", (), datagrams)

    def test_links(self) -> None:
        bare = message(16, link(9), **NUMBERS)
        odd = message(
            16, link(10, attr(3, b"\xff\0"), attr(16, b"\x09"), attr(4, b"\1")), **NUMBERS
        )
        two = message(16, LO, **NUMBERS) + message(16, ETH, **NUMBERS)
        found = self.over("links", [two, bare, odd, done(**NUMBERS)])
        wanted = (
            "lo UNKNOWN 65536 00:00:00:00:00:00\neth0 UP 1500 02:00:00:00:00:01\n"
            "- - - -\n\\xff - - -\n"
        )
        self.assertEqual(found, (wanted, "", 0))
        request = struct.pack("<IHHII", 32, 18, 0x301, 1, 0) + bytes(16)
        self.assertEqual(self.requests, [request])

    def test_a_recording_of_links(self) -> None:
        lines = [renumbered(it, 1) for it in shared.recording("examples/links")]
        self.assertEqual(
            self.over("links", lines), ("lo UNKNOWN 65536 00:00:00:00:00:00\n", "", 0)
        )

    def test_a_recording_of_routes(self) -> None:
        lines = shared.recording("examples/routes")
        shown = [it for line in shared.objects("show", lines=lines) for it in line["messages"]]
        names = {1: "lo", 5: "eth5", 8: "eth8"}
        named = [link(index, attr(3, name.encode())) for index, name in names.items()]
        links = [*(message(16, it, **NUMBERS) for it in named), done(**NUMBERS)]
        found_in = [it["route"] for it in shown if "route" in it]
        wanted = "".join(f"{line}\n" for it in found_in for line in of_route(it, names))
        answers = [renumbered(it, 2) for it in lines]
        found = self.over("routes", links, answers, [done(seq=3, port=0)])
        self.assertGreater(wanted.count("\n"), 200)
        self.assertEqual(found, (wanted, "", 0))
        self.assertEqual([it[16] for it in self.requests], [0, 2, 10])

    def test_changes(self) -> None:
        lines = shared.recording("examples/changes")
        shown = [it for line in shared.objects("show", lines=lines) for it in line["messages"]]
        wanted = "".join(f"{line}\n" for it in shown for line in of_change(it))
        self.assertGreater(wanted.count("\n"), 4)
        self.assertEqual(self.heard(*lines), (wanted, "", 0))

    def test_changes_by_hand(self) -> None:
        bare = struct.pack("<BBBBI", 2, 24, 0, 0, 7), struct.pack("<BxxxiHBB", 2, 7, 0, 0, 0)
        found = self.heard(
            message(17, ETH) + message(19, ETH) + message(18, ETH),
            message(20, bare[0]),
            message(28, bare[1]),
            message(25, route(2, 0)),
            message(32, bytes(12)),
            message(24, route(2, 8, attr(1, b"\x0a\0\0\0"))),
            message(24, route(2, 8)),
        )
        wanted = (
            "del link eth0 UP\nnew addr - 7\nnew neigh - - 7\ndel route default - -\n"
            "new route 10.0.0.0/8 - -\nnew route - - -\n"
        )
        self.assertEqual(found, (wanted, "", 0))

    def test_a_broken_datagram(self) -> None:
        for name in ("links", "routes"):
            found = self.over(name, [BROKEN])
            self.assertEqual(found, ("", f"{name}: broken datagram: bad length at 0\n", 1))
        found = self.heard(message(16, LO), message(16, link(1, b"\3\0\4\0")), message(16, ETH))
        wanted = "new link lo UNKNOWN\n", "watch: broken datagram: bad length at 32\n", 1
        self.assertEqual(found, wanted)

    def test_a_refusal(self) -> None:
        for end in (error(-errno.EPERM, **NUMBERS), done(-errno.EPERM, **NUMBERS)):
            found = self.over("links", [end])
            self.assertEqual(found, ("", "links: refused: Operation not permitted\n", 3))

    def test_a_cut_datagram(self) -> None:
        for name in ("links", "routes"):
            self.assertEqual(self.over(name, [bytes(65537)]), ("", f"{name}: cut datagram\n", 4))
        self.assertEqual(self.heard(bytes(65537)), ("", "watch: cut datagram\n", 4))

    def test_lost_datagrams(self) -> None:
        found = self.over("links", [message(4, b"", **NUMBERS)])
        self.assertEqual(found, ("", "links: lost datagrams\n", 5))

    def test_an_early_end(self) -> None:
        for name in ("links", "routes"):
            found = self.over(name, [message(16, LO, **NUMBERS)])
            self.assertEqual(found, ("", f"{name}: the answer ended early\n", 2))
        self.assertEqual(self.heard(), ("", "", 0))

    def test_an_interrupted_dump(self) -> None:
        def interrupted(seq: int) -> List[bytes]:
            return [message(16, LO, seq=seq, port=0), done(seq=seq, port=0, flags=0x12)]

        often = [interrupted(it) for it in range(1, 12)]
        again = [*often[:10], [message(16, ETH, seq=11, port=0), done(seq=11, port=0)]]
        self.assertEqual(self.over("links", *again), ("eth0 UP 1500 02:00:00:00:00:01\n", "", 0))
        self.assertEqual(self.over("links", *often), ("", "links: interrupted\n", 2))
        self.assertEqual(len(self.requests), 11)

    def test_requests(self) -> None:
        other = error(-errno.EPERM, seq=7, port=0)
        found = self.over("link_up", [message(16, LO), other, error(0, **NUMBERS)], words=["eth0"])
        self.assertEqual(found, ("", "", 0))
        head = struct.pack("<IHHII BxHiII", 44, 16, 5, 1, 0, 0, 0, 0, 1, 1)
        self.assertEqual(self.requests, [head + attr(3, b"eth0\0")])
        lo = ["via", "192.0.2.254", "dev", "lo"]
        found = self.over("route_add", [error(0, **NUMBERS)], words=["10.0.0.0/8", *lo])
        self.assertEqual(found, ("", "", 0))
        head = struct.pack("<IHHII BBBBBBBBI", 52, 24, 0x605, 1, 0, 2, 8, 0, 0, 254, 4, 0, 1, 0)
        ways = attr(5, bytes([192, 0, 2, 254])), attr(4, b"\1\0\0\0")
        self.assertEqual(self.requests, [head + attr(1, b"\x0a\0\0\0") + b"".join(ways)])

    def test_requests_that_are_refused(self) -> None:
        ends: List[Tuple[List[bytes], str, int]] = [
            ([error(-errno.ENODEV, **NUMBERS)], "refused: No such device", 3),
            ([BROKEN], "broken datagram: bad length at 0", 1),
            ([bytes(65537)], "cut datagram", 4),
            ([], "the answer ended early", 2),
        ]
        for answers, text, status in ends:
            found = self.over("link_up", answers or [message(16, LO)], words=["eth0"])
            self.assertEqual(found, ("", f"link_up: {text}\n", status))
        words = "10.0.0.0/8 via 192.0.2.254 dev none0".split()
        self.assertEqual(self.ran("route_add", *words), ("", "route_add: no interface none0\n", 2))
        for name, usage in (("link_up", "DEV"), ("route_add", "PREFIX via ADDRESS dev DEV")):
            _, text, status = self.ran(name)
            self.assertEqual((text.startswith(f"usage: {name} {usage} ["), status), (True, 2))

    def test_no_socket(self) -> None:
        for name in ("links", "routes", "watch"):
            found = self.ran(name, f"{self.folder}/none")
            self.assertEqual(found, ("", f"{name}: No such file or directory\n", 2))

    def test_they_are_short(self) -> None:
        for name in sorted(os.listdir(f"{PACKAGE}/examples")):
            if name.endswith(".py"):
                with open(f"{PACKAGE}/examples/{name}", encoding="utf-8") as file:
                    self.assertLessEqual(len(file.readlines()), LINES.get(name, 60))

    def test_the_kernel(self) -> None:
        if not hasattr(socket, "AF_NETLINK") or not opens():
            self.skipTest("the machine opens no netlink socket")
        text, errors, status = self.ran("links")
        self.assertEqual((errors, status), ("", 0))
        wanted = {
            it: of_file(f"{it}/mtu")
            for it in os.listdir("/sys/class/net")
            if os.path.exists(f"/sys/class/net/{it}/mtu")
        }
        self.assertEqual({it.split()[0]: it.split()[2] for it in text.splitlines()}, wanted)
        text, errors, status = self.ran("routes")
        self.assertEqual((errors, status), ("", 0))
        self.assertTrue(
            all(re.fullmatch(r"\S+ \S+ \S+ \d+", it) for it in text.splitlines()), text
        )
        self.assertIn("127.0.0.0/8 - lo 255\n", text)


def opens() -> bool:
    try:
        socket.socket(socket.AF_NETLINK, socket.SOCK_RAW, socket.NETLINK_ROUTE).close()
    except OSError:
        return False
    return True


def of_file(path: str) -> str:
    with open(f"/sys/class/net/{path}", encoding="ascii") as file:
        return file.read().strip()


def renumbered(datagram: bytes, seq: int) -> bytes:
    """A recorded datagram as the answer to another request, of port 0. Its messages are found by
    their lengths alone."""
    data, at = bytearray(datagram), 0
    while at < len(data):
        struct.pack_into("<II", data, at + 8, seq, 0)
        at += (int.from_bytes(data[at : at + 4], "little") + 3) & ~3
    return bytes(data)


def value(attrs: List[Dict[str, Any]], number: int) -> Any:
    """The value of an attribute in JSON, an address as it is usually written."""
    found: Dict[str, Any] = next((it for it in attrs if it["number"] == number), {})
    if found.get("form") in ("ipv4", "ipv6"):
        return ip_address(found["value"])
    return found.get("value")


def gateway(attrs: List[Dict[str, Any]]) -> Any:
    via = value(attrs, 18)
    return value(attrs, 5) or (via and ip_address(bytes.fromhex(via[4:])))


def destination(found: Dict[str, Any]) -> str:
    return f"{value(found['attrs'], 1)}/{found['dst_len']}" if found["dst_len"] else "default"


def of_route(found: Dict[str, Any], names: Dict[int, str]) -> Iterator[str]:
    """The lines of a route in JSON."""
    attrs = found["attrs"]
    table = value(attrs, 15) or found["table"]
    hops = next((it["items"] for it in attrs if it["number"] == 9), None)
    for hop in [{"attrs": attrs, "index": value(attrs, 4)}] if hops is None else hops:
        yield words(destination(found), gateway(hop["attrs"]), names.get(hop["index"]), table)


def of_change(found: Dict[str, Any]) -> Iterator[str]:
    """The line of a notification in JSON."""
    verb = found["type"][:3]
    if "route" in found:
        attrs = found["route"]["attrs"]
        yield words(verb, "route", destination(found["route"]), gateway(attrs), value(attrs, 4))
    if "addr" in found:
        own = found["addr"]
        yield words(verb, "addr", f"{value(own['attrs'], 1)}/{own['prefix']}", own["index"])
    if "neigh" in found:
        own = found["neigh"]
        mac = value(own["attrs"], 2)
        mac = mac and bytes.fromhex(mac).hex(":")
        yield words(verb, "neigh", value(own["attrs"], 1), mac, own["index"])


if __name__ == "__main__":
    unittest.main()
