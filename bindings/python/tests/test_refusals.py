"""What is refused, and where, is what `rtnl check` says; the text is that of `rtnl show`."""
import os
import unittest

import rtnl
import shared
from rtnl import Code, Datagram, Error, Limits, Session, Stream


class Refusals(unittest.TestCase):
    def test_broken_datagrams(self) -> None:
        lines = shared.recording("measure/broken")
        said = shared.objects("check", lines=lines, statuses=(1,))
        self.assertGreater(len(lines), 30)
        for line, wanted in zip(lines, said):
            with self.assertRaises(Error) as caught:
                Datagram(line)
            error = caught.exception
            self.assertEqual((str(error.code), error.place), (wanted["refused"], wanted["at"]))
            self.assertEqual(str(error), f"{wanted['refused']} at {wanted['at']}")
            self.assertEqual(rtnl.scan(line)[:2], (error.code, error.place))
            self.assertEqual(rtnl.tape(line)[:2], (error.code, error.place))
            self.assertEqual(rtnl.check(line), (error.code, error.place, False))

    def test_datagrams_that_are_named(self) -> None:
        named = os.environ.get("RTNL_DATAGRAMS")
        if not named:
            self.skipTest("RTNL_DATAGRAMS names no file")
        with open(named, encoding="ascii") as file:
            lines = [bytes.fromhex(it) for it in file]
        said = shared.objects("check", lines=lines, statuses=(1,))
        for line, wanted in zip(lines, said):
            found = rtnl.scan(line)
            refused = None if found.code == Code.OK else str(found.code)
            self.assertEqual((refused, found.place), (wanted.get("refused"), wanted.get("at")))
            if refused is not None:
                with self.assertRaises(Error) as caught:
                    Datagram(line)
                self.assertEqual((caught.exception.code, caught.exception.place), found[:2])

    def test_sessions_and_streams(self) -> None:
        for line in shared.recording("measure/broken"):
            wanted = rtnl.scan(line)
            for kind in (Session, Stream):
                dump = kind()
                dump.begin(16, seq=1, port=12345)
                with self.assertRaises(Error) as caught:
                    dump.feed(line)
                self.assertEqual((caught.exception.code, caught.exception.place), wanted[:2])
                status = dump.status()
                self.assertTrue(dump.waiting and status.damaged and not status.complete)

    def test_whole_datagrams(self) -> None:
        for name in [*shared.DUMPS, "measure/whole"]:
            lines = shared.recording(name)
            for line, wanted in zip(lines, shared.objects("check", lines=lines)):
                self.assertEqual(rtnl.scan(line)[:2], (Code.OK, None))
                self.assertEqual(rtnl.check(line), (Code.OK, None, wanted["canonical"]))

    def test_text(self) -> None:
        names = [*shared.DUMPS, "measure/whole", "measure/broken"]
        for name in names:
            lines = shared.recording(name)
            found = "".join(rtnl.show(line, number) for number, line in enumerate(lines, 1))
            self.assertEqual(found, shared.printed("show", lines=lines, statuses=(0, 1)))

    def test_the_other_order(self) -> None:
        lines = [*shared.recording("measure/whole"), *shared.loads(BIG)]
        said = shared.objects("check", "--order", "big", lines=lines, statuses=(1,))
        big = Limits(big=True)
        for line, wanted in zip(lines, said):
            found = rtnl.check(line, big)
            refused = None if found.code == Code.OK else str(found.code)
            self.assertEqual((refused, found.place), (wanted.get("refused"), wanted.get("at")))
        self.assertEqual([it.get("refused") for it in said[-len(BIG) :]], [None] * len(BIG))

    def test_views_in_the_other_order(self) -> None:
        link, route = (Datagram(it, Limits(big=True))[0] for it in shared.loads(BIG))
        self.assertEqual((link.seq, link.port, link.kind), (1, 12345, 16))
        assert isinstance(link.view, rtnl.Link) and isinstance(route.view, rtnl.Route)
        self.assertEqual((link.view.index, link.view.type, link.view.flags), (1, 772, 0x10049))
        self.assertEqual((link.view.name, link.view.mtu), ("lo", 65536))
        self.assertEqual(str(route.view.destination), "10.0.0.0/8")
        self.assertEqual([it.index for it in route.view.hops or ()], [3])

    def test_requests(self) -> None:
        for kind, number in shared.NEW.items():
            for family, seq in ((0, 0), (2, 1), (10, 0xFFFFFFFF)):
                options = [f"--kind={kind}", f"--family={family}", f"--seq={seq}"]
                wanted = bytes.fromhex(shared.printed("request", *options))
                self.assertEqual(rtnl.request(number, family, seq), wanted)
                for dump in (Session(), Stream()):
                    self.assertEqual(dump.begin(number, family, seq=seq, port=7), wanted)
                wanted = bytes.fromhex(shared.printed("request", "--order=big", *options))
                self.assertEqual(rtnl.request(number, family, seq, Limits(big=True)), wanted)


# The loopback link, and a route to 10.0.0.0/8 by a next hop, with their highest byte first.
BIG = (
    "00000030 0010 0002 00000001 00003039 0000 0304 00000001 00010049 00000000"
    "0007 0003 6c6f0000 0008 0004 00010000",
    "00000030 0018 0002 00000001 00003039 02080000 fe020001 00000000 0008 0001 0a000000"
    "000c 0009 0008 0000 00000003",
)
