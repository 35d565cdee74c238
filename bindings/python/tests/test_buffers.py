"""The sorts of bytes that calls take, what they leave of them, and threads."""
import array
import signal
import sys
import threading
import time
import tracemalloc
import unittest
from typing import Any, Callable, List

import rtnl
from rtnl import Datagram, Limits, Session, Stream
from rtnl._tape import borrow
from shared import attr, done, link, message

LINK = message(16, link(7, attr(3, b"eth0\0")))


def forms() -> List[Any]:
    """The datagram in each sort of bytes."""
    apart = bytearray(2 * len(LINK))
    apart[::2] = LINK
    inside = b"xx" + LINK + b"y"
    return [
        LINK,
        bytearray(LINK),
        memoryview(LINK),
        memoryview(bytearray(LINK)),
        memoryview(inside)[2:-1],
        memoryview(bytearray(inside))[2:-1],
        memoryview(bytes(apart))[::2],
        memoryview(apart)[::2],
        array.array("I", LINK),
        memoryview(array.array("I", LINK)),
    ]


class Buffers(unittest.TestCase):
    def test_each_sort(self) -> None:
        for data in forms():
            datagram = Datagram(data)
            found = next(datagram.views(rtnl.Link))
            self.assertEqual((found.name, found.index), ("eth0", 7))
            self.assertEqual(bytes(datagram[0].body), LINK[16:])
            name = found.attributes.find(3)
            assert name is not None
            self.assertEqual(bytes(name.payload), b"eth0\0")
            self.assertEqual(rtnl.scan(data).code, 0)
            self.assertEqual([it.place for it in rtnl.tape(data).events], [0, 32])
            self.assertTrue(rtnl.show(data).startswith("datagram 1 bytes 44\nmessage 16 newlink"))
            self.assertEqual(rtnl.check(data).code, 0)
            for dump in (Session(), Stream()):
                dump.begin(16, seq=1, port=12345)
                dump.feed(data)

    def test_nothing_is_copied(self) -> None:
        written = bytearray(LINK)
        found = next(Datagram(written).views(rtnl.Link))
        written[36:40] = b"wlan"
        self.assertEqual(found.name, "wlan")
        payload = found.attributes.find(3)
        assert payload is not None
        self.assertIs(payload.payload.obj, written)
        self.assertIs(Datagram(LINK)[0].body.obj, LINK)

    def test_a_buffer_stays_while_it_is_read(self) -> None:
        written = bytearray(LINK)
        datagram = Datagram(written)
        self.assertRaises(BufferError, written.clear)
        del datagram
        written.clear()
        self.assertEqual(rtnl.scan(written).code, 0)

    def test_no_bytes(self) -> None:
        for data in (b"", bytearray(), memoryview(b""), memoryview(bytearray(4))[:0]):
            self.assertEqual((len(Datagram(data)), rtnl.scan(data).code), (0, 0))
            self.assertEqual(rtnl.tape(data).events, [])

    def test_what_is_no_bytes(self) -> None:
        bad: List[Any] = ["text", None, 5, [1, 2]]
        for data in bad:
            calls: List[Callable[..., Any]] = [
                Datagram,
                rtnl.scan,
                rtnl.tape,
                rtnl.check,
                rtnl.show,
            ]
            calls += [Session().feed, Stream().feed]
            for call in calls:
                self.assertRaises(TypeError, call, data)

    def test_a_datagram_with_more_heads_than_any_before(self) -> None:
        """Each head has four bytes, so there are as many as there can be."""
        limits = Limits(datagram=1 << 20)
        for count in (10, 5000, 60000, 20):
            data = message(16, link(7, *(attr(it % 100) for it in range(count))))
            datagram = Datagram(data, limits)
            self.assertEqual(len(datagram[0].attributes), count)
            self.assertEqual(datagram[0].attributes.as_bytes(9), b"")
            stream = Stream(limits)
            stream.begin(16, seq=1, port=12345)
            self.assertEqual(len(stream.feed(data)[0].attributes), count)

    def test_a_datagram_above_the_limit(self) -> None:
        with self.assertRaises(rtnl.Error) as caught:
            Datagram(bytes(65540))
        self.assertEqual((caught.exception.code, caught.exception.place), (6, None))
        self.assertEqual(str(caught.exception), "too large")

    def test_a_datagram_above_the_limit_takes_no_more_room_than_the_limit(self) -> None:
        data, stream = bytes(1 << 26), Stream()
        stream.begin(16, seq=1, port=12345)
        tracemalloc.start()
        try:
            self.assertRaises(rtnl.Error, Datagram, data)
            self.assertRaises(rtnl.Error, stream.feed, data)
            self.assertEqual(rtnl.tape(data).code, rtnl.Code.TOO_LARGE)
            _, peak = tracemalloc.get_traced_memory()
        finally:
            tracemalloc.stop()
        self.assertLess(peak, 1 << 20)

    def test_rooms_that_are_kept(self) -> None:
        """However many calls were made at once, and how long their datagrams were."""
        tracemalloc.start()
        try:
            for it in [borrow(1 << 20, 1 << 20) for _ in range(12)]:
                it.taken(0)
            held, peak = tracemalloc.get_traced_memory()
        finally:
            tracemalloc.stop()
        self.assertGreater(peak, 30 << 20)
        self.assertLess(held, (16 << 20) + (1 << 16))

    def test_threads(self) -> None:
        """Each thread reads datagrams of its own, and finds nothing of the others'."""
        wrong: List[object] = []

        def read(own: int) -> None:
            data = message(16, link(own, *(attr(4, bytes([own, 0, 0, 0])) for _ in range(own))))
            for _ in range(300):
                found = next(Datagram(data).views(rtnl.Link))
                if (found.index, found.mtu, len(found.attributes)) != (own, own, own):
                    wrong.append((own, found))

        threads = [threading.Thread(target=read, args=(own,)) for own in range(1, 9)]
        for it in threads:
            it.start()
        for it in threads:
            it.join()
        self.assertEqual(wrong, [])

    def test_a_datagram_inside_of_another(self) -> None:
        """A signal's handler reads datagrams, while one is read that it has interrupted."""
        other = message(16, link(1, *(attr(it) for it in range(50))))
        count = 0

        def handle(*_: object) -> None:
            nonlocal count
            count += len(Datagram(other)[0].attributes) == 50

        signal.signal(signal.SIGALRM, handle)
        signal.setitimer(signal.ITIMER_REAL, 0.001, 0.001)
        try:
            stream = Stream()
            stream.begin(16, seq=1, port=12345)
            while count < 300:
                for found in (Datagram(LINK), stream.feed(LINK)):
                    view = next(found.views(rtnl.Link))
                    self.assertEqual((view.index, view.name, len(view.attributes)), (7, "eth0", 1))
        finally:
            # One may still be on its way.
            signal.setitimer(signal.ITIMER_REAL, 0)
            signal.signal(signal.SIGALRM, signal.SIG_IGN)

    def test_a_session_in_two_threads(self) -> None:
        """One thread begins a dump, another feeds it."""
        with Session() as session:
            session.begin(16, seq=1, port=12345)
            feeding = threading.Thread(target=lambda: session.feed(LINK + done()))
            feeding.start()
            feeding.join()
            self.assertEqual([it.name for it in session.links], ["eth0"])

    def test_no_other_thread_runs_while_a_call_does(self) -> None:
        """So any thread may call, where the interpreter has its lock."""
        if not getattr(sys, "_is_gil_enabled", lambda: True)():
            self.skipTest("this Python has no lock")
        data, turns, ended = message(16, link(7)) * (1 << 15), 0, threading.Event()

        def run() -> None:
            nonlocal turns
            while not ended.is_set():
                turns += 1
                time.sleep(0)

        interval, limits = sys.getswitchinterval(), Limits(datagram=1 << 20)
        other = threading.Thread(target=run)
        with Session(limits) as session:
            session.begin(16, seq=1, port=12345)
            # The other thread runs when this one gives the lock away, and else not for so long.
            sys.setswitchinterval(60)
            try:
                other.start()
                for _ in range(20):
                    time.sleep(0)
                    before = turns
                    session.feed(data)
                    self.assertEqual(turns, before)
            finally:
                ended.set()
                sys.setswitchinterval(interval)
                other.join()
            self.assertGreater(turns, 0)


if __name__ == "__main__":
    unittest.main()
