"""Sessions and streams: what their calls answer, what they refuse, and what is left then."""
import copy
import gc
import pickle
import tracemalloc
import unittest
import weakref
from typing import Any, Callable, List, Tuple

import rtnl
from rtnl import Code, Error, Limits, Session, State, Stream
from shared import attr, done, error, link, message

ONE, TWO = message(16, link(1, attr(3, b"lo\0"))), message(16, link(2, attr(3, b"eth0\0")))
PADDED = ONE + bytes(-len(ONE) % 4)
BAD = b"\xff\xff\xff\xff" + ONE[4:]


class Dumps(unittest.TestCase):
    def refused(self, code: Code, call: Callable[..., Any], *words: Any, **more: Any) -> None:
        with self.assertRaises(Error) as caught:
            call(*words, **more)
        self.assertEqual(caught.exception.code, code)

    def test_what_both_refuse(self) -> None:
        for dump in (Session(), Stream()):
            self.assertEqual((dump.status().state, dump.waiting), (State.IDLE, False))
            self.refused(Code.NOT_WAITING, dump.feed, PADDED)
            self.refused(Code.NOT_WAITING, dump.abandon)
            for kind in (0, 3, 36, 65535):
                self.refused(Code.NO_KIND, dump.begin, kind, seq=1, port=1)
            self.assertEqual(dump.begin(18, seq=1, port=12345)[4:6], b"\x12\0")
            self.refused(Code.BUSY, dump.begin, 18, seq=2, port=12345)
            dump.abandon()
            self.assertEqual(dump.status().state, State.ABANDONED)
            self.refused(Code.SAME_SEQ, dump.begin, 18, seq=1, port=12345)
            dump.begin(18, seq=2, port=12345)
            self.assertTrue(dump.waiting)

    def test_numbers_that_do_not_fit(self) -> None:
        for dump in (Session(), Stream()):
            numbers = {"kind": 18, "family": 0, "seq": 1, "port": 1}
            for name, most in (
                ("kind", 65535),
                ("family", 255),
                ("seq", 2**32 - 1),
                ("port", 2**32 - 1),
            ):
                for value in (-1, most + 1):
                    with self.assertRaises(ValueError) as caught:
                        dump.begin(**{**numbers, name: value})
                    self.assertEqual(
                        str(caught.exception), f"{name} must be from 0 to {most}, not {value}"
                    )
                others: List[Any] = ["1", 1.5, None]
                for other in others:
                    said = f"^{name} must be a whole number, not {other!r}$"
                    with self.assertRaisesRegex(TypeError, said):
                        dump.begin(**{**numbers, name: other})
            self.assertFalse(dump.waiting)
            dump.begin(18, family=255, seq=2**32 - 1, port=2**32 - 1)
            status = dump.status()
            self.assertEqual(
                (status.family, status.seq, status.port), (255, 2**32 - 1, 2**32 - 1)
            )
            self.assertEqual(status.kind, 16)
        self.assertRaises(ValueError, rtnl.request, 18, 256)
        self.assertRaises(ValueError, rtnl.show, PADDED, -1)
        self.refused(Code.NO_KIND, rtnl.request, 3)

    def test_a_table(self) -> None:
        with Session() as session:
            self.assertEqual((len(session.links), list(session.links)), (0, []))
            session.begin(16, seq=1, port=12345)
            fed = session.feed(PADDED + TWO + bytes(-len(TWO) % 4) + message(1))
            self.assertEqual(fed, (2, 1, False))
            self.assertEqual(session.feed(PADDED + done()), (1, 0, True))
            table = session.links
            self.assertEqual([it.name for it in table], ["lo", "eth0"])
            self.assertEqual((table[0].name, table[-1].name, len(table)), ("lo", "eth0", 2))
            self.assertEqual([it.index for it in table[::-1]], [2, 1])
            self.assertEqual((len(session.routes), len(session.rules)), (0, 0))
            self.assertRaises(IndexError, lambda: table[2])
            self.assertRaises(IndexError, lambda: table[-3])
            self.assertEqual((table.limit, table.missed), (4096, 0))
            self.assertEqual(repr(table), "<Table of Link>")

    def test_keys(self) -> None:
        with Session() as session:
            session.begin(16, seq=1, port=12345)
            session.feed(PADDED + TWO)
            table = session.links
            self.assertEqual([table.key(0), table.key(-1)], [b"\1\0\0\0", b"\2\0\0\0"])
            found = table.find(b"\2\0\0\0")
            assert found is not None
            self.assertEqual(
                (found.name, table.find(b"\3\0\0\0"), table.find(b"")), ("eth0", None, None)
            )
            self.assertRaises(IndexError, table.key, 2)

    def test_the_next_dump_empties_the_table(self) -> None:
        with Session() as session:
            session.begin(16, seq=1, port=12345)
            session.feed(PADDED + done())
            kept, table = session.links[0], session.links
            session.begin(16, seq=2, port=12345)
            self.assertEqual((len(table), kept.name, kept.index), (0, "lo", 1))

    def test_a_limit_of_entries(self) -> None:
        with Session(Limits(entries=1)) as session:
            session.begin(16, seq=1, port=12345)
            session.feed(PADDED + TWO + bytes(-len(TWO) % 4) + done())
            self.assertEqual(
                (len(session.links), session.links.missed, session.links.limit), (1, 1, 1)
            )
            self.assertFalse(session.status().complete)

    def test_a_long_entry(self) -> None:
        """Longer than the room that is offered first."""
        body = link(9, *(attr(number, bytes(500)) for number in range(50, 80)))
        with Session() as session:
            session.begin(16, seq=1, port=12345)
            session.feed(message(16, body))
            found = [len(it.payload) for it in session.links[0].attributes]
            self.assertEqual(found, [500] * 30)

    def test_how_a_dump_ends(self) -> None:
        over = message(4)
        for end, state, status, errno, complete in (
            (done(), State.DONE, 0, 0, True),
            (done(5), State.DONE, 5, 0, True),
            (done(-2), State.DONE, -2, 2, False),
            (message(3), State.DONE, 0, 0, True),
            (error(-1), State.FAILED, -1, 1, False),
            (over, State.OVERRUN, 0, 0, False),
            (done(flags=0x12), State.DONE, 0, 0, False),
        ):
            for dump in (Session(), Stream()):
                dump.begin(16, seq=1, port=12345)
                self.assertTrue(dump.feed(PADDED + end).ended)
                found = dump.status()
                self.assertEqual(
                    (found.state, found.status, found.error, found.complete),
                    (state, status, errno, complete),
                )
                self.assertEqual(found.interrupted, end == done(flags=0x12))
                self.refused(Code.NOT_WAITING, dump.feed, PADDED)

    def test_an_acknowledgement_ends_nothing(self) -> None:
        for dump in (Session(), Stream()):
            dump.begin(16, seq=1, port=12345)
            fed = dump.feed(error(0) + message(16, link(3), seq=2) + message(16, link(4), port=2))
            self.assertEqual((fed.ended, fed.ignored, dump.status().ignored), (False, 3, 3))

    def test_a_refusal_leaves_the_tables(self) -> None:
        with Session() as session:
            session.begin(16, seq=1, port=12345)
            session.feed(PADDED)
            self.refused(Code.BAD_LENGTH, session.feed, BAD)
            self.assertEqual([it.name for it in session.links], ["lo"])
            session.feed(done())
            status = session.status()
            self.assertEqual((status.damaged, status.complete), (True, False))

    def test_a_limit_of_all_datagrams(self) -> None:
        for dump in (Session(Limits(total=len(PADDED))), Stream(Limits(total=len(PADDED)))):
            dump.begin(16, seq=1, port=12345)
            dump.feed(PADDED)
            self.refused(Code.TOTAL, dump.feed, done())

    def test_limits(self) -> None:
        self.assertEqual(Limits(), Limits(1 << 30, 65536, 4096, 8))
        self.assertEqual(repr(Limits(depth=2))[-19:], "depth=2, big=False)")
        for name, bad in (
            ("total", (-1, 2**40 + 1, 2**64)),
            ("datagram", (-4, 0, 12, 18, 2**20 + 4, 2**32 + 16)),
            ("entries", (-1, 65537, 2**32)),
            ("depth", (-1, 33, 256)),
        ):
            for value in bad:
                self.refused(Code.BAD_LIMIT, Limits, **{name: value})
        for good in (
            Limits(total=0),
            Limits(2**40, 2**20, 65536, 32, True),
            Limits(datagram=16),
        ):
            self.assertEqual(rtnl.scan(b"", good).code, 0)
        self.assertEqual(rtnl.scan(message(16, link(1, attr(0x8001))), Limits(depth=0)).code, 5)

    def test_a_closed_session(self) -> None:
        session = Session()
        table = session.links
        session.close()
        session.close()
        for call in (session.status, session.abandon, table.__len__, lambda: list(table)):
            self.refused(Code.NO_SESSION, call)
        self.refused(Code.NO_SESSION, session.feed, PADDED)
        self.refused(Code.NO_SESSION, session.begin, 16, seq=1, port=1)
        self.refused(Code.NO_SESSION, table.find, b"\1\0\0\0")

    def test_a_table_keeps_its_session(self) -> None:
        session = Session()
        session.begin(16, seq=1, port=12345)
        session.feed(PADDED)
        table, gone = session.links, weakref.ref(session)
        del session
        gc.collect()
        self.assertEqual([it.name for it in table], ["lo"])
        del table
        gc.collect()
        self.assertIsNone(gone())

    def test_copies_of_a_session(self) -> None:
        """Two of one would be freed twice: a copy is the same one, or there is none."""
        session = Session()
        other = copy.copy(session)
        other.close()
        self.refused(Code.NO_SESSION, session.status)
        calls: List[Callable[[Session], Any]] = [copy.deepcopy, pickle.dumps]
        for call in calls:
            self.assertRaises((ValueError, TypeError), call, Session())

    def test_an_error_is_pickled(self) -> None:
        found = pickle.loads(pickle.dumps(Error(Code.CUT, 4)))
        self.assertEqual((found.code, found.place, str(found)), (Code.CUT, 4, "cut at 4"))

    def test_a_session_that_was_not_made(self) -> None:
        make: Any = Session
        self.assertRaises(AttributeError, make, "limits")
        gc.collect()

    def test_a_stream_takes_no_memory(self) -> None:
        stream = Stream()
        data = b"".join(message(16, link(it, attr(3, b"eth\0"))) for it in range(500))
        stream.begin(16, seq=1, port=12345)
        sizes = []
        tracemalloc.start()
        for _ in range(100):
            names = {it.name for it in stream.feed(data).views(rtnl.Link)}
            sizes.append(tracemalloc.get_traced_memory()[0])
        tracemalloc.stop()
        self.assertEqual((names, stream.status().received), ({"eth"}, 100 * len(data)))
        # That of one datagram a round would be a hundred times as much.
        self.assertLess(sizes[-1] - sizes[10], 10_000)


if __name__ == "__main__":
    unittest.main()
