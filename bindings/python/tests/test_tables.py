"""The tables of recorded dumps, and all messages of recordings, are what `rtnl` prints in JSON."""
import unittest
from ipaddress import ip_address
from typing import Any, Dict, Iterable, List, Optional

import expected
import rtnl
import shared
from rtnl import Attribute, Attributes, Datagram, Session, Stream
from rtnl._view import View

CLASSES = {
    "link": rtnl.Link,
    "addr": rtnl.Address,
    "route": rtnl.Route,
    "neigh": rtnl.Neighbour,
    "rule": rtnl.Rule,
}
TABLES = {
    "link": "links",
    "addr": "addresses",
    "route": "routes",
    "neigh": "neighbours",
    "rule": "rules",
}
# Attributes that are asked for by themselves, whose forms in JSON are compared by `attributes`.
APART = {"metrics"}


def answers(view: View) -> Dict[str, Any]:
    """All that a view says."""
    names = [it for it, found in vars(type(view)).items() if isinstance(found, property)]
    found = {name: getattr(view, name) for name in names if name not in APART}
    if found.get("hops") is not None:
        found["hops"] = [(it.flags, it.weight, it.index, it.gateway) for it in found["hops"]]
    return found


class Forms(unittest.TestCase):
    """Compares attributes with those of JSON, by the form that they have there."""

    def is_value(self, found: Attribute, form: str, value: Any) -> None:
        if form in ("u8", "u16", "u32"):
            # One is printed in network order whatever the datagram's, the port of a neighbour.
            is_port = (found.context, found.number) == (6, 6)
            swapped = int.from_bytes(found.payload, "big") if is_port else getattr(found, form)()
            self.assertEqual(swapped, value)
        elif form == "text":
            self.assertEqual(found.text(), value)
        elif form in ("ipv4", "ipv6"):
            self.assertEqual(found.address(), ip_address(value))
        else:
            self.assertEqual(form, "hex")
            self.assertEqual(found.as_bytes(), bytes.fromhex(value))
            self.assertEqual(found.hardware_address(), bytes.fromhex(value))

    def are(self, found: Optional[Attributes], wanted: List[Dict[str, Any]]) -> None:
        assert found is not None
        self.assertEqual(len(found), len(wanted))
        for one, other in zip(found, wanted):
            flags = [it for it in ("nested", "net") if getattr(one, it)]
            self.assertEqual((one.number, flags), (other["number"], other["flags"]))
            if other["form"] == "list":
                self.are(one.attributes, other["items"])
            elif other["form"] == "hops":
                hops = one.hops
                assert hops is not None and len(hops) == len(other["items"])
                for hop, item in zip(hops, other["items"]):
                    self.are(hop.attributes, item["attrs"])
            else:
                self.is_value(one, other["form"], other["value"])

    def is_view(self, view: Optional[View], kind: str, head: Dict[str, Any]) -> None:
        assert view is not None
        self.assertIs(type(view), CLASSES[kind])
        self.assertEqual(answers(view), expected.VIEWS[kind](head))
        self.are(view.attributes, head["attrs"])


class Tables(Forms):
    def dumps(self) -> Iterable[Any]:
        """Each recording: its family, its datagrams, the numbers of its dump, and its table."""
        for name, kind in shared.DUMPS.items():
            lines = shared.recording(name)
            first = shared.objects("show", lines=lines[:1])[0]["messages"][0]
            numbers = {"seq": first["seq"], "port": first["port"]}
            options = [f"--{name}={value}" for name, value in numbers.items()]
            *entries, end = shared.objects("table", f"--kind={kind}", *options, lines=lines)
            yield kind, lines, numbers, entries, end

    def test_sessions(self) -> None:
        count = 0
        with Session() as session:
            for kind, lines, numbers, entries, end in self.dumps():
                session.begin(shared.NEW[kind], **numbers)
                for line in lines:
                    self.assertTrue(session.waiting)
                    session.feed(line)
                table = getattr(session, TABLES[kind])
                self.assertEqual((len(table), table.missed), (end["entries"], end["missed"]))
                for view, entry in zip(table, entries):
                    self.is_view(view, kind, entry[kind])
                    count += 1
                status = session.status()
                self.assertEqual((status.status, status.ignored), (end["code"], end["ignored"]))
                self.assertEqual(status.complete, end["complete"])
        self.assertGreater(count, 150)

    def test_limits_of_tables(self) -> None:
        for kind, lines, numbers, *_ in self.dumps():
            options = [f"--{name}={value}" for name, value in numbers.items()]
            options += [f"--kind={kind}", "--entries=1"]
            *_, end = shared.objects("table", *options, lines=lines, statuses=(0, 1))
            with Session(rtnl.Limits(entries=1)) as session:
                session.begin(shared.NEW[kind], **numbers)
                for line in lines:
                    session.feed(line)
                table = getattr(session, TABLES[kind])
                self.assertEqual((len(table), table.missed), (end["entries"], end["missed"]))
                self.assertEqual((table.limit, session.status().complete), (1, end["complete"]))

    def test_streams(self) -> None:
        """A stream hands out the same entries, here of dumps that have each key once."""
        stream, count = Stream(), 0
        for kind, lines, numbers, entries, end in self.dumps():
            stream.begin(shared.NEW[kind], **numbers)
            items = [it for line in lines for it in stream.feed(line)]
            self.assertFalse(stream.waiting)
            self.assertEqual(len(items), len(entries))
            for item, entry in zip(items, entries):
                self.is_view(item.view, kind, entry[kind])
                count += 1
            self.assertEqual(stream.status().complete, end["complete"])
        self.assertGreater(count, 150)


class Recordings(Forms):
    def test_messages(self) -> None:
        count = 0
        for name in [*shared.DUMPS, "examples/changes", "measure/whole"]:
            lines = shared.recording(name)
            for line, shown in zip(lines, shared.objects("show", lines=lines)):
                datagram = Datagram(line)
                self.assertEqual(len(datagram), len(shown["messages"]))
                for message, wanted in zip(datagram, shown["messages"]):
                    header = [wanted[it] for it in ("message", "flags", "seq", "port")]
                    found = [message.kind, message.flags, message.seq, message.port]
                    self.assertEqual(found, header)
                    kind = next((it for it in CLASSES if it in wanted), None)
                    if kind:
                        self.is_view(message.view, kind, wanted[kind])
                        count += 1
                    else:
                        self.assertIsNone(message.view)
                        self.assertEqual(list(message.attributes), [])
        self.assertGreater(count, 200)

    def test_views_of_a_family(self) -> None:
        lines = shared.recording("examples/changes")
        shown = [it for line in shared.objects("show", lines=lines) for it in line["messages"]]
        for kind, sort in CLASSES.items():
            found = [it for line in lines for it in Datagram(line).views(sort)]
            wanted = [it["message"] for it in shown if kind in it]
            self.assertEqual([it.message.kind for it in found], wanted)


if __name__ == "__main__":
    unittest.main()
