"""Holds the rows of `show --bytes --format json` against the objects of `show --format json` of the
same datagrams, with no other reading of the bytes: what stands in rows stands in the objects, the
other way round, and in the same order. Attributes have the same names, but for a prefix.
"""
import json
from typing import Any, Dict, Iterator, List, Optional

# A row, and a value of JSON.
Row = Dict[str, Any]
Json = Any
HEADER = {"nlmsg_len": "", "nlmsg_type": "", "nlmsg_flags": "flags"}
HEADER.update(nlmsg_seq="seq", nlmsg_pid="port")
CAPPED, ACK_TLVS = 0x100, 0x200
WIDTH = 16


class Differs(Exception):
    """What the rows say, and the objects don't."""


def aligned(length: int) -> int:
    return -(-length // 4) * 4


class Reading:
    """The rows of a datagram, of which those from `at` on aren't read yet."""

    def __init__(self, rows: List[Row]):
        self.rows, self.at = rows, 0

    @property
    def place(self) -> int:
        """Where the next row begins."""
        if self.at < len(self.rows):
            return int(self.rows[self.at]["offset"])
        last = self.rows[-1]
        return int(last["offset"] + last["length"])

    def places(self, end: int) -> None:
        """That the rows stand one behind another up to this end."""
        place = 0
        for row in self.rows:
            if row["offset"] != place:
                raise Differs(f"{row} is not at {place}")
            place += row["length"]
        if place != end:
            raise Differs(f"the rows end at {place}")

    def row(self, name: str) -> Row:
        """The next row, which has this name."""
        row = self.rows[self.at] if self.at < len(self.rows) else {"name": "the end"}
        if row["name"] != name:
            raise Differs(f"{row} in place of {name}")
        self.at += 1
        return row

    def padding(self, end: Optional[int] = None) -> None:
        """Padding that comes next, up to a place."""
        while self.at < len(self.rows) and self.rows[self.at]["name"] == "padding":
            if end is not None and self.place >= end:
                return
            if self.row("padding")["value"] is not None:
                raise Differs("padding with a value")

    def part(self, name: str, size: Optional[int] = None) -> Row:
        """The rows of a part of this size, or of one whose size isn't known, as one."""
        found = self.row(name)
        rows = [found]

        def has_more() -> bool:
            if size is not None:
                return sum(it["length"] for it in rows) < size
            if self.at == len(self.rows) or rows[-1]["length"] < WIDTH:
                return False
            row = self.rows[self.at]
            return (row["name"], row["level"], row["value"]) == (name, found["level"], None)

        while has_more():
            rows.append(self.row(name))
            if rows[-1]["value"] is not None:
                raise Differs(f"{rows[-1]} has a value")
        text = "".join(it["bytes"] for it in rows)
        if size is not None and len(text) != 2 * size:
            raise Differs(f"{found} has {len(text) // 2} bytes in place of {size}")
        return {**found, "bytes": text}

    # Values.

    def leaf(self, name: str, value: Json, size: Optional[int] = None) -> None:
        """A part that has this value; none where it has no bytes."""
        if size == 0:
            return
        row = self.part(name, size)
        if row["value"] != value or isinstance(row["value"], bool):
            raise Differs(f"{row} is not {value}")

    def digits(self, name: str, text: str) -> None:
        """Bytes of no known meaning."""
        if not text:
            return
        row = self.part(name, len(text) // 2)
        if (row["value"], row["bytes"]) != (None, text):
            raise Differs(f"{row} is not {text}")

    def meaning(self, name: str, data: Json, size: Optional[int] = None) -> None:
        """What a payload of so many bytes means; what has no bytes has no row."""
        if size == 0:
            if data not in ("", True, [], {}):
                raise Differs(f"{data} has no bytes")
            return
        if isinstance(data, dict) and data.keys() not in ({"number", "name"}, {"number", "names"}):
            self.fields(name, data)
        elif isinstance(data, list):
            for it in data:
                self.element(name, it)
        else:
            self.leaf(name, data, size)

    def element(self, name: str, value: Json) -> None:
        """One of many: a number, a struct, or an attribute."""
        if not isinstance(value, dict):
            self.leaf(name, value)
        elif "number" in value:
            self.attribute(value)
        else:
            self.fields(name, value)

    def fields(self, name: str, found: Dict[str, Json]) -> None:
        """The fields of a struct with the attributes behind it, or numbers by their places."""
        for field, value in found.items():
            self.padding()
            if field == "attrs":
                self.meaning(name, value)
                continue
            row = self.rows[self.at] if self.at < len(self.rows) else {}
            called = name if field.isdigit() and row.get("name") == name else field
            if isinstance(value, str) and row.get("value") is None:
                self.digits(called, value)
            elif value not in ("", []) or row.get("name") == called:
                self.meaning(called, value)
        self.padding()

    # Attributes, bodies and messages.

    def attribute(self, it: Dict[str, Json]) -> None:
        self.padding()
        start = self.place
        length, kind = self.row("rta_len")["value"], self.row("rta_type")["value"]
        name, number = it["name"], it["number"]
        is_same = str(kind).endswith(name) if name else kind == number
        if not is_same:
            raise Differs(f"the type {kind} is not {name or number}")
        called, size = kind if name else "payload", length - 4
        if "items" in it:
            for inside in it["items"]:
                self.hop(inside) if it["form"] == "hops" else self.attribute(inside)
        elif "data" in it:
            self.meaning(called, it["data"], size)
        elif it.get("form", "hex") == "hex":
            self.digits(called, it["value"])
        else:
            self.leaf(called, it["value"], size)
        self.padding(start + aligned(length))

    def hop(self, it: Dict[str, Json]) -> None:
        self.padding()
        self.row("rtnh_len")
        self.plain(it, "rtnh_flags", "rtnh_hops", "rtnh_ifindex", of=("flags", "hops", "index"))
        for inside in it["attrs"]:
            self.attribute(inside)

    def plain(self, found: Dict[str, Json], *names: str, of) -> None:
        """Parts of these names, which have the values of these fields."""
        for name, field in zip(names, of):
            self.leaf(name, found[field])

    def header(self, found: Dict[str, Json], kind: int) -> None:
        """A header of a message, of this type."""
        for name, field in HEADER.items():
            row = self.row(name)
            if field and row["value"] != found[field]:
                raise Differs(f"{row} is not {found[field]}")
            is_number = name == "nlmsg_type" and isinstance(row["value"], int)
            if is_number and row["value"] != kind:
                raise Differs(f"{row} is not {kind}")

    def answer(self, flags: int, found: Dict[str, Json]) -> None:
        """What is answered, and what comes back of it."""
        about, tail = found["answers"], found["tail"]
        self.header(about, about["type"])
        size = 0 if not found["code"] or flags & CAPPED else max(0, about["len"] - 16)
        start, size = self.place, min(size, len(tail) // 2)
        if "data" in about:
            self.meaning("payload", about["data"], size)
        else:
            self.digits("payload", tail[: 2 * size])
        self.padding(start + aligned(size))
        self.tail(found, tail[2 * aligned(size) :])

    def tail(self, found: Dict[str, Json], tail: str) -> None:
        if "data" in found:
            self.meaning("tail", found["data"], len(tail) // 2)
        else:
            self.digits("tail", tail)

    def body(self, flags: int, sort: str, found: Json) -> None:
        if sort == "bytes":
            self.digits("payload", found)
        elif sort == "get":
            self.leaf("rtgen_family", found["family"])
            self.digits("tail", found["tail"])
        elif sort == "error":
            self.leaf("error", found["code"])
            self.answer(flags, found)
        elif sort == "done":
            if self.rows[self.at :] and self.rows[self.at]["name"] == "status":
                self.leaf("status", found["status"])
            self.tail(found, found["tail"])
        else:
            self.family(found)

    def family(self, found: Dict[str, Json]) -> None:
        """A head of a family, whose fields that say nothing stand in the rows alone."""
        for field, value in found.items():
            if field.endswith("_names") or field == "attrs":
                continue
            while self.rows[self.at]["value"] is None:
                self.at += 1
            row = self.rows[self.at]
            self.leaf(row["name"], value)
        for it in found["attrs"]:
            self.attribute(it)

    def message(self, found: Dict[str, Json]) -> None:
        self.padding()
        self.header(found, found["message"])
        sort, body = [*found.items()][6]
        if "data" in found:
            self.meaning("payload", found["data"], len(body) // 2)
        else:
            self.body(found["flags"], sort, body)


def fault_of(rows: List[Row], shown: Json) -> Optional[str]:
    """What the rows of a datagram and its object say otherwise; nothing of one that is refused."""
    if "refused" in shown:
        return None
    reading = Reading(rows)
    try:
        reading.places(shown["bytes"])
        for it in shown["messages"]:
            reading.message(it)
        reading.padding()
        if reading.at < len(rows):
            raise Differs(f"{rows[reading.at]} stands in no object")
    except Differs as differs:
        return f"datagram {shown['datagram']}: {differs}"
    return None


def grouped(text: str) -> Iterator[List[Row]]:
    """The rows of each datagram."""
    found: Dict[int, List[Row]] = {}
    for line in text.split("\n")[:-1]:
        row = json.loads(line)
        found.setdefault(row["datagram"], []).append(row)
    yield from found.values()


def fault(rows: str, objects: str) -> Optional[str]:
    """What the lines of the rows and those of `show` say otherwise first, or nothing."""
    shown = [json.loads(line) for line in objects.split("\n")[:-1]]
    by_number = {found[0]["datagram"]: found for found in grouped(rows)}
    faults = (fault_of(by_number.get(it["datagram"], []), it) for it in shown)
    return next((it for it in faults if it), None)
