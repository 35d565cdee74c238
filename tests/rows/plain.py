"""The calls whose rows are asked and shown by their names: of each call its module and its number
in crates/rtnl_rows, what it takes, and the template of what it answers.
"""
from typing import Dict, Generator, List, NamedTuple

from flat import Answers, Asked
from shown import filled
from words import Row, asked_in

# A row asks, once and all at once, and is shown what is answered; it returns its lines.
Made = Generator[List[Asked], List[Answers], List[str]]


class Call(NamedTuple):
    """A call: its numbers, what it takes, and what it answers."""

    number: str
    takes: str
    answers: str


LIST = "twin context base level depth bytes"
HEAD = "{head}\nwritten {hex} little {hex} big {hex}"
VIEWS = "bytes {found} text {found}\nu8 {maybe} be16 {maybe}\nu16 {maybe} u32 {maybe}\n" \
        "little u16 {maybe} u32 {maybe}\nbig u16 {maybe} u32 {maybe}"
CALLS: Dict[str, Call] = {
    "align4": Call("0 0", "u32", "{number}"),
    "same_part": Call("0 3", "u32 u32 two", "{yes}"),
    "same_hop": Call("0 4", "u32 u32 two", "{yes}"),
    "attr_at": Call("0 5", "u32 order bytes", "?{part}"),
    "hop_at": Call("0 6", "u32 order bytes", "?{hop}"),
    "message_at": Call("0 7", "u32 order bytes", "?!{header}\n"
                       "{form} span {number} payload {hex} rest {hex}"),
    "read_list": Call("1 0", LIST, "visits {number}\n!{attrs}"),
    "views": Call("1 1", f"u16 {LIST}", "{skip}!?{skip}" + VIEWS),
    "same_payload": Call("1 4", "two", "is {yes} equal {yes} back {yes}"),
    "read_datagram": Call("2 0", "limits bytes", "visits {number}\n!{messages}"),
    "same_messages": Call("2 1", "1 8 65536 1073741824 4096 two", "{yes}"),
    "is_canonical": Call("2 2", "limits bytes", "!{yes}"),
    "head": Call("3", "family 3 twin bytes", HEAD),
    "front": Call("3", "family 4 order bytes", "{context}: {head}"),
    "type": Call("5 3", "u16", "{type}"),
    "distinct": Call("5 4", "u16 u16", "{number}"),
    "put_request": Call("8 1", "u8 dump order", "{room}\nrequest {number}: {hex}"),
    "count_of": Call("12 0", "u16 bytes", "!{number}"),
    "message_count": Call("12 1", "limits bytes", "!{number}"),
    "mtu_of": Call("12 2", "limits bytes", "{maybe} plain {maybe}"),
    "read_named": Call("12 3", "depth bytes", "!name {found} mtu {maybe}"),
    "take_answer": Call("12 7", "u32 bytes", "{taken}\n{taken}"),
    "laws": Call("13", "", "{law}"),
}


def named(row: Row) -> Made:
    """The row of a call of these."""
    call = CALLS[row.call]
    [answers] = yield [asked_in(row, Asked(*map(int, call.number.split())), call.takes)]
    return filled(call.answers, answers).splitlines()
