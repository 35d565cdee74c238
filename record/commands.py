"""The commands of rtnl-record with their arguments, and how they are run."""
import argparse
import signal
import sys
from typing import Any, BinaryIO, Callable, Iterator, List, NamedTuple, NoReturn, Optional

import again
import dump
import groups
import hexdump
import kinds
import monitor
import netlink
import pcap
import rtmon
import strace
from kinds import FAMILIES, KINDS, MASKS, OF_DEVICE, Asked
from output import LONGEST, Damaged, Item, Note, Stop, Usage, put, report, shown, write

VERSION = "0.3.0"
INPUT = "-"
DESCRIPTION = """Makes recordings for rtnl: a line of hexadecimal for each rtnetlink datagram, and
comments behind #."""
STATUSES = """Exit status:
  0  all is recorded
  1  a capture is damaged, and refused with its place; a dump is not whole; datagrams were dropped;
     or one was cut. What came before is printed. Or a line of --again is no kind
  2  usage error
  3  a socket, a read or a write failed"""


class Command(NamedTuple):
    """A command: one line on it, its page, an example, its arguments, and what it records."""

    name: str
    line: str
    page: Optional[str]
    example: str
    add: Callable[["Parser"], None]
    items: Callable[[argparse.Namespace], Iterator[Item]]


class PrintVersion(argparse.Action):
    """Prints the version and ends, or fails, as print_help does."""

    def __call__(self, *_: object) -> NoReturn:
        put(f"rtnl-record {VERSION}\n")
        raise SystemExit


class Parser(argparse.ArgumentParser):
    """Reports a usage error in one line."""

    def __init__(self, **rest: Any) -> None:
        super().__init__(add_help=False, allow_abbrev=False,
                         formatter_class=argparse.RawDescriptionHelpFormatter, **rest)
        self.arguments = self.add_argument_group("Arguments")
        self.options = self.add_argument_group("Options")
        self.options.add_argument("-h", "--help", action="help", help="print help")

    def print_help(self, file: object = None) -> None:
        """Prints the help, or fails: argparse would say nothing where it can't be written."""
        put(self.format_help())

    def error(self, message: str) -> NoReturn:
        raise Usage(f"{shown(message)}; see --help")


def number(least: int, most: int) -> Callable[[str], int]:
    """What reads a decimal number of this range."""
    def read(text: str) -> int:
        is_number = text.isascii() and text.isdecimal() and len(text) <= len(str(most))
        if not is_number or not least <= int(text) <= most:
            raise argparse.ArgumentTypeError(f"'{text}' is no number from {least} to {most}")
        return int(text)
    return read


def family(text: str) -> int:
    """An address family by its word or its number."""
    if text in FAMILIES:
        return FAMILIES[text]
    if text.isdecimal():
        return number(0, 255)(text)
    raise argparse.ArgumentTypeError(
        f"'{text}' is no address family; there are {', '.join(FAMILIES)}")


def ext_mask(text: str) -> int:
    """Bits of IFLA_EXT_MASK, by their words or as one number."""
    if text.isdecimal():
        return number(0, (1 << 32) - 1)(text)
    mask = 0
    for it in text.split(","):
        if it not in MASKS:
            raise argparse.ArgumentTypeError(
                f"'{it}' is no bit of the mask; there are {', '.join(MASKS)}")
        mask |= MASKS[it]
    return mask


def group(text: str) -> str:
    if text not in groups.NUMBERS and text not in groups.WORDS:
        raise argparse.ArgumentTypeError(
            f"'{text}' is no group; there are {', '.join([*groups.WORDS, *groups.NAMES])}")
    return text


def listed(text: str) -> List[str]:
    """Kinds with commas between them."""
    for it in text.split(","):
        if it not in KINDS:
            raise argparse.ArgumentTypeError(f"'{it}' is no kind; there are {', '.join(KINDS)}")
    return text.split(",")


def add_where(parser: Parser) -> None:
    parser.options.add_argument(
        "--dev", metavar="DEV", help="device, by its name or its index, of which the kind is asked "
        f"for: {', '.join(OF_DEVICE)}")
    parser.options.add_argument(
        "--netns", metavar="NAME", help="ask in this network namespace, as ip-netns names it")


def add_dump(parser: Parser) -> None:
    parser.arguments.add_argument("kind", metavar="KIND", choices=[*KINDS],
                                  help=f"what is asked for: {', '.join(KINDS)}")
    parser.options.add_argument(
        "--family", metavar="FAMILY", type=family,
        help=f"address family, 0 to 255 or one of {', '.join(FAMILIES)} [default: 0, all of them]")
    parser.options.add_argument(
        "--ext-mask", metavar="MASK", type=ext_mask,
        help=f"what else is asked of links, a number or words: {', '.join(MASKS)}")
    parser.options.add_argument("--proxy", action="store_true", default=None,
                                help="ask for the neighbours that the kernel answers for")
    parser.options.add_argument(
        "--buffer", metavar="N", type=number(1, LONGEST), default=LONGEST,
        help=f"size of the buffer for a datagram, 1 to {LONGEST} bytes [default: {LONGEST}]")
    add_where(parser)


def check_options(asked: argparse.Namespace, names: List[str], options: List[str]) -> None:
    """Each of the options that is given goes with one of these kinds, and those that need one have
    it."""
    for option in options:
        takers = [name for name, kind in KINDS.items() if option in kind.options]
        if getattr(asked, option) is not None and not {*takers} & {*names}:
            raise Usage(f"--{option.replace('_', '-')} goes with {', '.join(takers)}; see --help")
    for it in names:
        if it in OF_DEVICE and asked.dev is None:
            raise Usage(f"{it} needs --dev; see --help")


def index_of(dev: Optional[str]) -> int:
    return 0 if dev is None else kinds.index_of(dev)


def dumped(asked: argparse.Namespace) -> Iterator[Item]:
    check_options(asked, [asked.kind], ["family", "ext_mask", "proxy", "dev"])
    with netlink.opened(asked.netns) as link:
        what = Asked(asked.kind, asked.family or 0, asked.ext_mask or 0, bool(asked.proxy),
                     index_of(asked.dev))
        yield from dump.items(link, what, asked.buffer)


def add_monitor(parser: Parser) -> None:
    words = ", ".join([*groups.WORDS, *groups.NAMES])
    parser.arguments.add_argument("groups", metavar="GROUP", nargs="*", type=group,
                                  help=f"what is listened to [default: {groups.ALL}]: {words}")
    parser.options.add_argument("--time", action="store_true",
                                help="print the time before each datagram, as a comment line")
    parser.options.add_argument(
        "--dump", metavar="KINDS", type=listed, action="extend", default=[],
        help=f"ask for dumps of these kinds first, as link,route: {', '.join(KINDS)}")
    parser.options.add_argument("--again", metavar="PATH", help="read a kind on each line of this "
                                "file, a named pipe, and ask for a dump of it again")
    add_where(parser)


def monitored(asked: argparse.Namespace) -> Iterator[Item]:
    # Whatever the file names.
    check_options(asked, asked.dump, [] if asked.again else ["dev"])
    file = None if asked.again is None else again.Again(asked.again)
    with netlink.opened(asked.netns) as link:
        dev = index_of(asked.dev)
        yield from monitor.items(link, asked.groups or [groups.ALL], asked.time, asked.dump, dev,
                                 file)


def add_file(parser: Parser) -> None:
    parser.arguments.add_argument("file", metavar="FILE", help=f"the capture; {INPUT} is standard "
                                  "input")


def add_text(parser: Parser) -> None:
    parser.arguments.add_argument("file", metavar="FILE", nargs="?", default=INPUT,
                                  help=f"the capture; {INPUT}, or no FILE, is standard input")


def add_hexdump(parser: Parser) -> None:
    add_text(parser)
    parser.options.add_argument(
        "--cooked", action="store_true", help="the dumps are of packets of an nlmon device; the "
        "16 bytes in front of each datagram are left out")


def opened(name: str) -> BinaryIO:
    if name != INPUT:
        return open(name, "rb")
    if sys.stdin is None:
        raise Stop("standard input is closed")
    return sys.stdin.buffer


def converted(items: Callable[[BinaryIO, argparse.Namespace], Iterator[Item]],
              asked: argparse.Namespace) -> Iterator[Item]:
    """What a capture gives. All that is said of it names it."""
    name = shown(asked.file) if asked.file != INPUT else "standard input"
    try:
        with opened(asked.file) as file:
            for item in items(file, asked):
                yield type(item)(f"{name}: {item}") if isinstance(item, Note) else item
    except Damaged as damaged:
        raise Damaged(f"{name}: {damaged}") from None
    except OSError as error:
        raise Stop(f"{name}: {error.strerror}") from None


COMMANDS = [
    Command("dump", "ask the kernel for links, addresses, routes and the like",
            dump.__doc__, "rtnl-record dump link > links.hex", add_dump, dumped),
    Command("monitor", "record what the kernel notifies of, until an interrupt",
            monitor.__doc__, "rtnl-record monitor --time link address > changes.hex\n  mkfifo again\n"
            "  rtnl-record monitor --dump route --again again route > routes.hex",
            add_monitor, monitored),
    Command("pcap", "read a capture of an nlmon device, as tcpdump and tshark write it",
            pcap.__doc__, "tcpdump -i nlmon0 -w nl.pcap\n  rtnl-record pcap nl.pcap | rtnl show",
            add_file, lambda asked: converted(lambda file, _: pcap.items(file), asked)),
    Command("rtmon", "read what rtmon wrote",
            rtmon.__doc__, "rtmon file links.rtmon\n  rtnl-record rtmon links.rtmon | rtnl show",
            add_file, lambda asked: converted(lambda file, _: rtmon.items(file), asked)),
    Command("strace", "read what strace wrote of another program",
            strace.__doc__, "strace -f -o ip.strace -e trace=network -e read=all -e write=all "
            "ip link\n  rtnl-record strace ip.strace | rtnl show",
            add_text, lambda asked: converted(lambda file, _: strace.items(file), asked)),
    Command("xxd", "read a dump in hexadecimal of xxd, hexdump, Wireshark or Go",
            hexdump.__doc__, "xxd datagram | rtnl-record xxd | rtnl show", add_hexdump,
            lambda asked: converted(lambda file, to: hexdump.items(file, to.cooked), asked)),
]


def parser() -> Parser:
    rows = "\n".join(f"  {it.name:<9}{it.line}" for it in COMMANDS)
    whole = Parser(prog="rtnl-record", description=DESCRIPTION, usage="%(prog)s COMMAND ...",
                   epilog=f"Commands:\n{rows}\n\nrtnl-record COMMAND --help has more.\n\n"
                          f"{STATUSES}")
    whole.options.add_argument("-V", "--version", action=PrintVersion, nargs=0,
                               default=argparse.SUPPRESS, help="print version")
    commands = whole.add_subparsers(dest="command", metavar="COMMAND", required=True,
                                    prog=whole.prog, help=argparse.SUPPRESS)
    for it in COMMANDS:
        one = commands.add_parser(it.name, description=it.page,
                                  epilog=f"Example:\n  {it.example}\n\n{STATUSES}")
        it.add(one)
        one.set_defaults(items=it.items)
    return whole


def run(words: List[str]) -> int:
    if sys.stdout is None:
        raise Stop("standard output is closed")
    try:
        asked = parser().parse_args(words)
        return write(asked.items(asked))
    except SystemExit:
        # What the help and the version do when they are printed.
        return 0


def main(words: List[str]) -> int:
    """Runs a command. A reader that goes away ends it, and an interrupt, but for the monitor."""
    for it in (signal.SIGPIPE, signal.SIGINT):
        signal.signal(it, signal.SIG_DFL)
    try:
        return run(words)
    except Stop as stop:
        report(stop)
        return stop.status
    except OSError as error:
        report(f"a socket failed: {error.strerror}")
        return 3
