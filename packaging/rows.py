"""What is installed, and what its texts say of where that is."""
import os
import re
from typing import Dict, List, NamedTuple

import page
from crates import ROOT

# A file of the repository, its place under the prefix, and its mode. `program` is the one that
# ./rtnl runs, `page` the one that web/build.py makes, and of the library the files that c/build.sh
# makes stand in built/. In places @LIBDIR@ is the library's folder.
PROGRAM = """
program bin/rtnl 755
share/man/man1/rtnl.1 share/man/man1/rtnl.1 644
share/completions/rtnl.bash share/bash-completion/completions/rtnl 644
share/completions/_rtnl share/zsh/site-functions/_rtnl 644
share/completions/rtnl.fish share/fish/vendor_completions.d/rtnl.fish 644
share/rtnl.jq share/rtnl/rtnl.jq 644
share/rtnl.schema.json share/rtnl/rtnl.schema.json 644
rtnl-record bin/rtnl-record 755
share/man/man1/rtnl-record.1 share/man/man1/rtnl-record.1 644
share/completions/rtnl-record.bash share/bash-completion/completions/rtnl-record 644
share/completions/_rtnl-record share/zsh/site-functions/_rtnl-record 644
share/completions/rtnl-record.fish share/fish/vendor_completions.d/rtnl-record.fish 644
"""
PAGE = "page share/rtnl/rtnl.html 644"
# The modules of rtnl-record, each of which is installed, and their folder under the prefix.
MODULES, MODULES_PLACE = "record", "share/rtnl-record"
LIBRARY = """
include/rtnlc.h include/rtnlc.h 644
built/librtnlc.a @LIBDIR@/librtnlc.a 644
built/librtnlc.so.0 @LIBDIR@/librtnlc.so.0 755
built/librtnlc.so @LIBDIR@/librtnlc.so link
share/rtnlc.pc @LIBDIR@/pkgconfig/rtnlc.pc 644
share/man/man3/rtnlc.3 share/man/man3/rtnlc.3 644
"""
# Where the record of all of it stands.
RECORD = "share/rtnl/installed"
# The words of files of share/ whose place something takes.
WORDS = re.compile(rb"@(VERSION|PREFIX|LIBDIR)@")


class Row(NamedTuple):
    """A file that is installed: where it comes from, its place, and its mode or `link`."""

    source: str
    place: str
    mode: str


def rows(table: str, libdir: str) -> List[Row]:
    """The rows of a table, with the library in this folder of the prefix."""
    lines = [line.split() for line in table.strip().splitlines()]
    return [Row(source, place.replace("@LIBDIR@", libdir), mode) for source, place, mode in lines]


def program_rows() -> List[Row]:
    """What is installed of the programs, and the page where it is of these sources."""
    names = sorted(it for it in os.listdir(f"{ROOT}/{MODULES}") if it.endswith(".py"))
    modules = [Row(f"{MODULES}/{it}", f"{MODULES_PLACE}/{it}", "644") for it in names]
    return [*rows(PROGRAM, ""), *modules, *rows(PAGE if page.is_current() else "", "")]


def version() -> str:
    """The version of the program, which stands in its sources."""
    with open(f"{ROOT}/crates/rtnl_cli/src/commands.rt", encoding="utf-8") as source:
        found = re.search(r'^const VERSION.*"(.*)"', source.read(), re.M)
    if found is None:
        raise OSError("the sources have no version")
    return found[1]


def escaped(path: str) -> str:
    """A path as a file for pkg-config has it, where a blank at the end of a line is lost."""
    return re.sub(r"""[ \\"'#${]""", r"\\\g<0>", path) + ('""' if path.endswith(" ") else "")


def filled(text: bytes, words: Dict[str, str]) -> bytes:
    """A file of share/ with its words replaced."""
    return WORDS.sub(lambda found: os.fsencode(words[found[1].decode()]), text)
