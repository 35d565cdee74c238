"""The packages for Debian: what stands in each, and what is said of it."""
import os
import re
import subprocess
import tempfile
import textwrap
import time
from hashlib import md5
from typing import Dict, NamedTuple

import trees
from crates import ROOT
from statement import Source
from steps import Failed
from trees import File, Tree

# What Debian's policy has elsewhere than other systems.
MOVED = {"share/zsh/site-functions/": "share/zsh/vendor-completions/"}
LIBRARY = re.compile(r"usr/lib/.*/librtnlc\.so\.\d+")
COPYRIGHT = """\
Format: https://www.debian.org/doc/packaging-manuals/copyright-format/1.0/
Comment:
{notice}

Files: *
Copyright: 2026 the rtnl authors
License: MIT or Apache-2.0

License: MIT
{mit}

License: Apache-2.0
 On Debian systems the text is in /usr/share/common-licenses/Apache-2.0.
"""


class Package(NamedTuple):
    """What a package is called, what its control file says of it, and what it has."""

    name: str
    fields: Dict[str, str]
    description: str
    tree: Tree


DESCRIPTIONS = {
    "rtnl": """\
reader of recorded rtnetlink datagrams
It prints what the Linux kernel says of links, addresses, routes, neighbours
and rules, as text or as lines of JSON, byte by byte where that is asked for.
A datagram has exactly one reading, or is refused with the place of its first
fault. It opens no socket.
It needs a processor with SSE4.2 (x86-64-v2).""",
    "librtnlc0": """\
reader and builder of rtnetlink datagrams, shared library
Programs in C scan the datagrams that they received, read dumps into bounded
tables or in constant space, and build the requests that they send. The library
opens no socket.
It needs a processor with SSE4.2 (x86-64-v2).""",
    "librtnlc-dev": """\
reader and builder of rtnetlink datagrams, for development
The header, the static library, what pkg-config says of them, and the manual
page rtnlc(3). Programs in C scan the datagrams that they received, read dumps
into bounded tables or in constant space, and build the requests that they
send.
The library needs a processor with SSE4.2 (x86-64-v2).""",
}
FIELDS = {
    "rtnl": {"Section": "net", "Multi-Arch": "foreign", "Suggests": "jq"},
    "librtnlc0": {"Section": "libs", "Multi-Arch": "same"},
    "librtnlc-dev": {"Section": "libdevel", "Multi-Arch": "same"},
}


def indented(text: str) -> str:
    """As a field of several lines has it."""
    return "\n".join(f" {it}" if it.strip() else " ." for it in text.strip().split("\n"))


def text_of(name: str) -> str:
    with open(f"{ROOT}/{name}", encoding="utf-8") as file:
        return file.read()


def changelog(name: str, version: str, source: Source) -> bytes:
    """The part of CHANGELOG.md on a version, as Debian has it."""
    found = re.search(rf"^## {re.escape(version)}\n(.*?)(?=^## |\Z)", text_of("CHANGELOG.md"),
                      re.M | re.S)
    if found is None:
        raise Failed(f"CHANGELOG.md has no heading for {version}")
    points = [" ".join(it.split()) for it in re.split(r"^- ", found[1], flags=re.M) if it.strip()]
    lines = [textwrap.fill(it, 78, initial_indent="  * ", subsequent_indent="    ",
                           break_long_words=False, break_on_hyphens=False) for it in points]
    date = time.strftime("%a, %d %b %Y %H:%M:%S +0000", time.gmtime(source.time))
    front = f"{name} ({version}) unstable; urgency=medium\n\n"
    return (front + "\n".join(lines) + f"\n\n -- {source.author}  {date}\n").encode()


def placed(tree: Tree) -> Tree:
    """A tree of /usr as Debian has it, with packed pages and without a mode to run libraries."""
    found: Tree = {}
    for place, file in tree.items():
        for old, new in MOVED.items():
            place = place.replace(old, new)
            file = file._replace(text=file.text.replace(old.encode(), new.encode())) \
                if "/man/" in place else file
        if "/share/man/" in place:
            place, file = f"{place}.gz", file._replace(text=trees.packed(file.text))
        if LIBRARY.fullmatch(place):
            file = file._replace(mode=0o644)
        found[place] = file
    return found


def documented(package: Package, version: str, source: Source, statement: bytes) -> Package:
    """A package with the pages that each has."""
    copyright_page = COPYRIGHT.format(mit=indented(text_of("LICENSE-MIT")),
                                      notice=indented(text_of("NOTICE")))
    pages = {
        "copyright": copyright_page.encode(), "PROOF": statement,
        "changelog.gz": trees.packed(changelog(package.name, version, source)),
    }
    docs = {f"usr/share/doc/{package.name}/{it}": File(pages[it], 0o644) for it in pages}
    return package._replace(tree={**package.tree, **docs})


def control(package: Package, version: str, source: Source) -> str:
    size = sum(len(it.text) // 1024 + 1 for it in package.tree.values())
    fields = {
        "Package": package.name, "Version": version, "Architecture": "amd64",
        "Maintainer": source.author, "Installed-Size": f"{size}", "Priority": "optional",
        **package.fields,
    }
    first, _, rest = package.description.partition("\n")
    lines = [f"{name}: {value}" for name, value in fields.items() if value]
    return "\n".join([*lines, f"Description: {first}", indented(rest), ""])


def linked_with(name: str, version: str) -> str:
    """What a program depends on that is linked with this library: a later one whose second number
    is the same, since another may have other structs."""
    major, minor = version.split(".")[:2]
    return f"{name} (>= {version}), {name} (<< {major}.{int(minor) + 1}~)"


def meta(package: Package, version: str, source: Source, sums: Dict[str, str]) -> Dict[str, str]:
    """The files of DEBIAN/."""
    found = {"control": control(package, version, source)}
    found["md5sums"] = "".join(f"{it}  {place}\n" for place, it in sorted(sums.items()))
    if any(LIBRARY.fullmatch(place) for place in package.tree):
        found["triggers"] = "activate-noawait ldconfig\n"
        found["shlibs"] = f"librtnlc 0 {linked_with(package.name, version)}\n"
    return found


def split(program: Tree, library: Tree) -> Dict[str, Tree]:
    """The trees of the packages: of a library that isn't there none is made."""
    shared = {place: it for place, it in library.items() if LIBRARY.fullmatch(place)}
    rest = {place: it for place, it in library.items() if place not in shared}
    found = {"rtnl": program, "librtnlc0": shared, "librtnlc-dev": rest}
    return {name: tree for name, tree in found.items() if tree}


def build(package: Package, version: str, source: Source) -> bytes:
    """The bytes of the package."""
    with tempfile.TemporaryDirectory() as room:
        root = f"{room}/root"
        os.mkdir(root, 0o755)
        trees.write(package.tree, root, source.time)
        sums = {place: md5(it.text).hexdigest() for place, it in package.tree.items()
                if not it.is_link}
        files = meta(package, version, source, sums)
        control_files = {f"DEBIAN/{it}": File(files[it].encode(), 0o644) for it in files}
        trees.write(control_files, root, source.time)
        made = f"{room}/{package.name}.deb"
        # Packed by gzip, the bytes don't depend on how many processors there are.
        command = ["dpkg-deb", "--root-owner-group", "-Zgzip", "-z9", "--build", root, made]
        how = {**os.environ, "SOURCE_DATE_EPOCH": f"{source.time}"}
        ran = subprocess.run(command, env=how, stdout=subprocess.PIPE, stderr=subprocess.STDOUT,
                             check=False)
        if ran.returncode:
            raise Failed(f"dpkg-deb failed: {os.fsdecode(ran.stdout).strip()}")
        with open(made, "rb") as file:
            return file.read()
