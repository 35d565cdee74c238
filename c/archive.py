#!/usr/bin/env python3
"""Proves rtnl_c and makes out/proved/librtnl_c.a over the libraries that lie built in the crates'
folders out/, as `rt lib` does at its end. Beside it librtnl_c.bc is kept, the code that the kit
hands to its clang, of which wasm.py makes the module of the page. launch/build.py calls it; why it
does stands in docs/DECISIONS.md. The status is 1 where a library is missing or older than its
sources, or rtnl_c is not proved.
"""
import os
import shutil
import subprocess
import sys
import tempfile
from typing import Any, Dict, List, NoReturn

sys.dont_write_bytecode = True
sys.path.insert(0, f"{os.path.dirname(os.path.realpath(__file__))}/../launch")
from crates import ROOT, Crates, NotBuilt, below, library, listed
from stand_in import stand_in
from steps import Failed
from unproved import kit_folder

NAME = "rtnl_c"
ARCHIVE, CODE = (f"{ROOT}/out/proved/lib{NAME}.{it}" for it in ("a", "bc"))
# Keeps the module that is compiled.
KEEPER = """#!/bin/sh
for word in "$@"; do
  case $word in *.bc) cp "$word" '{room}/kept' || exit ;; esac
done
exec '{clang}' "$@"
"""


def stop(why: str) -> NoReturn:
    print(f"archive.py: {why}", file=sys.stderr)
    sys.exit(1)


def words(kit: str, crates: Crates, toolchain: str, to: str) -> List[str]:
    """The command of the compiler, which compiles by the clang of this toolchain."""
    libraries = {name: library(name) for name in below(crates, NAME)}
    uses = crates[NAME].uses
    found = [f"{kit}/bin/rattle", "build", "--crate-name", NAME, "src/lib.rt"]
    for name in ["std", *(it for it in uses if it not in crates)]:
        found += ["--extern", f"{name}={kit}/rlibs/{name}.rlib"]
    found += ["-L", f"dependency={kit}/rlibs"]
    for name in (it for it in uses if it in crates):
        found += ["--extern", f"{name}={libraries[name]}"]
    for folder in libraries.values():
        found += ["-L", f"dependency={os.path.dirname(folder)}"]
    found += ["--antt-project", f"{kit}/rattle/logic/antt-project.json"]
    found += ["--logic-built", f"{kit}/logic_built", "--jobs", "2", "--links", f"{NAME}="]
    found += ["--crate-type", "staticlib", "--toolchain", toolchain]
    return [*found, "--backend", "llvm", "-o", to]


def build(crates: Crates) -> None:
    """Proves rtnl_c, and makes its archive and keeps its code."""
    os.makedirs(os.path.dirname(ARCHIVE), exist_ok=True)
    how: Dict[str, Any] = {"stdin": subprocess.DEVNULL, "stdout": subprocess.PIPE}
    how.update(stderr=subprocess.STDOUT, cwd=f"{ROOT}/crates/{NAME}", errors="replace")
    with tempfile.TemporaryDirectory() as room:
        kit = kit_folder()
        command = words(kit, crates, stand_in(kit, room, KEEPER), f"{ARCHIVE}.new")
        ran = subprocess.run(command, check=False, **how)
        lines = ran.stdout.splitlines()
        if ran.returncode or not lines or not lines[-1].startswith("logic=proved "):
            print(ran.stdout, end="", file=sys.stderr)
            stop(f"{NAME} is not proved, or not built")
        shutil.copyfile(f"{room}/kept", f"{CODE}.new")
    os.replace(f"{CODE}.new", CODE)
    os.replace(f"{ARCHIVE}.new", ARCHIVE)


if __name__ == "__main__":
    try:
        build(listed())
    except (Failed, NotBuilt) as error:
        stop(f"{error}")
