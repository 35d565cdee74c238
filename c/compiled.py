"""Compiles the library for C of the module that launch/unproved.py keeps: whole, at -O3, as the kit
compiles a proved one, and with the marks of inlining. It has no test at an index: what is not
proved, or was changed since, can read where it should not. What it needs of a processor is what
this one has of what a proved library needs.
"""
import re
from typing import IO, Any, List

import exports
import unproved
from crates import ROOT, Crates
from marks import marked
from parts import Module, used
from steps import Failed, step

# What a trial asks of each function, in place of what a proved one has.
OF_TRIAL = re.compile(r'(nounwind )?sanitize_address "frame-pointer"="all"')
# What a proved library needs, of processors that have these flags.
CPU, FLAGS = "x86-64-v2", {"cx16", "lahf_lm", "popcnt", "sse4_1", "sse4_2", "ssse3"}


def cpu(said: str) -> str:
    """The processor to compile for, by the text of /proc/cpuinfo: one of a proved library, or any."""
    found = re.search(r"^flags\s*:(.*)$", said, re.M)
    return CPU if found and FLAGS <= {*found[1].split()} else "x86-64"


def text(module: Module, name: str, roots: "dict[str, str]") -> str:
    """The text of the library's module."""
    calls = [it for it in module.functions if exports.IS_CALL.match(it)]
    lines = (line for it in used(module, *calls) for line in module.functions[it].lines)
    found = OF_TRIAL.sub("nounwind", "".join([*module.rest, *lines]))
    with open("/proc/cpuinfo", encoding="utf-8", errors="replace") as said:
        found = found.replace('"target-cpu"="x86-64"', f'"target-cpu"="{cpu(said.read())}"')
    return marked(found, roots) + exports.around_all(found, name)


def build(crates: Crates, name: str, log: IO[Any], room: str, at: str) -> List[str]:
    """Compiles the library of the module in a folder, and returns the names in the room: the
    archive, and its code for other machines."""
    folder = unproved.kit()
    words = [*unproved.libraries(folder, crates, name), f"{name}:={ROOT}/crates/{name}/src/lib.rt"]
    roots = {it.partition(":")[0]: it.partition("=")[2] for it in words}
    made = [f"lib{name}.a", f"lib{name}.ll"]
    with open(f"{room}/{made[1]}", "w", encoding="utf-8") as file:
        file.write(text(unproved.module(at, checks=False), name, roots))
    command = [it for it in unproved.compiler(at, made[1], "-O3", "-fPIC") if it != "-fPIE"]
    packing = [f"{folder}/toolchain/bin/llvm-ar", "rcsD", made[0], "module.o"]
    if not (step("2 of 3: compiling it", log, [command], cwd=room)
            and step("3 of 3: packing it", log, [packing], cwd=room)):
        raise Failed(f"the library was not compiled; see {log.name}")
    return made
