"""Makes a module of WebAssembly, for the page in web/: the library for C, of the code that the
proof made, or of what was compiled without one.

archive.py or compiled.py keeps that code, which LLVM compiles for a machine of 64 bits. It is
compiled here for WebAssembly with as wide addresses, beside rtnlc.c, and heap.c in place of the C
library's memory. wasm-opt makes the addresses those of a memory of 32 bits, which every browser
has. No proof covers these steps, as none covers LLVM in the kit.
"""
import os
import re
import shutil
import subprocess
import sys
import tempfile
from typing import Callable, List, NoReturn, Set, Tuple

import archive
from crates import ROOT
from unproved import kit_folder

TARGET = ["--target=wasm64-unknown-unknown", "-mbulk-memory", "-mno-multivalue",
          "-mno-reference-types", "-c", "-Oz"]
C = ["-std=c11", "-ffreestanding", "-fno-builtin", "-ffunction-sections", "-Wall", "-Wextra",
     "-Werror", f"-I{ROOT}/include"]
LINKED = ["-flavor", "wasm", "-mwasm64", "--no-entry", "--gc-sections", "--strip-all", "-z",
          "stack-size=262144", "--max-memory=268435456"]
LOWERED = ["--enable-memory64", "--enable-bulk-memory", "--enable-sign-ext",
           "--enable-mutable-globals", "--enable-nontrapping-float-to-int",
           "--memory64-lowering", "-Oz", "--strip-producers", "--strip-target-features"]
# The code says of no other machine that it is for it, and is to be small. A call that is proved
# has the name by which rtnlc.c calls it, and answers a byte as C does; what stands around it for
# C on the first machine is left out.
CHANGES = [
    (r"^target .*\n", ""),
    (r' "[\w-]+"="[^"]*"', ""),
    (r"^(attributes #\d+ = \{ )(?=.*nounwind \}$)", r"\1minsize optsize "),
    (r"^define (?!internal)(.* @)rtnlc_", r"define internal \1unused_"),
    (r'@"rtnl_c::\w+::rtnlc_(\w+)"', r"@proved_\1"),
    (r"^define internal (.*@proved_)", r"define \1"),
    (r"^define (noundef )?i8 @proved_", "define zeroext i8 @proved_"),
]


def stop(why: str) -> NoReturn:
    sys.exit(f"wasm.py: {why}")


def run(*command: str) -> str:
    ran = subprocess.run(command, stdin=subprocess.DEVNULL, stdout=subprocess.PIPE,
                         stderr=subprocess.STDOUT, text=True, errors="replace", check=False)
    if ran.returncode:
        stop(f"{os.path.basename(command[0])} failed: {ran.stdout}")
    return ran.stdout


def exported(words: Set[str]) -> List[str]:
    """The calls of the header that are among these words, and those by which memory is taken."""
    with open(f"{ROOT}/include/rtnlc.h", encoding="utf-8") as header:
        declared = re.findall(r"\brtnlc_\w+(?=\()", header.read())
    return sorted({"malloc", "free", *words.intersection(declared)})


def library(path: str) -> Tuple[str, List[str]]:
    """The code of the library with this archive, and how rtnlc.c is compiled beside it."""
    is_proved = path == archive.ARCHIVE
    return (archive.CODE, ["-DRTNLC_PROVED"]) if is_proved else (f"{path[:-2]}.ll", [])


def make(made: str, words: Set[str], build: Callable[[], str]) -> None:
    """Makes the module, with the calls that are among these words, of the archive that is built."""
    if shutil.which("wasm-opt") is None:
        stop("wasm-opt, of the package binaryen, is not on the PATH")
    tools, headers = f"{kit_folder()}/toolchain/bin", run("cc", "-print-file-name=include")
    with tempfile.TemporaryDirectory() as room:
        kept, how = library(build())
        sources = {f"{ROOT}/c/heap.c": C,
                   f"{ROOT}/c/rtnlc.c": [*C, *how, "-isystem", headers.strip()]}
        code = f"{room}/code.ll"
        run(f"{tools}/clang", "--target=x86_64", "-x", "ir", kept, "-S", "-emit-llvm",
            "-Xclang", "-disable-llvm-passes", "-o", code)
        with open(code, encoding="utf-8") as file:
            text = file.read()
        for old, new in CHANGES:
            text = re.sub(old, new, text, flags=re.M)
        with open(code, "w", encoding="utf-8") as file:
            file.write(text)
        sources[code] = ["-Wno-override-module"]
        objects = [f"{room}/{number}.o" for number in range(len(sources))]
        for to, (it, how) in zip(objects, sources.items()):
            run(f"{tools}/clang", *TARGET, *how, it, "-o", to)
        exports = [f"--export={it}" for it in exported(words)]
        run(f"{tools}/ld.lld", *LINKED, *exports, *objects, "-o", f"{room}/linked.wasm")
        run("wasm-opt", *LOWERED, f"{room}/linked.wasm", "-o", made)
