#!/usr/bin/env python3
"""Makes rtnl.html in FOLDER, or in out/: the page that decodes netlink in a browser, one file that
loads nothing else.

  web/build.py [FOLDER]

The library in it is that for C, as WebAssembly, which c/wasm.py makes of the code of the one that
launch/build.py builds.
"""
import base64
import hashlib
import json
import os
import re
import sys
import tempfile
import zlib
from typing import List

sys.dont_write_bytecode = True
ROOT = f"{os.path.dirname(os.path.realpath(__file__))}/.."
sys.path[:0] = [f"{ROOT}/c", f"{ROOT}/packaging", f"{ROOT}/launch"]
import wasm
from installing import Stopped, output
from steps import Failed, Interrupted, say, stop_on_signals

# The scripts that both have, those of the decoder, which runs beside the page, and the page's own.
SHARED = ["web/shared"]
DECODER = """
record/js/inputs record/js/captures record/js/rows record/js/strace
web/library web/nodes web/recording web/dumps web/worker
""".split()
PAGE = "web/list web/views web/page".split()
SAMPLES = """
examples/links.hex examples/addresses.hex examples/routes.hex examples/neighbours.hex
examples/rules.hex examples/changes.hex examples/rules.xxd examples/rules.strace
examples/links.pcap examples/addresses.pcapng examples/links.rtmon measure/broken.hex
""".split()
LARGEST = 260000


def read(path: str) -> str:
    with open(f"{ROOT}/{path}", encoding="utf-8") as file:
        return file.read()


def short(text: str) -> str:
    """A script or a style without indentation, empty lines and lines that are comments alone."""
    lines = [line.strip() for line in text.split("\n")]
    return "\n".join(line for line in lines if line and not line.startswith("//"))


def scripts(names: List[str]) -> str:
    return short("\n".join(read(f"{it}.js") for it in [*SHARED, *names]))


def packed(path: str) -> str:
    squeeze = zlib.compressobj(9, zlib.DEFLATED, -15)
    with open(path, "rb") as file:
        return base64.b64encode(squeeze.compress(file.read()) + squeeze.flush()).decode()


def source(text: str) -> str:
    """What a policy calls a text that stands in the page."""
    return f"'sha256-{base64.b64encode(hashlib.sha256(text.encode()).digest()).decode()}'"


def page(made: str) -> str:
    samples = json.dumps({os.path.basename(it): packed(f"{ROOT}/{it}") for it in SAMPLES})
    decoder = f'function decoder() {{\nconst PACKED = "{packed(made)}";\n{scripts(DECODER)}\n}}'
    script = f'"use strict";\n{{\nconst SAMPLES = {samples};\n{decoder}\n{scripts(PAGE)}\n}}\n'
    style = short(read("web/page.css"))
    policy = f"default-src 'none'; script-src {source(script)} 'wasm-unsafe-eval'"
    policy += f"; worker-src blob:; style-src {source(style)}; base-uri 'none'; form-action 'none'"
    parts = {"@POLICY@": policy, "@STYLE@": style, "@SCRIPT@": script}
    return re.sub("@[A-Z]+@", lambda found: parts[found[0]], read("web/page.html"))


def main(to: str = f"{ROOT}/out") -> None:
    with tempfile.TemporaryDirectory() as room:
        words = {*re.findall(r"\brtnlc_\w+", scripts(DECODER))}
        building = [f"{ROOT}/launch/build.py", "library"]
        wasm.make(f"{room}/rtnl.wasm", words, lambda: output(building))
        text = page(f"{room}/rtnl.wasm").encode()
    if len(text) > LARGEST:
        sys.exit(f"build.py: the page would have {len(text)} bytes, and {LARGEST} are allowed")
    os.makedirs(to, exist_ok=True)
    with open(f"{to}/rtnl.html.new", "wb") as file:
        file.write(text)
    os.replace(f"{to}/rtnl.html.new", f"{to}/rtnl.html")


if __name__ == "__main__":
    if len(sys.argv) > 2 or sys.argv[-1].startswith("-"):
        sys.exit(__doc__)
    stop_on_signals()
    try:
        main(*sys.argv[1:])
    except (Failed, OSError) as error:
        say(f"{error}")
        sys.exit(3)
    except Stopped as stopped:
        sys.exit(stopped.status)
    except Interrupted as by:
        sys.exit(128 + by.number)
