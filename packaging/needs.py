"""What the binaries of a package need where they are installed."""
import re
import subprocess
from typing import List, Tuple

from steps import Failed

# What a name of the C library is versioned by.
VERSIONED = re.compile(r"\bGLIBC_(\d+(?:\.\d+)+)\b")
PYTHON = re.compile(rb"#!\s*(?:/usr)?/bin/(?:env )?python3\s")


def numbers(version: str) -> Tuple[int, ...]:
    return tuple(map(int, version.split(".")))


def lowest_glibc(path: str) -> str:
    """The lowest version of glibc that has all names that a binary takes from it."""
    said = subprocess.run(["objdump", "-T", path], stdout=subprocess.PIPE, text=True, check=False)
    found = VERSIONED.findall(said.stdout)
    if said.returncode or not found:
        raise Failed(f"objdump -T names no version of glibc for {path}")
    return max(found, key=numbers)


def depends(binaries: List[str], texts: List[bytes]) -> List[str]:
    """The packages of Debian that these binaries and scripts need."""
    found = []
    if binaries:
        found.append(f"libc6 (>= {max(map(lowest_glibc, binaries), key=numbers)})")
    if any(PYTHON.match(it) for it in texts):
        found.append("python3:any (>= 3.8)")
    return found
