"""The programs that the scripts of this folder measure, and how those are made that stand here.

Ours are the programs that the gate builds. In place of each the environment may name another:
RTNL_PROGRAM, RTNL_BENCH, and RTNLC, a librtnlc.a that c/build.sh made.
"""
import os
import shutil
import subprocess
import sys
from typing import Any, Dict, List, Optional, Sequence

from counting import Command, kept

TOP = os.path.abspath(os.path.join(os.path.dirname(os.path.abspath(__file__)), ".."))
PROGRAM = os.environ.get("RTNL_PROGRAM", f"{TOP}/crates/rtnl_cli/out/rtnl_cli")
BENCH = os.environ.get("RTNL_BENCH", f"{TOP}/crates/rtnl_bench/out/rtnl_bench")
ARCHIVE = os.environ.get("RTNLC")

# Where those over our packages stand, with their peers'.
PACKAGES = f"{TOP}/measure/packages"
# Where Debian's packages have the crates that they hold.
CRATES = "/usr/share/cargo/registry"


def install(*packages: str) -> None:
    """Installs what is missing of these: each a command or a file, and Debian's package of it."""
    subprocess.run([f"{TOP}/tests/helpers/install_packages.sh", *packages], check=False)


def run(command: Sequence[str], **options: Any) -> bool:
    """Whether a command ends well; what it says goes to standard error."""
    return subprocess.run(command, stdout=sys.stderr, check=False, **options).returncode == 0


def files_of(*names: str) -> List[str]:
    """Files of measure/packages/."""
    return [os.path.abspath(os.path.join(PACKAGES, name)) for name in names]


def compiled(folder: str, name: str, package: str) -> Optional[str]:
    """The program of this folder over a C library, or none where it can't be made."""
    source, program = f"{TOP}/measure/{name}.c", f"{folder}/{name}"
    if not os.path.exists(source) or not all(map(shutil.which, ("cc", "pkg-config"))):
        return None
    flags = subprocess.run(
        ["pkg-config", "--cflags", "--libs", package], capture_output=True, text=True, check=False)
    if flags.returncode:
        return None
    # libnl-route is used by what it adds to libnl as it is loaded, and by no call.
    command = ["cc", "-O2", "-o", program, source, "-Wl,--no-as-needed", *flags.stdout.split()]
    return None if subprocess.run(command, check=False).returncode else program


def over_ours(folder: str, name: str = "librtnlc") -> Optional[str]:
    """The program of this folder over our C library, or none where it can't be made."""
    if not shutil.which("cc"):
        return None
    archive = ARCHIVE or f"{folder}/librtnlc.a"
    if not ARCHIVE and not os.path.exists(archive):
        subprocess.run([f"{TOP}/c/build.sh", folder], check=False)
    source, program = f"{TOP}/measure/{name}.c", f"{folder}/{name}"
    command = ["cc", "-O2", f"-I{TOP}/include", "-o", program, source, archive]
    return None if subprocess.run(command, check=False).returncode else program


def in_rust(folder: str, side: str, dependency: str, names: Sequence[str],
            *options: str) -> Dict[str, Command]:
    """The programs in Rust of a side, as those of a crate that has this dependency."""
    folder = os.path.join(folder, f"rust_{side}")
    os.makedirs(folder)
    manifest = ["[package]", 'name = "programs"', 'edition = "2021"', "[workspace]"]
    for name in names:
        [path] = files_of(f"rust/{side}/{name}.rs")
        manifest += ["[[bin]]", f'name = "{name}"', f'path = "{path}"']
    manifest += ["[dependencies]", dependency, ""]
    kept(folder, "Cargo.toml", "\n".join(manifest).encode())
    build = ["cargo", "build", "--quiet", "--release", "--offline", *options]
    if not shutil.which("cargo") or not run(build, cwd=folder):
        return {}
    return {name: [os.path.join(folder, "target/release", name)] for name in names}


def over_rust_peer(folder: str, names: Sequence[str]) -> Dict[str, Command]:
    """The programs in Rust over the peer. Debian's crates lie in a folder that takes the place of
    crates.io."""
    crate = 'netlink-packet-route = { version = "0.12", features = ["rich_nlas"] }'
    return in_rust(
        folder, "netlink_packet_route", crate, names,
        "--config", 'source.crates-io.replace-with="debian"',
        "--config", f'source.debian.directory="{CRATES}"')


def recorded(folder: Optional[str], made: str) -> str:
    """A folder of recordings: this one, or one that measure/record.sh makes."""
    if folder:
        return folder
    folder = f"{made}/recorded"
    if not run([f"{TOP}/measure/record.sh", folder]):
        sys.exit("measure/record.sh can't make recordings here: name a folder of some")
    return folder
