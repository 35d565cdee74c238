"""Makes the wheel of this folder, with the shared library in it, and the archive of its sources
(PEP 517). It needs nothing but Python. The library is the file librtnlc.so.0

* in the folder that RTNLC_LIB_DIR names, where it names one; else
* beside the sources, in src/rtnl/, where it lies there; else
* in the folder that `pkg-config --variable=libdir rtnlc` says; else
* made of the clone of rtnl that is around this folder, by c/build.sh there.

The version of the wheel is that of the library, which ends in +unproved where that was compiled
without a proof, and its tag says by what the library needs on which systems it can be loaded.

With the setting `library=system` the wheel has none, and none is looked for: it is for any
platform, and loads the library of the system. `library=wheel` is what holds without that setting.

The same files give the same bytes. SOURCE_DATE_EPOCH is the time of files in archives; else it is
the first that a wheel can have.
"""
import base64
import gzip
import hashlib
import importlib.util
import io
import os
import re
import subprocess
import sysconfig
import tarfile
import tempfile
import time
import zipfile
from types import ModuleType
from typing import Any, Dict, Iterator, List, Optional, Tuple

HERE = os.path.dirname(os.path.dirname(os.path.abspath(__file__)))
SOURCES = "src/rtnl"
TEXTS = ("README.md", "CHANGELOG.md", "pyproject.toml")
LICENSES = ("LICENSE-MIT", "LICENSE-APACHE", "NOTICE")
FOLDERS = ("backend", "examples", SOURCES, "tests")
# What makes the library, in a clone.
BUILD = "../../c/build.sh"
# What a library may need of glibc on a system of the tag manylinux2014.
OLDEST = (2, 17)
# 1980-01-01, before which a zip has no time.
FIRST_TIME = 315532800

Settings = Optional[Dict[str, Any]]


class NoLibrary(SystemExit):
    """There is no library to put into the wheel, and the text says what to do."""


def wants_library(settings: Settings) -> bool:
    """Whether the library goes into the wheel, by the setting of this name."""
    place: str = (settings or {}).get("library", "wheel")
    if place not in ("wheel", "system"):
        raise SystemExit(f"rtnl: the setting library is wheel or system, not {place}")
    return place == "wheel"


def loading() -> ModuleType:
    """The module of the package that knows how the library is loaded, without the package."""
    spec = importlib.util.spec_from_file_location("loading", f"{HERE}/{SOURCES}/_loading.py")
    if spec is None or spec.loader is None:
        raise NoLibrary(f"{HERE}/{SOURCES}/_loading.py can't be read")
    module = importlib.util.module_from_spec(spec)
    spec.loader.exec_module(module)
    return module


def folder_of_pkg_config() -> str:
    """The folder of the library by pkg-config, or nothing."""
    command = ["pkg-config", "--variable=libdir", "rtnlc"]
    try:
        ran = subprocess.run(command, stdout=subprocess.PIPE, stderr=subprocess.DEVNULL, text=True)
    except OSError:
        return ""
    return ran.stdout.strip()


def candidates(module: ModuleType, beside: bool) -> Iterator[str]:
    """Where the library may be. Where the user names a folder, it is there or nowhere."""
    named = module.named_folder()
    yield from named
    if not named:
        if beside:
            yield f"{HERE}/{SOURCES}/{module.FILE}"
        found = folder_of_pkg_config()
        if found:
            yield f"{found}/{module.FILE}"


def made(module: ModuleType, looked: List[str], room: str) -> str:
    """The path of a library that the clone around makes, or an end that says how to get one."""
    if module.named_folder() or not os.path.isfile(f"{HERE}/{BUILD}"):
        where = " or ".join(looked)
        why = f"there is no {module.FILE} for the wheel: not {where}"
        raise NoLibrary(f"rtnl: {why}. {module.HELP}")
    ran = subprocess.run([f"{HERE}/{BUILD}", room], stderr=subprocess.PIPE, text=True, check=False)
    if ran.returncode:
        why = (ran.stderr.strip().splitlines() or [f"status {ran.returncode}"])[-1]
        raise NoLibrary(f"rtnl: the clone made no library for the wheel: {why}")
    return f"{room}/{module.FILE}"


def library(module: ModuleType, beside: bool) -> Tuple[str, bytes]:
    """The version of a library that this package can use, and its bytes."""
    looked = list(candidates(module, beside))
    with tempfile.TemporaryDirectory() as room:
        there = filter(os.path.isfile, looked)
        path = next(there, None) or made(module, looked, room)
        try:
            version: str = module.opened(path).rtnlc_version().decode()
        except ImportError as error:
            raise NoLibrary(f"rtnl: {error}") from None
        return version, read(path)


def chosen(settings: Settings, beside: bool = True) -> Tuple[ModuleType, str, bytes]:
    """The module, the version of the wheel, and the library that goes into it, by the settings."""
    module = loading()
    if not wants_library(settings):
        return module, module.VERSION, b""
    return (module, *library(module, beside))


def read(path: str) -> bytes:
    with open(path, "rb") as file:
        return file.read()


def metadata(version: str) -> bytes:
    """METADATA: its fields, and the README behind them."""
    fields = read(f"{HERE}/backend/METADATA").replace(b"@VERSION@", version.encode())
    return fields + read(f"{HERE}/README.md")


def tag(code: bytes) -> str:
    """The tag of a wheel with this library, or without one."""
    if not code:
        return "py3-none-any"
    platform = sysconfig.get_platform().replace("-", "_").replace(".", "_")
    needs = {it for it in re.findall(rb"\0(lib[\w+-]+)\.so[.\d]*(?=\0)", code)} - {b"librtnlc"}
    glibc = [(int(one), int(two)) for one, two in re.findall(rb"\0GLIBC_(\d+)\.(\d+)", code)]
    if needs == {b"libc"} and glibc and platform.startswith("linux_"):
        newest = max(glibc)
        name = "2014" if newest <= OLDEST else f"_{newest[0]}_{newest[1]}"
        platform = f"manylinux{name}{platform[len('linux'):]}"
    return f"py3-none-{platform}"


def wheel_text(code: bytes) -> bytes:
    pure = f"Root-Is-Purelib: {'false' if code else 'true'}"
    lines = "Wheel-Version: 1.0", "Generator: rtnl", pure, f"Tag: {tag(code)}"
    return "".join(f"{line}\n" for line in lines).encode()


def is_source(name: str) -> bool:
    return name.endswith((".py", ".typed")) or name == "METADATA"


def in_wheel(module: ModuleType, code: bytes) -> Iterator[Tuple[str, bytes]]:
    """The files of the package in a wheel."""
    for name in sorted(filter(is_source, os.listdir(f"{HERE}/{SOURCES}"))):
        yield f"rtnl/{name}", read(f"{HERE}/{SOURCES}/{name}")
    if code:
        yield f"rtnl/{module.FILE}", code


def row(name: str, data: bytes) -> str:
    """The row of a file in RECORD."""
    digest = base64.urlsafe_b64encode(hashlib.sha256(data).digest()).decode().rstrip("=")
    return f"{name},sha256={digest},{len(data)}\n"


def write_wheel(
    folder: str, module: ModuleType, version: str, code: bytes, files: List[Tuple[str, bytes]]
) -> str:
    """Writes a wheel of these files, and answers its name."""
    info = f"rtnl-{version}.dist-info"
    texts = {"METADATA": metadata(version), "WHEEL": wheel_text(code)}
    texts.update({f"licenses/{name}": read(f"{HERE}/{name}") for name in LICENSES})
    files = [*files, *((f"{info}/{name}", text) for name, text in texts.items())]
    record = "".join(row(*it) for it in files) + f"{info}/RECORD,,\n"
    stamp = time.gmtime(max(FIRST_TIME, int(os.environ.get("SOURCE_DATE_EPOCH", 0))))[:6]
    name = f"rtnl-{version}-{tag(code)}.whl"
    with zipfile.ZipFile(os.path.join(folder, name), "w", zipfile.ZIP_DEFLATED) as wheel:
        for path, data in [*files, (f"{info}/RECORD", record.encode())]:
            entry = zipfile.ZipInfo(path, stamp)
            mode = 0o755 if path.endswith(module.FILE) else 0o644
            entry.external_attr = (0o100000 | mode) << 16
            wheel.writestr(entry, data, zipfile.ZIP_DEFLATED)
    return name


def build_wheel(
    wheel_directory: str,
    config_settings: Settings = None,
    metadata_directory: Optional[str] = None,
) -> str:
    """Makes the wheel in a folder, and answers its name."""
    module, version, code = chosen(config_settings)
    return write_wheel(wheel_directory, module, version, code, list(in_wheel(module, code)))


def build_editable(
    wheel_directory: str,
    config_settings: Settings = None,
    metadata_directory: Optional[str] = None,
) -> str:
    """Makes a wheel that names the sources, beside which it puts the library (PEP 660)."""
    module, version, code = chosen(config_settings, beside=False)
    if code:
        beside = f"{HERE}/{SOURCES}/{module.FILE}"
        with open(f"{beside}.new", "wb") as file:
            file.write(code)
        os.replace(f"{beside}.new", beside)
    names = [("rtnl.pth", f"{HERE}/src\n".encode())]
    return write_wheel(wheel_directory, module, version, code, names)


def in_archive() -> Iterator[str]:
    """The paths of the sources. A library that lies beside them is none."""
    yield from (*TEXTS, *LICENSES)
    for folder in FOLDERS:
        for name in sorted(filter(is_source, os.listdir(f"{HERE}/{folder}"))):
            yield f"{folder}/{name}"


def build_sdist(sdist_directory: str, config_settings: Settings = None) -> str:
    """Makes the archive of the sources in a folder, and answers its name."""
    module = loading()
    top = f"rtnl-{module.VERSION}"
    stamp = int(os.environ.get("SOURCE_DATE_EPOCH", FIRST_TIME))
    made = io.BytesIO()
    with tarfile.open(fileobj=made, mode="w", format=tarfile.PAX_FORMAT) as archive:
        files = [(path, read(f"{HERE}/{path}")) for path in in_archive()]
        for path, data in [*files, ("PKG-INFO", metadata(module.VERSION))]:
            entry = tarfile.TarInfo(f"{top}/{path}")
            entry.size, entry.mtime, entry.mode = len(data), stamp, 0o644
            archive.addfile(entry, io.BytesIO(data))
    with open(os.path.join(sdist_directory, f"{top}.tar.gz"), "wb") as file:
        file.write(gzip.compress(made.getvalue(), mtime=stamp))
    return f"{top}.tar.gz"
