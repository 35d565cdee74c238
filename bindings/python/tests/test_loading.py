"""How the shared library is found, and what is said where it isn't, by a program and by pip."""
import os
import shutil
import subprocess
import sys
import tempfile
import unittest
import zipfile
from typing import Dict, Optional

import rtnl
from rtnl import _loading
from shared import PACKAGE

HELP = "./install --library PREFIX"
IMPORT = "import rtnl; print(rtnl.scan(b'').code.name)"
# The file of the library that a program has loaded.
MAPPED = """
import pathlib, rtnl
words = pathlib.Path("/proc/self/maps").read_text().split()
print(*{it for it in words if it.endswith("/librtnlc.so.0")})
"""
BUILD = "import rtnl_wheel, sys; print(rtnl_wheel.build_wheel(sys.argv[1]))"
BUILD_EDITABLE = BUILD.replace("build_wheel", "build_editable")
# The tag of a wheel with a library of the bytes of the argument.
TAG = "import rtnl_wheel, sys; print(rtnl_wheel.tag(bytes.fromhex(sys.argv[1])))"
# The same with a setting, as pip hands it on: without the library, and one that there is not.
BUILD_WITHOUT = BUILD.replace("argv[1]", "argv[1], {'library': 'system'}")
BUILD_WRONGLY = BUILD.replace("argv[1]", "argv[1], {'library': 'none'}")


def without(**more: str) -> Dict[str, str]:
    """The environment without what names a library, and more."""
    hidden = ("RTNLC_LIB_DIR", "LD_LIBRARY_PATH", "PKG_CONFIG_PATH", "PYTHONPATH")
    return {**{name: it for name, it in os.environ.items() if name not in hidden}, **more}


class Loading(unittest.TestCase):
    def setUp(self) -> None:
        self.folder = tempfile.mkdtemp()
        self.addCleanup(shutil.rmtree, self.folder)
        self.path = self.own_file()
        self.package = f"{self.folder}/package"
        leave = shutil.ignore_patterns("__pycache__", "*.so.0")
        shutil.copytree(PACKAGE, self.package, ignore=leave)

    def own_file(self) -> str:
        """The library that these tests run with."""
        with open("/proc/self/maps", encoding="utf-8") as maps:
            return next(it.split()[-1] for it in maps if it.rstrip().endswith(_loading.FILE))

    def ran(self, code: str, *words: str, **more: str) -> "subprocess.CompletedProcess[str]":
        paths = f"{self.package}/src:{self.package}/backend"
        return subprocess.run(
            [sys.executable, "-X", "dev", "-c", code, *words],
            env=without(PYTHONPATH=paths, **more),
            stdout=subprocess.PIPE,
            stderr=subprocess.PIPE,
            text=True,
            check=False,
        )

    def fails(self, code: str, *parts: str, **more: str) -> None:
        found = self.ran(code, self.folder, **more)
        self.assertEqual(found.returncode, 1)
        last = found.stderr.strip().splitlines()[-1]
        for part in parts:
            self.assertIn(part, last)

    def builds(self, **more: str) -> None:
        found = self.ran(BUILD, self.folder, **more)
        version = _loading.opened(self.path).rtnlc_version().decode()
        name = f"rtnl-{version}-py3-none-manylinux2014_{os.uname().machine}.whl\n"
        self.assertEqual((found.stdout, found.stderr), (name, ""))

    def other(self, version: Optional[str]) -> str:
        """The folder of a library of another version, or of something else."""
        folder = f"{self.folder}/{version or 'none'}"
        os.makedirs(folder)
        source = (
            f'const char *rtnlc_version(void) {{ return "{version}"; }}\n' if version else "\n"
        )
        command = ["cc", "-shared", "-x", "c", "-", "-o", f"{folder}/{_loading.FILE}"]
        try:
            subprocess.run(command, input=source, text=True, check=True)
        except FileNotFoundError:
            self.skipTest("there is no C compiler")
        return folder

    def test_no_library(self) -> None:
        if os.path.exists(f"/usr/lib/x86_64-linux-gnu/{_loading.FILE}"):
            self.skipTest("the system has the library")
        self.fails(IMPORT, "LibraryError: librtnlc.so.0 can't be loaded", HELP, "RTNLC_LIB_DIR")
        self.fails(BUILD, "there is no librtnlc.so.0 for the wheel", "src/rtnl/", HELP)

    def test_a_folder_without_it(self) -> None:
        for code in (IMPORT, BUILD):
            self.fails(code, f"{self.folder}/librtnlc.so.0", HELP, RTNLC_LIB_DIR=self.folder)

    def test_another_version(self) -> None:
        folder = self.other("0.4.0")
        for code in (IMPORT, BUILD):
            self.fails(code, "is of version 0.4.0, not of 0.3.0", HELP, RTNLC_LIB_DIR=folder)

    def test_another_library(self) -> None:
        folder = self.other(None)
        for code in (IMPORT, BUILD):
            self.fails(code, "rtnlc_version", HELP, RTNLC_LIB_DIR=folder)

    def test_a_library_that_lacks_a_call(self) -> None:
        self.fails(IMPORT, "undefined symbol: rtnlc_", HELP, RTNLC_LIB_DIR=self.other("0.3.0"))

    def test_no_file_of_a_library(self) -> None:
        with open(f"{self.folder}/{_loading.FILE}", "wb") as file:
            file.write(b"nothing\n")
        for code in (IMPORT, BUILD):
            self.fails(code, "can't be loaded", HELP, RTNLC_LIB_DIR=self.folder)

    def test_versions(self) -> None:
        for version, wanted in (
            ("0.3.0", True),
            ("0.3.9", True),
            ("0.4.0", False),
            ("1.3.0", False),
        ):
            self.assertEqual(_loading.is_for_us(version), wanted)
        self.assertEqual(rtnl.__version__, _loading.VERSION)

    def test_where_it_is_found(self) -> None:
        own, beside = f"{self.folder}/own", f"{self.package}/src/rtnl/{_loading.FILE}"
        os.makedirs(own)
        shutil.copy(self.path, f"{own}/{_loading.FILE}")
        self.assertEqual(self.ran(IMPORT, RTNLC_LIB_DIR=own).stdout, "OK\n")
        self.assertEqual(self.ran(IMPORT, LD_LIBRARY_PATH=own).stdout, "OK\n")
        self.builds(RTNLC_LIB_DIR=own)
        shutil.copy(self.path, beside)
        self.assertEqual(self.ran(IMPORT).stdout, "OK\n")
        self.builds()
        self.fails(IMPORT, "can't be loaded", RTNLC_LIB_DIR=self.folder)

    def in_clone(self, script: str) -> None:
        """The package is that of a clone, in which this makes the library."""
        clone = f"{self.folder}/clone"
        os.makedirs(f"{clone}/c")
        os.makedirs(f"{clone}/bindings")
        self.package = shutil.move(self.package, f"{clone}/bindings/python")
        with open(f"{clone}/c/build.sh", "w", encoding="utf-8") as file:
            file.write(f"#!/bin/sh\n{script}\n")
        os.chmod(f"{clone}/c/build.sh", 0o755)

    def test_of_a_clone(self) -> None:
        self.in_clone(f'cp {self.path} "$1/{_loading.FILE}"')
        self.builds(PKG_CONFIG_PATH=self.folder, PKG_CONFIG_LIBDIR=self.folder)
        self.fails(BUILD, "there is no librtnlc.so.0", HELP, RTNLC_LIB_DIR=self.folder)

    def test_of_a_clone_that_makes_none(self) -> None:
        self.in_clone("echo one >&2; echo rtnl: the disk is full >&2; exit 3")
        none = {"PKG_CONFIG_PATH": self.folder, "PKG_CONFIG_LIBDIR": self.folder}
        why = "rtnl: the clone made no library for the wheel: rtnl: the disk is full"
        self.fails(BUILD, why, **none)
        self.fails(BUILD_EDITABLE, why, **none)
        self.assertFalse(os.path.exists(f"{self.package}/src/rtnl/{_loading.FILE}"))

    def test_editable(self) -> None:
        """The wheel names the sources, and the library is put beside them."""
        beside = f"{self.package}/src/rtnl/{_loading.FILE}"
        with open(beside, "wb") as file:
            file.write(b"an older one")
        own = os.path.dirname(self.path)
        found = self.ran(BUILD_EDITABLE, self.folder, RTNLC_LIB_DIR=own)
        self.assertEqual(found.stderr, "")
        with zipfile.ZipFile(f"{self.folder}/{found.stdout.strip()}") as wheel:
            self.assertEqual(wheel.read("rtnl.pth").decode(), f"{self.package}/src\n")
        with open(beside, "rb") as one, open(self.path, "rb") as other:
            self.assertEqual(one.read(), other.read())
        self.assertEqual(self.ran(IMPORT).stdout, "OK\n")

    def test_tags(self) -> None:
        names = b"\0librtnlc.so.0\0libc.so.6\0GLIBC_2.2.5\0"
        for more, system in (
            (b"GLIBC_2.17\0", "manylinux2014"),
            (b"GLIBC_2.25\0GLIBC_2.4\0", "manylinux_2_25"),
            (b"libm.so.6\0GLIBC_2.17\0", "linux"),
        ):
            found = self.ran(TAG, (names + more).hex())
            wanted = f"py3-none-{system}_{os.uname().machine}\n"
            self.assertEqual((found.stdout, found.stderr), (wanted, ""))
        self.assertEqual(self.ran(TAG, b"\0libc.so\0".hex()).stdout[:14], "py3-none-linux")

    def test_wheel_without_it(self) -> None:
        """It is made without a library, has none, and loads the one that the loader finds."""
        found = self.ran(BUILD_WITHOUT, self.folder, RTNLC_LIB_DIR=f"{self.folder}/none")
        name = "rtnl-0.3.0-py3-none-any.whl"
        self.assertEqual((found.stdout, found.stderr), (f"{name}\n", ""))
        with zipfile.ZipFile(f"{self.folder}/{name}") as wheel:
            text = wheel.read("rtnl-0.3.0.dist-info/WHEEL").decode().splitlines()
            self.assertEqual(text[2:], ["Root-Is-Purelib: true", "Tag: py3-none-any"])
            self.assertNotIn(f"rtnl/{_loading.FILE}", wheel.namelist())
            wheel.extractall(f"{self.folder}/unpacked/src")
        self.package = f"{self.folder}/unpacked"
        own = f"{self.folder}/own"
        os.makedirs(own)
        shutil.copy(self.path, f"{own}/{_loading.FILE}")
        found = self.ran(MAPPED, LD_LIBRARY_PATH=own)
        self.assertEqual((found.stdout, found.stderr), (f"{own}/{_loading.FILE}\n", ""))

    def test_wheel_without_it_beside_the_sources(self) -> None:
        shutil.copy(self.path, f"{self.package}/src/rtnl/{_loading.FILE}")
        self.assertEqual(self.ran(BUILD_WITHOUT, self.folder).returncode, 0)
        with zipfile.ZipFile(f"{self.folder}/rtnl-0.3.0-py3-none-any.whl") as wheel:
            self.assertNotIn(f"rtnl/{_loading.FILE}", wheel.namelist())

    def test_wrong_setting(self) -> None:
        self.fails(BUILD_WRONGLY, "the setting library is wheel or system, not none")

    def test_by_pkg_config(self) -> None:
        if not shutil.which("pkg-config"):
            self.skipTest("there is no pkg-config")
        own = f"{self.folder}/own"
        os.makedirs(own)
        shutil.copy(self.path, f"{own}/{_loading.FILE}")
        with open(f"{own}/rtnlc.pc", "w", encoding="utf-8") as file:
            file.write(f"libdir={own}\nName: rtnlc\nDescription: none\nVersion: 0.3.0\n")
        self.builds(PKG_CONFIG_PATH=own)


if __name__ == "__main__":
    unittest.main()
