"""Where the shared library is, and whether it is the one that this package is for. The wheel is
built by this file too, so it imports nothing of the package.
"""
import ctypes
import os
from typing import List

VERSION = "0.3.0"
FILE = "librtnlc.so.0"
HELP = (
    "Install the library for C, version {version}: ./install --library PREFIX in a clone of rtnl, "
    "or the package librtnlc0 for Debian; where the loader doesn't search its folder, set "
    "RTNLC_LIB_DIR to PREFIX/lib"
).format(version=VERSION)


class LibraryError(ImportError):
    """The shared library can't be loaded, or is of another version. Its text says what to do."""


def named_folder() -> List[str]:
    """The file in the folder that RTNLC_LIB_DIR names, where it names one."""
    folder = os.environ.get("RTNLC_LIB_DIR")
    return [os.path.join(folder, FILE)] if folder else []


def file_of_package() -> str:
    """The file in the folder of the package, where a wheel has it."""
    return os.path.join(os.path.dirname(os.path.abspath(__file__)), FILE)


def is_for_us(version: str) -> bool:
    """Whether a library of this version has the calls and structs that are declared here: while
    versions begin with 0, one of the same two first numbers."""
    return version.split(".")[:2] == VERSION.split(".")[:2]


def opened(path: str) -> ctypes.PyDLL:
    """The library of this path, or of this name by the loader. A LibraryError where it can't be
    loaded, or isn't for this package.

    The interpreter's lock is held while a call runs, so no other thread changes what it reads.
    """
    try:
        library = ctypes.PyDLL(path)
        library.rtnlc_version.restype = ctypes.c_char_p
        library.rtnlc_version.argtypes = []
        version = library.rtnlc_version().decode()
    except (OSError, AttributeError) as error:
        raise LibraryError(f"{path} can't be loaded: {error}. {HELP}") from None
    if not is_for_us(version):
        raise LibraryError(f"{path} is of version {version}, not of {VERSION}. {HELP}")
    return library


def load() -> ctypes.PyDLL:
    """The library in the folder of RTNLC_LIB_DIR; without that variable the one that lies in the
    package, and else the one that the loader finds."""
    for path in named_folder():
        return opened(path)
    path = file_of_package()
    return opened(path if os.path.exists(path) else FILE)
