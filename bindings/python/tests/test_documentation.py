"""The examples in docstrings and in README.md do what they say, and what is public is explained.
"""
import contextlib
import doctest
import importlib
import inspect
import io
import pkgutil
import re
import socket
import unittest
from types import ModuleType
from typing import Any, Dict, Iterator, Tuple

import rtnl
from shared import PACKAGE


def modules() -> Iterator[ModuleType]:
    for it in pkgutil.iter_modules(rtnl.__path__):
        yield importlib.import_module(f"rtnl.{it.name}")


def public() -> Iterator[Tuple[str, object]]:
    """Each thing that a user may name, by its name."""
    for name in rtnl.__all__:
        found = getattr(rtnl, name)
        if inspect.ismodule(found) or isinstance(found, str):
            continue
        yield name, found
        for member, own in vars(found).items() if inspect.isclass(found) else ():
            if not member.startswith("_") and (
                inspect.isfunction(own) or isinstance(own, property)
            ):
                yield f"{name}.{member}", own


class Documentation(unittest.TestCase):
    def test_docstrings(self) -> None:
        failed = attempted = 0
        for module in modules():
            found = doctest.testmod(module)
            failed, attempted = failed + found.failed, attempted + found.attempted
        self.assertEqual(failed, 0)
        self.assertGreater(attempted, 4)

    def test_all_is_explained(self) -> None:
        bare = [name for name, it in public() if not inspect.getdoc(it)]
        self.assertEqual(bare, [])
        self.assertTrue(all(it.__doc__ for it in modules()))

    def test_all_names_are_there(self) -> None:
        self.assertEqual(sorted(rtnl.__all__), sorted({*rtnl.__all__}))

    def test_the_readme(self) -> None:
        """Its first program prints the loopback link, and the others build requests."""
        with open(f"{PACKAGE}/README.md", encoding="utf-8") as file:
            code, built, asked = re.findall(r"^```python\n(.*?)^```$", file.read(), re.M | re.S)
        names: Dict[str, Any] = {"rtnl": rtnl}
        exec(built, names)
        (route,) = rtnl.Datagram(names["request"]).views(rtnl.Route)
        hops = [(f"{it.gateway}", it.weight) for it in route.hops or ()]
        self.assertEqual(hops, [("203.0.113.1", 1), ("203.0.113.2", 3)])
        exec(asked, names)
        datagram = rtnl.Datagram(names["requests"])
        links = [(it.name, it.flags) for it in datagram.views(rtnl.Link)]
        routes = [(f"{it.destination}", f"{it.gateway}") for it in datagram.views(rtnl.Route)]
        wanted = [("eth0", 1)], [("192.0.2.0/24", "203.0.113.1")]
        self.assertEqual((links, routes), wanted)
        try:
            socket.socket(socket.AF_NETLINK, socket.SOCK_RAW, socket.NETLINK_ROUTE).close()
        except OSError:
            self.skipTest("the machine opens no netlink socket")
        printed = io.StringIO()
        with contextlib.redirect_stdout(printed):
            exec(code, {})
        self.assertIn("lo ", printed.getvalue())


if __name__ == "__main__":
    unittest.main()
