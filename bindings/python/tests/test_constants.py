"""Each constant is that of the kernel's headers, by the C compiler."""
import re
import unittest
from typing import Dict, List

import rtnl
import shared
from rtnl import constants

HEADERS = "netlink rtnetlink if_link if_addr neighbour fib_rules if".split()
FRONT = ["#include <sys/socket.h>", *(f"#include <linux/{it}.h>" for it in HEADERS)]
# The last number of each list of attributes, in the headers that are here: what is above it is
# newer than they are.
PREFIXES = "none IFLA_ IFLA_INFO_ IFA_ RTA_ RTAX_ NDA_ FRA_ none".split()
LISTS = "IFLA_INFO_ IFLA_ IFA_ RTA_ RTAX_ NDA_ FRA_".split()


def numbers() -> Dict[str, int]:
    return {
        name: it for name, it in vars(constants).items() if re.fullmatch(r"[A-Z][A-Z0-9_]+", name)
    }


def newer(name: str, number: int) -> str:
    """That these headers are older than this name."""
    found = next((it for it in LISTS if name.startswith(it)), None)
    return f"__{found}MAX <= {number}" if found else "0"


class Constants(unittest.TestCase):
    def test_all(self) -> None:
        found = numbers()
        self.assertGreater(len(found), 250)
        claims = {f"{name} == {number}": name for name, number in found.items()}
        wrong = shared.false_in_c(FRONT, list(claims))
        others: List[str] = [claims[it[len("_Static_assert(") : it.rindex(",")]] for it in wrong]
        self.assertEqual(shared.false_in_c(FRONT, [newer(it, found[it]) for it in others]), [])

    def test_names(self) -> None:
        """The library has the same names: of each constant, and no others."""
        named: Dict[str, int] = {}
        for kind in range(65536):
            named[rtnl.type_name(kind) or ""] = kind
        for context, prefix in enumerate(PREFIXES):
            for number in range(16384):
                name = rtnl.attribute_name(context, number) or ""
                self.assertTrue(not name or name.startswith(prefix), name)
                named[name] = number
        del named[""]
        lists = (*PREFIXES[1:-1], "RTM_", "NLMSG_")
        self.assertEqual(named, {it: own for it, own in numbers().items() if it.startswith(lists)})

    def test_names_of_what_does_not_fit(self) -> None:
        for call, words in ((rtnl.type_name, (65536,)), (rtnl.type_name, (-1,))):
            self.assertRaises(ValueError, call, *words)
        self.assertRaises(ValueError, rtnl.attribute_name, 256, 1)
        self.assertRaises(ValueError, rtnl.attribute_name, 1, 65536)

    def test_the_rest_of_each_list(self) -> None:
        """No attribute of the lists in docs/FORMAT.md is left out."""
        try:
            with open(f"{shared.ROOT}/docs/FORMAT.md", encoding="utf-8") as file:
                text = file.read()
        except OSError:
            self.skipTest("docs/FORMAT.md is not here")
        rows = re.findall(r"^\| .*, `([A-Z_]+_)` \| (\d+) \| `(\w+)` \|", text, re.M)
        self.assertGreater(len(rows), 100)
        found = numbers()
        for prefix, number, name in rows:
            self.assertEqual(found.get(prefix + name), int(number), prefix + name)


if __name__ == "__main__":
    unittest.main()
