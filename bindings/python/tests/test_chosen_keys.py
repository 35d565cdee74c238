"""A session takes no more time on keys that a peer has chosen than on others."""
import struct
import time
import unittest
from typing import List

from rtnl import Limits, Session
from shared import attr, message

COUNT = 32768
# Messages of a datagram below the limit of 65,536 bytes, each of 48 bytes.
AT_ONCE = 1024
ROUNDS = 5
# Of a second: less is noise.
FLOOR = 0.01
# A hash without a seed, FoldHasher, multiplies two words of eight bytes: the first xor what came
# before, and the second xor this number. Where the second is this number the product is zero, so
# all addresses with this second half have one hash.
FORGETS = 0x9E3779B97F4A7C15
OTHER = 0x0123456789ABCDEF


def dump(second: int) -> List[bytes]:
    """Datagrams of neighbours with addresses of IPv6, whose second half is this number."""
    head = struct.pack("<BxxxiHBB", 10, 1, 2, 0, 1)
    addresses = (struct.pack("<QQ", it, second) for it in range(COUNT))
    entries = [message(28, head + attr(1, it)) for it in addresses]
    return [b"".join(entries[at : at + AT_ONCE]) for at in range(0, COUNT, AT_ONCE)]


class ChosenKeys(unittest.TestCase):
    def seconds(self, datagrams: List[bytes]) -> float:
        """How long a session takes for a dump, of the processor's time."""
        with Session(Limits(entries=65536, big=False)) as session:
            session.begin(28, seq=1, port=12345)
            begin = time.process_time()
            for it in datagrams:
                session.feed(it)
            taken = time.process_time() - begin
            self.assertEqual(len(session.neighbours), COUNT)
        return taken

    def test_keys_of_one_hash(self) -> None:
        chosen, others = dump(FORGETS), dump(OTHER)
        rounds = [(self.seconds(chosen), self.seconds(others)) for _ in range(ROUNDS)]
        # The least of the rounds is that with the least noise.
        least, usual = (min(it[which] for it in rounds) for which in (0, 1))
        self.assertLessEqual(least, 1.5 * usual + FLOOR)


if __name__ == "__main__":
    unittest.main()
