"""Whatever a word is given, it ends with 0 or 2, and where it tells a fault it is one sentence."""

from __future__ import annotations

import json
import random
import unittest

from tests.calling import ROOT, call
from tests.test_from_dump import ICODE, NTAG213, flipper, flipper_pages, flipper_t5, proxmark, taginfo

COUNT = 1500
TAG = ("--type", "t5", "--id", "E004010203040506")
DUMPS = (
    NTAG213,
    bytes(56) + NTAG213,
    NTAG213.hex().encode(),
    flipper("NTAG/Ultralight", "UID: 04 11 22 33 44 55 66", "Pages read: 45", *flipper_pages(NTAG213)).encode(),
    flipper("SLIX", *flipper_t5()).encode(),
    json.dumps(proxmark("mfu", NTAG213, 4, {"UID": "04112233445566"})).encode(),
    json.dumps(proxmark("15693", ICODE, 4, {"uid": "E004010203040506"})).encode(),
    taginfo(NTAG213, "04:11:22:33:44:55:66").encode(),
)
PIECES = (b"\n", b" ", b"\xff", b'"', b":", b"{", b"0", b"-", b"9" * 5000, b"null", b"[]", b"XX", b"\0", b"\r")


def bent(chance: random.Random, content: bytes) -> bytes:
    """The content with some bytes gone, changed, repeated, or cut off."""
    changed = bytearray(content)
    for _ in range(chance.choice((1, 1, 2, 5))):
        place = chance.randrange(len(changed) + 1)
        length = chance.choice((0, 1, 2, 10, 100))
        behind = chance.choice((b"", chance.choice(PIECES), chance.randbytes(1), bytes(changed[:length])))
        changed[place : place + length] = behind
    return bytes(changed[: chance.choice((len(changed), chance.randrange(len(changed) + 1)))])


class AnyInput(unittest.TestCase):
    def test_it_is_one_sentence(self) -> None:
        reports = [path.read_bytes()[:3000] for path in sorted(ROOT.glob("examples/*.stdout"))]
        stores = [b"1 ok\n2 store 01020304\n"]
        rows = (
            (("place",), DUMPS),
            (("place", *TAG), DUMPS),
            (("annotate",), reports),
            (("dump",), stores),
            (("dump", "--format", "flipper", *TAG), stores),
        )
        chance = random.Random(3)
        for _ in range(COUNT):
            words, originals = chance.choice(rows)
            given = bent(chance, chance.choice(originals))
            called = call(*words, given=given)
            self.assertIn((called.status, called.error.count("\n")), ((0, 0), (2, 1)), (words, given))


if __name__ == "__main__":
    unittest.main()
