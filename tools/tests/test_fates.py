"""What is told of fates that another command took than one may expect."""

from __future__ import annotations

import unittest

from script.fates import Transmissions, fates_notes
from script.refusal import read_script


def notes(script: str, **counts: int) -> list[str]:
    """The notes of a script whose lines, here named as `line3`, had so many transmissions."""
    seen = Transmissions()
    for name, count in counts.items():
        for _ in range(count):
            seen.count(f"{name.removeprefix('line')} > 26/7 lose")
        seen.count(f"{name.removeprefix('line')} ok")
    return fates_notes(read_script(script.encode()).obeyed, seen.counts)


class Notes(unittest.TestCase):
    def test_lists_that_are_used_up_are_not_told(self) -> None:
        self.assertEqual(notes("fates PPB\nfind\nfates PL\nfind", line2=3, line4=5), [])
        older = ["line 3 took 2 fates of line 1, before those of line 2"]
        self.assertEqual(notes("fates PP\nfates PL\nfind", line3=4), older)
        self.assertEqual(notes("fates PPPP\nfind\nfind", line2=1, line3=3), [])
        self.assertEqual(notes("find", line1=4), [])

    def test_what_is_left_goes_on(self) -> None:
        self.assertEqual(
            notes("fates PPPPB\nfind\nfates B\nfind", line2=4, line4=1),
            ["line 4 took 1 fate of line 1, before those of line 3", "1 fate of line 3 still left"],
        )

    def test_what_is_left_at_the_end(self) -> None:
        self.assertEqual(notes("fates PPPPP\nfind", line2=2), [])
        self.assertEqual(notes("fates PPPPL\nfind", line2=2), ["3 fates of line 1 still left"])

    def test_many_of_them_are_counted(self) -> None:
        script = "fates PPPPPPPPPP\n" + "fates P\nfind\n" * 6
        told = notes(script, **{f"line{number}": 1 for number in range(3, 15, 2)})
        self.assertEqual(told[-1], "and so 3 times more")
        self.assertEqual(len(told), 4)


if __name__ == "__main__":
    unittest.main()
