"""`nfc.py why` and the program agree on which line is refused, over scripts with faults in them and at all limits.

    NFC_BENCH=PROGRAM python3 -m unittest tests.test_why_agrees       (in tools/)

Where the program isn't built the test is skipped.
"""

from __future__ import annotations

import os
import re
import subprocess
import unittest
from concurrent.futures import ThreadPoolExecutor
from pathlib import Path

import bench
from script.refusal import read_script
from tests.edges import edges
from tests.mutants import mutants

ROOT = Path(__file__).resolve().parents[2]
COUNT = 5100
LARGEST_SEED = 700
MOST_LINES = 6
LAST_LINE = re.compile(rb"(?:^|\n)fault 2 line ([0-9]+)\n\Z")


def seeds() -> list[bytes]:
    """The first lines of the short ones of the stored scripts: what is refused doesn't hang on what is sent."""
    cases = [path for path in ROOT.glob("tests/cases/*/*") if not path.suffix and path.parent.name != "audit"]
    paths = cases + list(ROOT.glob("examples/*.script"))
    small = [path.read_bytes() for path in paths if path.stat().st_size <= LARGEST_SEED]
    return [b"".join(script.splitlines(keepends=True)[:MOST_LINES]) for script in small]


def refused_by_program(program: Path, script: bytes) -> int | None:
    """The line that the program refuses, none where it ends with status 0."""
    ended = subprocess.run([program, "run", "quiet"], input=script, capture_output=True)
    if ended.returncode == 0:
        return None
    found = LAST_LINE.search(ended.stdout)
    return int(found[1]) if ended.returncode == 2 and found else -ended.returncode


def refused_by_why(script: bytes) -> int | None:
    refusal = read_script(script).refusal
    return refusal.number if refusal else None


class Agreement(unittest.TestCase):
    def test_the_same_line_is_refused(self) -> None:
        program = bench.program()
        if program is None:
            self.skipTest("the program isn't built")
        scripts = [*edges(), *mutants(seeds(), COUNT, 1)]
        with ThreadPoolExecutor(os.cpu_count()) as pool:
            refused = list(pool.map(lambda script: refused_by_program(program, script), scripts))
        for script, line in zip(scripts, refused, strict=True):
            self.assertEqual(refused_by_why(script), line, script)
        count = sum(line is not None for line in refused)
        self.assertGreater(count, COUNT // 3)
        self.assertGreater(COUNT - count, COUNT // 20)


if __name__ == "__main__":
    unittest.main()
