"""What tools/README.md shows is what comes out: each block that begins with `$` is run."""

from __future__ import annotations

import os
import re
import subprocess
import tempfile
import unittest
from pathlib import Path

import bench
from tests.calling import ROOT
from tests.test_from_dump import NTAG213, flipper, flipper_pages

PROMPT = "    $ "


def blocks() -> list[list[str]]:
    """The indented blocks that begin with a command, without their indentation."""
    page = (ROOT / "tools" / "README.md").read_text("utf-8")
    found = re.findall(r"(?:^    .*\n)+", page, re.MULTILINE)
    return [[line[4:] for line in block.splitlines()] for block in found if block.startswith(PROMPT)]


class Blocks(unittest.TestCase):
    def setUp(self) -> None:
        folder = tempfile.TemporaryDirectory()
        self.addCleanup(folder.cleanup)
        self.folder = Path(folder.name)
        for name in ("tools", "examples"):
            (self.folder / name).symlink_to(ROOT / name)
        fields = ("UID: 04 11 22 33 44 55 66", "Pages total: 45", "Pages read: 45")
        (self.folder / "ntag213.nfc").write_text(flipper("NTAG/Ultralight", *fields, *flipper_pages(NTAG213)))

    def shown(self, block: list[str]) -> list[str]:
        """The block as it would stand in the page, were it written now."""
        lines = []
        program = bench.program()
        environment = {**os.environ, bench.VARIABLE: str(program.resolve())} if program else None
        for line in block:
            if line.startswith("$ "):
                ended = subprocess.run(
                    line[2:],
                    shell=True,
                    cwd=self.folder,
                    env=environment,
                    text=True,
                    stdout=subprocess.PIPE,
                    stderr=subprocess.STDOUT,
                )
                lines += [line, *ended.stdout.splitlines()]
        return lines

    def test_each_block(self) -> None:
        self.assertGreater(len(blocks()), 5)
        for block in blocks():
            needs_program = any("nfc.py run" in line for line in block)
            with self.subTest(command=block[0]):
                if needs_program and bench.program() is None:
                    self.skipTest("the program isn't built")
                self.assertEqual(self.shown(block), block)


if __name__ == "__main__":
    unittest.main()
