"""How a test calls a word of `nfc.py`."""

from __future__ import annotations

import io
import sys
from dataclasses import dataclass
from pathlib import Path
from unittest import mock

import nfc

ROOT = Path(__file__).resolve().parents[2]
PROGRAM = ROOT / "tools" / "nfc.py"


@dataclass(frozen=True)
class Called:
    """What a call ended with: its status, and what it wrote to both outputs."""

    status: int
    output: bytes
    error: str

    @property
    def text(self) -> str:
        return self.output.decode("utf-8")


def call(*words: object, given: bytes = b"") -> Called:
    """The call of `nfc.py` with these words, and this on its standard input."""
    output, error = io.BytesIO(), io.BytesIO()
    streams = {
        "stdin": io.TextIOWrapper(io.BytesIO(given)),
        "stdout": io.TextIOWrapper(output, "utf-8"),
        "stderr": io.TextIOWrapper(error, "utf-8"),
    }
    with mock.patch.multiple(sys, **streams):
        try:
            status = nfc.main([str(word) for word in words])
        except SystemExit as end:
            status = end.code
        sys.stdout.flush()
        sys.stderr.flush()
        return Called(status, output.getvalue(), error.getvalue().decode("utf-8"))
