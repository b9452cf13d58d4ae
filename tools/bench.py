"""Where the built program is."""

from __future__ import annotations

import os
from pathlib import Path

VARIABLE = "NFC_BENCH"
BUILT = "crates/nfc_bench/out/nfc_bench"
ROOT = Path(__file__).resolve().parents[1]


def program() -> Path | None:
    """The program that the environment names, else the one that was built in its place; none where it isn't there."""
    named = os.environ.get(VARIABLE)
    path = Path(named) if named else ROOT / BUILT
    return path if path.is_file() and os.access(path, os.X_OK) else None
