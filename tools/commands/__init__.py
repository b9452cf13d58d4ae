"""The words of `nfc.py`, one module each.

A word's module has its name. Its docstring's first line is what `nfc.py --help` tells of it, the whole one what
`nfc.py WORD --help` tells, and its `main(words)` obeys the words behind it and gives the exit status. It raises
`BadInput` (faults.py) where something can't be done.
"""

from __future__ import annotations

import importlib
import importlib.util

IN_ORDER = ("run", "why", "annotate", "ladder", "page", "pcap", "place", "dump", "ndef")
WIDTH = max(map(len, IN_ORDER))


def words() -> list[str]:
    """The words whose modules are there, in the order in which they are told."""
    return [word for word in IN_ORDER if importlib.util.find_spec(f"commands.{word}")]


def summary(word: str) -> str:
    """The first line of a module's docstring."""
    return (importlib.import_module(f"commands.{word}").__doc__ or "").strip().partition("\n")[0]


def obey(word: str, behind: list[str]) -> int:
    return importlib.import_module(f"commands.{word}").main(behind)
