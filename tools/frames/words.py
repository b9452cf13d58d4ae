"""Small words that every annotation is made of."""

from __future__ import annotations

from typing import Iterable


def hexadecimal(data: bytes) -> str:
    """The bytes in upper case, as a report shows them; `-` for none."""
    return data.hex().upper() or "-"


def code(value: int) -> str:
    """A byte as the documents write it, as in 0Fh."""
    return f"{value:02X}h"


def either(words: Iterable[object]) -> str:
    """Words of which one is meant, as in 4, 8 or 16."""
    *others, last = map(str, words)
    return f"{', '.join(others)} or {last}" if others else last


def counted(number: int, noun: str) -> str:
    """A number with its noun, as in 1 byte or 2 bytes."""
    return f"{number} {noun}" if number == 1 else f"{number} {noun}s"
