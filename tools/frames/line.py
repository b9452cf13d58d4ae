"""A line of a report that shows a frame, and the frame itself (docs/report.md, docs/air.md)."""

from __future__ import annotations

import re
from dataclasses import dataclass

FRAME_LINE = re.compile(r"[0-9]+ ([<>*]) (-|(?:[0-9A-F]{2})+)(?:/([1-7]))? (pass|damage|lose|break)")
RESET_LINE = re.compile(r"[0-9]+ ! reset")


@dataclass(frozen=True)
class Frame:
    """Some bytes, and how many low bits of the last one were sent: 0 for all of them."""

    data: bytes
    tail: int = 0

    @property
    def is_whole(self) -> bool:
        return self.tail == 0

    @property
    def is_well_formed(self) -> bool:
        """A tail needs a byte, and the bits of it that weren't sent are 0."""
        return self.is_whole or (bool(self.data) and self.data[-1] >> self.tail == 0)

    @property
    def bits(self) -> list[int]:
        """The bits that were sent, least significant first within each byte."""
        every = [byte >> place & 1 for byte in self.data for place in range(8)]
        return every if self.is_whole else every[: self.tail - 8]


def bytes_of(bits: list[int]) -> bytes:
    """Bits packed eight to a byte, least significant first."""
    packed = (bits[start : start + 8] for start in range(0, len(bits), 8))
    return bytes(sum(bit << place for place, bit in enumerate(eight)) for eight in packed)


@dataclass(frozen=True)
class FrameLine:
    """What a line says: a request `>`, an answer `<` or a clash `*`, with its frame and fate."""

    mark: str
    frame: Frame
    fate: str


def frame_line(line: str) -> FrameLine | None:
    """What the line says of a frame, if it does."""
    found = FRAME_LINE.fullmatch(line)
    if found is None:
        return None
    mark, digits, tail, fate = found.groups()
    data = b"" if digits == "-" else bytes.fromhex(digits)
    return FrameLine(mark, Frame(data, int(tail or 0)), fate)


def is_reset(line: str) -> bool:
    """Whether the line says that the field was darkened and lit."""
    return RESET_LINE.fullmatch(line) is not None
