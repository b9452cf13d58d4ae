"""Commands of Type 2 tags and their answers (docs/tags.md)."""

from __future__ import annotations

from frames.line import Frame
from frames.words import hexadecimal

READ, WRITE = 0x30, 0xA2
REQUEST_LENGTHS = {READ: 2, WRITE: 6}
ACKNOWLEDGEMENT = 0x0A
CONTENT_LENGTH = 16


class Type2:
    """READ and WRITE, and what comes back."""

    def __init__(self) -> None:
        self.asked = 0
        self.block = 0

    def request(self, frame: Frame) -> str | None:
        data = frame.data
        if not frame.is_whole or not data or len(data) != REQUEST_LENGTHS.get(data[0]):
            return None
        self.asked, self.block = data[0], data[1]
        if self.asked == READ:
            return f"READ of block {self.block}"
        return f"WRITE of block {self.block}: {hexadecimal(data[2:])}"

    def answer(self, frame: Frame) -> str | None:
        if frame.tail == 4 and len(frame.data) == 1:
            return self.acknowledgement(frame.data[0])
        if self.asked == READ and frame.is_whole and len(frame.data) == CONTENT_LENGTH:
            return blocks_text(self.block)
        return None

    def acknowledgement(self, value: int) -> str | None:
        """Four bits: done, which a READ isn't answered by, or refused."""
        if value != ACKNOWLEDGEMENT:
            return f"NAK {value:X}h: refused"
        return "ACK: written" if self.asked == WRITE else None

    def answer_name(self) -> str:
        return "answer to READ" if self.asked == READ else "answer to WRITE"


def blocks_text(first: int) -> str:
    """Which four blocks a READ brings. It goes on with block 0 behind the last one."""
    if first + 3 <= 0xFF:
        return f"blocks {first} to {first + 3}"
    return f"four blocks from {first} on, with block 0 behind the last one"
