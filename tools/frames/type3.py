"""Polling for Type 3 tags (NFC-F), their commands and their answers (docs/tags.md)."""

from __future__ import annotations

from frames.line import Frame
from frames.words import counted, hexadecimal

SENSF_REQ, SENSF_RES = 0x00, 0x01
CHECK, CHECKED, UPDATE, UPDATED = 0x06, 0x07, 0x08, 0x09
POLL_LENGTH, POLLED_LENGTH = 6, 18
IDENTIFIER_LENGTH, BLOCK_LENGTH = 8, 16
ELEMENT = 0x80
STATUSES = {0xFF01: "not taken", 0xFF02: "no such block", 0xFF03: "the block is locked"}


class Type3:
    """Requests and answers begin with their length and a code."""

    def __init__(self) -> None:
        self.asked = -1
        self.what = ""
        self.count = 0

    def request(self, frame: Frame) -> str | None:
        data = frame.data
        if not has_length(frame):
            return None
        if data[1] == SENSF_REQ and len(data) == POLL_LENGTH:
            self.asked = SENSF_REQ
            return f"SENSF_REQ of system code {hexadecimal(data[2:4])}h, {counted(data[5] + 1, 'time slot')}"
        if data[1] in (CHECK, UPDATE) and len(data) > 2 + IDENTIFIER_LENGTH:
            return self.command(data[1], data[2 : 2 + IDENTIFIER_LENGTH], data[2 + IDENTIFIER_LENGTH :])
        return None

    def command(self, number: int, identifier: bytes, rest: bytes) -> str | None:
        """A Check of some blocks or an Update of one: a service of two bytes, and an element of two bytes a block."""
        if len(rest) < 4 or rest[0] != 1:
            return None
        count, rest = rest[3], rest[4:]
        elements, content = rest[: 2 * count], rest[2 * count :]
        if len(elements) != 2 * count or any(code != ELEMENT for code in elements[::2]):
            return None
        if len(content) != (BLOCK_LENGTH * count if number == UPDATE else 0):
            return None
        self.asked, self.count, self.what = number, count, blocks_text(elements[1::2])
        if number == CHECK:
            return f"CHECK of {self.what}, to {hexadecimal(identifier)}"
        return f"UPDATE of {self.what}: {hexadecimal(content)}, to {hexadecimal(identifier)}"

    def answer(self, frame: Frame) -> str | None:
        data = frame.data
        if not has_length(frame) or len(data) < 2 + IDENTIFIER_LENGTH:
            return None
        identifier, rest = data[2 : 2 + IDENTIFIER_LENGTH], data[2 + IDENTIFIER_LENGTH :]
        if self.asked == SENSF_REQ:
            is_present = data[1] == SENSF_RES and len(data) == POLLED_LENGTH
            return f"SENSF_RES: {hexadecimal(identifier)}" if is_present else None
        if self.asked not in (CHECK, UPDATE) or data[1] != self.asked + 1 or len(rest) < 2:
            return None
        status = int.from_bytes(rest[:2], "big")
        return self.refused(status, rest[2:]) if status else self.success(rest[2:])

    def refused(self, status: int, rest: bytes) -> str | None:
        meaning = f": {STATUSES[status]}" if status in STATUSES else ""
        return None if rest else f"refused, status {status:04X}h{meaning}"

    def success(self, rest: bytes) -> str | None:
        """What stands behind a status of 0: of a Check the number of blocks and their content."""
        if self.asked == UPDATE:
            return None if rest else "updated"
        is_content = rest[:1] == bytes([self.count]) and len(rest) == 1 + BLOCK_LENGTH * self.count
        return self.what if is_content else None

    def answer_name(self) -> str:
        return {SENSF_REQ: "SENSF_RES", CHECK: "answer to CHECK", UPDATE: "answer to UPDATE"}.get(self.asked, "")


def has_length(frame: Frame) -> bool:
    """Whether it is whole and begins with its length."""
    return frame.is_whole and len(frame.data) > 1 and frame.data[0] == len(frame.data)


def blocks_text(numbers: bytes) -> str:
    """Blocks by their numbers, which mostly follow one another."""
    if len(numbers) == 1:
        return f"block {numbers[0]}"
    if not numbers:
        return "no block"
    follow = all(after == before + 1 for before, after in zip(numbers, numbers[1:]))
    return f"blocks {numbers[0]} to {numbers[-1]}" if follow else f"blocks {', '.join(map(str, numbers))}"


def named(frame: Frame) -> str:
    """The tag whose identifier a command or an answer carries; nothing of a frame for all of them."""
    data = frame.data
    is_poll = data[1:2] == bytes([SENSF_REQ])
    return "" if is_poll or len(data) < 2 + IDENTIFIER_LENGTH else hexadecimal(data[2 : 2 + IDENTIFIER_LENGTH])
