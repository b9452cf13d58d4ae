"""Commands of Type 5 tags (NFC-V) and their answers (docs/tags.md)."""

from __future__ import annotations

from frames.line import Frame
from frames.words import code, counted, hexadecimal

INVENTORY, STAY_QUIET = 0x01, 0x02
READ_SINGLE, WRITE_SINGLE, LOCK_SINGLE, READ_MULTIPLE = 0x20, 0x21, 0x22, 0x23
READ_WIDE, WRITE_WIDE = 0x30, 0x31
SELECT, RESET_TO_READY, SYSTEM_INFORMATION = 0x25, 0x26, 0x2B
NAMES = {
    STAY_QUIET: "STAY QUIET",
    READ_SINGLE: "READ SINGLE BLOCK",
    WRITE_SINGLE: "WRITE SINGLE BLOCK",
    LOCK_SINGLE: "LOCK SINGLE BLOCK",
    READ_MULTIPLE: "READ MULTIPLE BLOCKS",
    READ_WIDE: "READ SINGLE BLOCK",
    WRITE_WIDE: "WRITE SINGLE BLOCK",
    SELECT: "SELECT",
    RESET_TO_READY: "RESET TO READY",
    SYSTEM_INFORMATION: "GET SYSTEM INFORMATION",
}
ERRORS = {0x0F: "no reason given", 0x10: "no such block", 0x12: "the block is locked"}
ONE_SLOT, SIXTEEN_SLOTS = 0x26, 0x06
HIGH_RATE, SELECTED, ADDRESSED, OPTION = 0x02, 0x10, 0x20, 0x40
IDENTIFIER_LENGTH = 8
MOST_BITS = {ONE_SLOT: 8 * IDENTIFIER_LENGTH, SIXTEEN_SLOTS: 8 * IDENTIFIER_LENGTH - 4}
SLOTS = {ONE_SLOT: "one slot", SIXTEEN_SLOTS: "sixteen slots"}


class Type5:
    """Requests begin with a byte of flags, answers too."""

    def __init__(self) -> None:
        self.asked = 0
        self.what = ""
        # Until something of NFC-A is asked behind a reset, an empty frame moves a round of slots on.
        self.is_alone = True

    def request(self, frame: Frame) -> str | None:
        data = frame.data
        if frame.is_whole and not data and self.is_alone:
            self.asked = INVENTORY
            return "next slot"
        if not frame.is_whole or len(data) < 2:
            return None
        if data[0] in SLOTS:
            return self.inventory(data[0], data[1:])
        if data[0] & ~OPTION not in (HIGH_RATE, HIGH_RATE | SELECTED, HIGH_RATE | ADDRESSED):
            return None
        return self.command(data[0], data[1], data[2:])

    def inventory(self, flags: int, data: bytes) -> str | None:
        """An inventory: how many bits the mask has, and the mask in whole bytes, lowest bits first."""
        if len(data) < 2 or data[0] != INVENTORY or data[1] > MOST_BITS[flags]:
            return None
        bits, mask = data[1], data[2:]
        value = int.from_bytes(mask, "little")
        if len(mask) != (bits + 7) // 8 or value >> bits:
            return None
        self.asked = INVENTORY
        if bits == 0:
            return f"INVENTORY of {SLOTS[flags]}, no mask"
        if bits == 8 * IDENTIFIER_LENGTH:
            return f"INVENTORY of {SLOTS[flags]}, mask: all of {identifier(mask)}"
        return f"INVENTORY of {SLOTS[flags]}, mask of {counted(bits, 'bit')}: {value:0{(bits + 3) // 4}X}h"

    def command(self, flags: int, number: int, rest: bytes) -> str | None:
        """Any other request, addressed to one tag, to the selected one, or to all that aren't quiet."""
        whom = "to the selected tag" if flags & SELECTED else "to every tag"
        if flags & ADDRESSED:
            if len(rest) < IDENTIFIER_LENGTH:
                return None
            whom = f"to {identifier(rest[:IDENTIFIER_LENGTH])}"
            rest = rest[IDENTIFIER_LENGTH:]
        what = command_text(number, rest)
        if what is None:
            return None
        self.asked = number
        self.what = block_range(number, rest)
        return f"{what}, {whom}{', option flag' if flags & OPTION else ''}"

    def answer(self, frame: Frame) -> str | None:
        data = frame.data
        if not frame.is_whole or not data:
            return None
        if len(data) == 2 and data[0] == 0x01:
            meaning = f": {ERRORS[data[1]]}" if data[1] in ERRORS else ""
            return f"error {code(data[1])}{meaning}"
        return self.success(data[1:]) if data[0] == 0x00 else None

    def success(self, content: bytes) -> str | None:
        """What stands behind the flags 00h of an answer."""
        if self.asked == INVENTORY:
            if len(content) != 1 + IDENTIFIER_LENGTH:
                return None
            return f"present: {identifier(content[1:])}"
        if self.asked in (READ_SINGLE, READ_MULTIPLE, READ_WIDE):
            return f"{self.what}, {counted(len(content), 'byte')}" if content else None
        if self.asked == SYSTEM_INFORMATION:
            return f"system information, {counted(len(content), 'byte')}" if content else None
        return None if content or self.asked == STAY_QUIET else "done"

    def answer_name(self) -> str:
        return "answer to INVENTORY" if self.asked == INVENTORY else "answer"


def command_text(number: int, rest: bytes) -> str | None:
    """The command's name with its block, where what follows has the length that it needs."""
    if number in (READ_SINGLE, LOCK_SINGLE) and len(rest) == 1:
        return f"{NAMES[number]} {rest[0]}"
    if number == WRITE_SINGLE and len(rest) > 1:
        return f"{NAMES[number]} {rest[0]}: {hexadecimal(rest[1:])}"
    if number == READ_WIDE and len(rest) == 2:
        return f"{NAMES[number]} {wide_number(rest)} by two bytes"
    if number == WRITE_WIDE and len(rest) > 2:
        return f"{NAMES[number]} {wide_number(rest)} by two bytes: {hexadecimal(rest[2:])}"
    if number == READ_MULTIPLE and len(rest) == 2:
        return f"{NAMES[number]} {rest[0]} to {rest[0] + rest[1]}"
    if number in (STAY_QUIET, SELECT, RESET_TO_READY, SYSTEM_INFORMATION) and not rest:
        return NAMES[number]
    return None


def block_range(number: int, rest: bytes) -> str:
    """Which blocks the answer brings."""
    if number == READ_SINGLE:
        return f"block {rest[0]}"
    if number == READ_WIDE:
        return f"block {wide_number(rest)}"
    if number == READ_MULTIPLE:
        return f"blocks {rest[0]} to {rest[0] + rest[1]}"
    return ""


def wide_number(rest: bytes) -> int:
    """A block number of two bytes; its low byte comes first."""
    return int.from_bytes(rest[:2], "little")


def identifier(low_first: bytes) -> str:
    """An identifier as reports show it; on the air its least byte comes first."""
    return hexadecimal(low_first[::-1])
