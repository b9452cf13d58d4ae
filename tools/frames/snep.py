"""SNEP, which two peers speak over an LLCP connection (NFC Forum SNEP 1.0)."""

from __future__ import annotations

from frames.words import code, counted
from ndef.records import NoMessage
from ndef.telling import message_line

PUT = 0x02
CONTINUING = (0x00, 0x80)
CODES = {
    0x00: "CONTINUE",
    0x01: "GET",
    PUT: "PUT",
    0x7F: "REJECT",
    0x80: "CONTINUE",
    0x81: "SUCCESS",
    0xC0: "NOT FOUND",
    0xC1: "EXCESS DATA",
    0xC2: "BAD REQUEST",
    0xE0: "NOT IMPLEMENTED",
    0xE1: "UNSUPPORTED VERSION",
    0xFF: "REJECT",
}
HEADER_LENGTH = 6


class Snep:
    """Messages of one connection in its two directions. One may come in several units."""

    def __init__(self) -> None:
        self.missing = {True: 0, False: 0}

    def text(self, unit: bytes, up: bool) -> str:
        """What the unit is: a message's header with what stands behind it, or more of a message."""
        if self.missing[up]:
            return self.more(unit, up)
        if len(unit) < HEADER_LENGTH:
            return f"SNEP, {counted(len(unit), 'byte')} without a whole header"
        length = int.from_bytes(unit[2:HEADER_LENGTH], "big")
        here = len(unit) - HEADER_LENGTH
        self.missing[up] = max(0, length - here)
        if unit[1] not in CONTINUING:
            self.missing[not up] = 0
        partly = f", {here} of them here" if here < length else ""
        surplus = f", {counted(here - length, 'byte')} too many" if here > length else ""
        kind = "response" if unit[1] & 0x80 else "request"
        name = CODES.get(unit[1], f"{kind} {code(unit[1])}")
        held = records_text(unit[HEADER_LENGTH:]) if unit[1] == PUT and here == length else ""
        return f"SNEP {unit[0] >> 4}.{unit[0] & 15} {name}, {counted(length, 'byte')}{partly}{surplus}{held}"

    def more(self, unit: bytes, up: bool) -> str:
        """The next bytes of a message that began in an earlier unit."""
        left = self.missing[up] - len(unit)
        self.missing[up] = max(0, left)
        told = f"{counted(left, 'byte')} to come" if left > 0 else "the message is whole"
        surplus = f", {counted(-left, 'byte')} too many" if left < 0 else ""
        return f"SNEP, {counted(len(unit), 'byte')} more, {told}{surplus}"


def records_text(message: bytes) -> str:
    """The records of a message that came as a whole; nothing where it is none."""
    try:
        return f": {message_line(message)}"
    except NoMessage:
        return ""
