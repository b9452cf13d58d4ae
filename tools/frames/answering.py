"""Who answers, by identifier, as far as the frames of a report tell it."""

from __future__ import annotations

from frames.line import Frame, FrameLine, bytes_of
from frames.polling import CASCADE_TAG, GOES_ON, LEVELS, PRESENCE, SELECTING, SLP_REQ
from frames.type5 import ADDRESSED, IDENTIFIER_LENGTH, INVENTORY, ONE_SLOT, SLOTS
from frames.words import hexadecimal

LEVEL_LENGTH = 5


class Answering:
    """The device that is selected, or that a frame names. Nothing stands for all that hear, or for one unknown."""

    def __init__(self) -> None:
        self.dark()

    def dark(self) -> None:
        self.selected = ""
        self.asked = Frame(b"")
        self.parts: list[bytes] = []

    def device(self, line: FrameLine, is_nfcv: bool) -> str:
        if line.mark == "*":
            return ""
        if line.mark == ">":
            self.asked = line.frame
            return self.addressed(line.frame) if is_nfcv else self.called(line)
        return self.present(line.frame) if is_nfcv else self.answered(line)

    def addressed(self, request: Frame) -> str:
        """The tag of NFC-V whose identifier a request carries, least byte first, behind its code."""
        data = request.data
        if len(data) < 2 + IDENTIFIER_LENGTH or data[0] == ONE_SLOT or not data[0] & ADDRESSED:
            return ""
        return hexadecimal(data[2 : 2 + IDENTIFIER_LENGTH][::-1])

    def present(self, answer: Frame) -> str:
        """The tag of NFC-V that answers an inventory by its identifier, or any other request that was for it."""
        asked = self.asked.data
        if not asked or (asked[0] in SLOTS and asked[1:2] == bytes([INVENTORY])):
            whole = len(answer.data) == 2 + IDENTIFIER_LENGTH
            return hexadecimal(answer.data[2:][::-1]) if whole else ""
        return self.addressed(self.asked)

    def called(self, line: FrameLine) -> str:
        """The selected device. A call of the polling is for all, and one that arrives lets the selected one go."""
        frame = line.frame
        is_call = frame in PRESENCE or (frame.data[:1] in [bytes([code]) for code in LEVELS])
        if not is_call:
            device = self.selected
            if frame == SLP_REQ and line.fate == "pass":
                self.selected = ""
            return device
        if line.fate == "pass":
            self.selected = ""
        if frame in PRESENCE:
            self.parts = []
        return ""

    def answered(self, line: FrameLine) -> str:
        """The selected device, or the one whose last level answers."""
        code = self.asked.data[:1]
        if self.asked in PRESENCE or not code or code[0] not in LEVELS:
            return self.selected
        level = LEVELS[code[0]]
        if self.asked.data[1:2] == bytes([SELECTING]):
            return self.selecting(line, level)
        bits = self.asked.bits[16:] + line.frame.bits
        whole = bytes_of(bits)
        is_last = len(whole) == LEVEL_LENGTH and whole[0] != CASCADE_TAG and len(self.parts) == level - 1
        return self.identifier(whole) if is_last else ""

    def selecting(self, line: FrameLine, level: int) -> str:
        """A SEL_RES: the identifier goes on, or this device is selected."""
        part = self.asked.data[2:6]
        if len(line.frame.data) != 1 or len(self.parts) < level - 1:
            return ""
        if line.frame.data[0] & GOES_ON:
            self.parts = self.parts[: level - 1] + [part[1:]]
            return ""
        self.parts = self.parts[: level - 1]
        self.selected = self.identifier(part)
        return self.selected

    def identifier(self, last: bytes) -> str:
        """The parts of the levels that went before, and the last one's."""
        return hexadecimal(b"".join(self.parts) + last[:4])
