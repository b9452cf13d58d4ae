"""How NFC-A devices are found and selected (docs/polling.md, docs/tags.md)."""

from __future__ import annotations

from frames.line import Frame, bytes_of
from frames.words import code, counted, hexadecimal

PRESENCE = {Frame(b"\x26", 7): "SENS_REQ", Frame(b"\x52", 7): "ALL_REQ, wakes devices that sleep too"}
SLP_REQ = Frame(b"\x50\x00")
LEVELS = {0x93: 1, 0x95: 2, 0x97: 3}
SELECTING = 0x70
CASCADE_TAG = 0x88
LEVEL_BITS = 40
IDENTIFIER_SIZES = {0: "4 bytes", 1: "7 bytes", 2: "10 bytes"}
GOES_ON, IS_TYPE_4, IS_PEER = 0x04, 0x20, 0x40


class Polling:
    """The requests and answers up to a device's selection."""

    def __init__(self) -> None:
        self.asked = ""
        self.level = 0
        self.known: list[int] = []
        self.parts: list[bytes] = []

    def request(self, frame: Frame) -> str | None:
        if frame in PRESENCE:
            self.asked, self.parts = "SENS_RES", []
            return PRESENCE[frame]
        if frame == SLP_REQ:
            self.asked, self.parts = "", []
            return "SLP_REQ, puts the device to sleep"
        if len(frame.data) < 2 or frame.data[0] not in LEVELS:
            return None
        self.level = LEVELS[frame.data[0]]
        return self.selecting(frame) if frame.data[1] == SELECTING else self.asking(frame)

    def asking(self, frame: Frame) -> str | None:
        """SDD_REQ: its second byte counts the whole bytes and the bits, the first two bytes among them."""
        whole, bits = divmod(frame.data[1], 16)
        known = 8 * (whole - 2) + bits
        if bits > 7 or not 0 <= known < LEVEL_BITS or len(frame.bits) != 16 + known:
            return None
        self.asked = "SDD_RES"
        self.known = frame.bits[16:]
        told = "no bits" if known == 0 else counted(known, "bit")
        return f"SDD_REQ of level {self.level}, {told} known"

    def selecting(self, frame: Frame) -> str | None:
        """SEL_REQ: a whole level, the identifier's part and its check byte."""
        level = frame.data[2:]
        if not frame.is_whole or len(level) != 5:
            return None
        self.asked = "SEL_RES"
        self.parts = self.parts[: self.level - 1] + [level[:4]]
        return f"SEL_REQ of level {self.level}: {level_text(level)}"

    def answer(self, frame: Frame) -> str | None:
        if self.asked == "SENS_RES":
            return sens_res(frame)
        if self.asked == "SDD_RES":
            return self.sdd_res(frame)
        if self.asked == "SEL_RES":
            return self.sel_res(frame)
        return None

    def sdd_res(self, frame: Frame) -> str | None:
        """The bits of a level that weren't known."""
        bits = self.known + frame.bits
        if len(bits) != LEVEL_BITS:
            return None
        brought = f"the other {counted(len(frame.bits), 'bit')}, " if self.known else ""
        return f"SDD_RES of level {self.level}: {brought}{level_text(bytes_of(bits))}"

    def sel_res(self, frame: Frame) -> str | None:
        """What the device is, or that its identifier goes on."""
        if not frame.is_whole or len(frame.data) != 1:
            return None
        kind = frame.data[0]
        if kind & GOES_ON:
            return "SEL_RES: identifier not complete"
        names = {0: "Type 2 tag", IS_TYPE_4: "Type 4 tag", IS_PEER: "peer"}
        name = names.get(kind & (IS_TYPE_4 | IS_PEER), "Type 4 tag and peer")
        return f"SEL_RES: {name}, {self.identifier()} is selected"

    def identifier(self) -> str:
        """The parts of the levels that were selected, each but the last without its cascade tag."""
        if len(self.parts) != self.level:
            return "the device"
        return hexadecimal(b"".join(part[1:] for part in self.parts[:-1]) + self.parts[-1])

    def answer_name(self) -> str:
        """What an answer to the last request is called; nothing where none may come."""
        return f"{self.asked} of level {self.level}" if self.asked in ("SDD_RES", "SEL_RES") else self.asked


def sens_res(frame: Frame) -> str | None:
    """SENS_RES: the two high bits of its first byte say the size of the identifier."""
    if not frame.is_whole or len(frame.data) != 2:
        return None
    size = IDENTIFIER_SIZES.get(frame.data[0] >> 6, "a reserved size")
    anticollision = "bit-frame anticollision" if frame.data[0] & 0x1F else "no bit-frame anticollision"
    return f"SENS_RES: identifier of {size}, {anticollision}"


def level_text(level: bytes) -> str:
    """The five bytes of a level: four of them, and BCC, which is their XOR."""
    right = level[0] ^ level[1] ^ level[2] ^ level[3]
    part = f"cascade tag {code(CASCADE_TAG)}, identifier part {hexadecimal(level[1:4])}"
    if level[0] != CASCADE_TAG:
        part = f"identifier part {hexadecimal(level[:4])}"
    verdict = "right" if level[4] == right else f"wrong, {code(right)} is right"
    return f"{part}, BCC {code(level[4])} {verdict}"
