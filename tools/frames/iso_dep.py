"""ISO-DEP, the link to a Type 4 tag: its activation and its blocks (docs/links.md)."""

from __future__ import annotations

from frames import type4
from frames.line import Frame
from frames.words import counted

RATS = 0xE0
DESELECT, TIME_EXTENSION = 0xC2, 0xF2
CHAINING = 0x10
BLOCK_SIZES = (16, 24, 32, 40, 48, 64, 96, 128, 256)


class IsoDep:
    """Reader and card between RATS and S(DESELECT). `whole` is the command or answer that the last frame completed."""

    def __init__(self) -> None:
        self.begin(False)

    def begin(self, asked_rats: bool) -> None:
        """No card is activated; one is asked for, or not."""
        self.is_active = False
        self.asked_rats = asked_rats
        self.command = b""
        self.reply = b""
        self.whole = b""

    def request(self, frame: Frame) -> str | None:
        data = frame.data
        self.whole = b""
        if not frame.is_whole or not data:
            return None
        if data[0] == RATS and len(data) == 2:
            self.begin(True)
            return f"RATS: FSDI {data[1] >> 4}, {size_text(data[1] >> 4)}"
        if not self.is_active:
            return None
        self.asked_rats = False
        if data[0] & 0xEE == 0x02:
            self.reply = b""
            return self.command_block(data)
        return control_text(data, "more time is granted")

    def answer(self, frame: Frame) -> str | None:
        data = frame.data
        self.whole = b""
        if not frame.is_whole or not data:
            return None
        if self.asked_rats:
            return self.activation(data)
        if data[0] & 0xEE == 0x02:
            return self.answer_block(data)
        if data == bytes([DESELECT]):
            self.begin(False)
            return "S(DESELECT): the card sleeps"
        return control_text(data, "the card asks for more time")

    def activation(self, data: bytes) -> str | None:
        """ATS: its first byte is its length, the low nibble of its second one the card's size code."""
        if data[0] != len(data) or len(data) < 2:
            return None
        self.is_active = True
        behind = f", {counted(len(data) - 2, 'byte')} behind" if len(data) > 2 else ""
        return f"ATS: FSCI {data[1] & 15}, {size_text(data[1] & 15)}{behind}"

    def command_block(self, data: bytes) -> str:
        """An I-block with a command, or a piece of one."""
        whole, self.command = self.command + data[1:], b""
        if data[0] & CHAINING:
            self.command = whole
            return f"{begin(data)}, chained: {counted(len(data) - 1, 'byte')} of a command"
        self.whole = whole
        return f"{begin(data)}: {completed(whole, data)}{type4.command_text(whole)}"

    def answer_block(self, data: bytes) -> str:
        """An I-block with an answer, or a piece of one."""
        whole, self.reply = self.reply + data[1:], b""
        if data[0] & CHAINING:
            self.reply = whole
            return f"{begin(data)}, chained: {counted(len(data) - 1, 'byte')} of an answer"
        self.whole = whole
        return f"{begin(data)}: {completed(whole, data)}{type4.answer_text(whole)}"

    def answer_name(self) -> str:
        return "ATS" if self.asked_rats else "block"


def begin(data: bytes) -> str:
    return f"I-block {data[0] & 1}"


def completed(whole: bytes, data: bytes) -> str:
    """That a chain ends here, if there was one."""
    return f"completes {counted(len(whole), 'byte')}: " if len(whole) > len(data) - 1 else ""


def control_text(data: bytes, extension: str) -> str | None:
    """An R-block or an S-block."""
    if len(data) == 2 and data[0] == TIME_EXTENSION:
        return f"S(WTX): {extension}, {data[1] & 0x3F} times the waiting time"
    if len(data) != 1:
        return None
    if data[0] & 0xEE == 0xA2:
        return f"R({'NAK' if data[0] & CHAINING else 'ACK'}) {data[0] & 1}"
    return "S(DESELECT)" if data[0] == DESELECT else None


def size_text(size_code: int) -> str:
    return f"blocks of up to {BLOCK_SIZES[min(size_code, 8)]} bytes"
