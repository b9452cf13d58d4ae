"""NFC-DEP, the link between two peers (docs/links.md)."""

from __future__ import annotations

from frames.line import Frame
from frames.llcp import Llcp, general_text
from frames.words import counted, hexadecimal

START, REQUEST, ANSWER = 0xF0, 0xD4, 0xD5
NAMES = {0x00: "ATR", 0x04: "PSL", 0x06: "DEP", 0x08: "DSL", 0x0A: "RLS"}
ATR, PSL, DEP, DSL, RLS = NAMES
PARAMETER_BITS, HAS_GENERAL = 0x32, 0x02
FRAME_LENGTHS = (64, 128, 192, 254)
PSL_LENGTHS = {False: 3, True: 1}
MOST_CONTENT = 251
MORE = 0x10
MOST_EXTENSION = 59


class End:
    """What one end has sent: a chain's pieces so far, and its last information frame, which may come again."""

    def __init__(self) -> None:
        self.chain = b""
        self.last = b""
        self.told = ""


class NfcDep:
    """An initiator, which asks, and a target, which answers. `whole` is the payload that the last frame completed."""

    def __init__(self) -> None:
        self.begin()

    def begin(self) -> None:
        """Nothing was sent on a link yet."""
        self.whole = b""
        self.ends = {False: End(), True: End()}
        self.llcp = Llcp()

    def request(self, frame: Frame) -> str | None:
        return self.frame_text(frame, False)

    def answer(self, frame: Frame) -> str | None:
        return self.frame_text(frame, True)

    def answer_name(self) -> str:
        return "answer of a target"

    def frame_text(self, frame: Frame, up: bool) -> str | None:
        """A frame is F0h, its length, its direction, its command, and the rest."""
        data = frame.data
        self.whole = b""
        if not frame.is_whole or len(data) < 4 or data[0] != START or data[1] != len(data) - 1:
            return None
        kind, is_answer = data[3] & 0xFE, bool(data[3] & 1)
        if data[2] != (ANSWER if up else REQUEST) or is_answer != up or kind not in NAMES:
            return None
        told = self.rest_text(kind, data[4:], up)
        return None if told is None else f"{NAMES[kind]}_{'RES' if up else 'REQ'}{told}"

    def rest_text(self, kind: int, rest: bytes, up: bool) -> str | None:
        """What stands behind the command, in words that follow its name."""
        if kind == ATR:
            self.begin()
            return attributes_text(rest, up)
        if kind == DEP:
            return self.exchange_text(rest, up)
        if kind == PSL:
            return "" if len(rest) == PSL_LENGTHS[up] else None
        if rest:
            return None
        if kind == DSL:
            return ", the target sleeps" if up else ", puts the target to sleep"
        return ", the target is let go" if up else ", lets the target go"

    def exchange_text(self, rest: bytes, up: bool) -> str | None:
        """A DEP frame: its control byte says what it is."""
        if not rest:
            return None
        control, behind = rest[0], rest[1:]
        if control & ~0x13 == 0:
            return self.information_text(control, behind, up) if len(behind) <= MOST_CONTENT else None
        if control & ~3 == 0x40 and not behind:
            return f": ACK, PNI {control & 3}"
        if control & ~3 == 0x50 and not behind and not up:
            return f": NACK, PNI {control & 3}"
        if control == 0x80 and not behind:
            return ": ATTENTION"
        if control == 0x90 and len(behind) == 1 and 1 <= behind[0] <= MOST_EXTENSION:
            return f": TIMEOUT, {behind[0]} times the waiting time"
        return None

    def information_text(self, control: int, content: bytes, up: bool) -> str:
        """An information frame, a payload or a piece of one; or the last one again, since its number is the same."""
        end, frame = self.ends[up], bytes([control]) + content
        begin = f": information, PNI {control & 3}"
        if frame == end.last:
            return f"{begin}, again{end.told}"
        end.last = frame
        whole, end.chain = end.chain + content, b""
        if control & MORE:
            end.chain = whole
            end.told = f", chained: {counted(len(content), 'byte')} of a payload"
        else:
            chained = f", completes {counted(len(whole), 'byte')}" if len(whole) > len(content) else ""
            end.told = f"{chained}: {self.llcp.text(whole, up)}"
            self.whole = whole
        return begin + end.told


def attributes_text(rest: bytes, up: bool) -> str | None:
    """The rest of ATR_REQ or ATR_RES: NFCID3, DID, the bit rates, in an answer TO, PP, general bytes."""
    fixed = 15 if up else 14
    if len(rest) < fixed or rest[10] != 0:
        return None
    parameters, general = rest[fixed - 1], rest[fixed:]
    if parameters & ~PARAMETER_BITS or (general and not parameters & HAS_GENERAL) or len(general) > 62 - fixed:
        return None
    told = f": NFCID3 {hexadecimal(rest[:10])}, frames of up to {FRAME_LENGTHS[parameters >> 4]} bytes"
    return f"{told}, {general_text(general)}" if general else told
