"""A run of frames: which protocol is under way, and so what each frame is."""

from __future__ import annotations

import typing
from copy import deepcopy

from frames.iso_dep import IsoDep
from frames.line import Frame, FrameLine
from frames.nfc_dep import NfcDep
from frames.polling import Polling
from frames.type2 import Type2
from frames.type3 import Type3
from frames.type5 import Type5
from frames.words import counted

UNKNOWN = "?"
REQUEST_FATES = {
    "damage": "nobody heard it",
    "lose": "nobody heard it",
    "break": "nobody heard it, the field goes dark",
}
ANSWER_FATES = {
    "damage": "the reader heard damage",
    "lose": "the reader heard nothing",
    "break": "the reader heard nothing, the field goes dark",
}


class Protocol(typing.Protocol):
    """One protocol: what a request or an answer is in it, by the frames before; nothing where it is none."""

    def request(self, frame: Frame) -> str | None: ...

    def answer(self, frame: Frame) -> str | None: ...

    def answer_name(self) -> str: ...


class Protocols:
    """What each protocol knows of the frames before, and which one took the last request."""

    def __init__(self) -> None:
        # ISO-DEP stands before Type 5: to an activated card goes a block, which may look like a Type 5 request.
        self.type5 = Type5()
        self.in_order: list[Protocol] = [Polling(), IsoDep(), Type2(), NfcDep(), Type3(), self.type5]
        self.current: Protocol | None = None

    def request(self, frame: Frame) -> str | None:
        """What the request is in the first protocol where it is one."""
        for protocol in self.in_order:
            told = protocol.request(frame)
            if told is not None:
                self.current = protocol
                if protocol is not self.type5:
                    self.type5.is_alone = False
                return told
        return None

    def answer(self, frame: Frame) -> str | None:
        return self.current.answer(frame) if self.current else None

    def clash(self, frame: Frame) -> str | None:
        """Answers that differ, by what was asked, and how many first bits they share."""
        name = self.current.answer_name() if self.current else ""
        if not name:
            return None
        common = len(frame.bits)
        where = f"behind {counted(common, 'common bit')}" if common else "at the first bit"
        return f"{name}, clash {where}"


class Session:
    """The frames of a report, one after the other. Those that didn't arrive change nothing.

    `told_by` is the protocol that read the last one, as it stands behind it; nothing where none knows it.
    """

    def __init__(self) -> None:
        self.protocols = Protocols()
        self.told_by: Protocol | None = None

    def reset(self) -> str:
        self.protocols = Protocols()
        return "the field is dark, then lit"

    def tell(self, line: FrameLine) -> str:
        """What the frame is, and what became of it where it didn't arrive."""
        protocols = self.protocols if line.fate == "pass" else deepcopy(self.protocols)
        meanings = {">": protocols.request, "<": protocols.answer, "*": protocols.clash}
        told = meanings[line.mark](line.frame) if line.frame.is_well_formed else None
        self.told_by = None if told is None else protocols.current
        if line.fate == "break":
            self.protocols = Protocols()
        elif line.mark == ">" and (line.fate != "pass" or told is None):
            self.protocols.current = None
        fates = REQUEST_FATES if line.mark == ">" else ANSWER_FATES
        if told is None:
            return UNKNOWN
        return f"{told} ({fates[line.fate]})" if line.fate in fates else told
