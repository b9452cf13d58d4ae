"""The entries of a report: what went over the air in each, with its words, and who sent it (docs/report.md)."""

from __future__ import annotations

from dataclasses import dataclass, field
from typing import Iterable, Iterator

from frames.answering import Answering
from frames.iso_dep import IsoDep
from frames.line import Frame, FrameLine, frame_line, is_reset
from frames.nfc_dep import NfcDep
from frames.session import Session
from frames.type3 import Type3, named
from frames.type5 import Type5

NFCV_FLAGS = (0x22, 0x26)


@dataclass(frozen=True)
class Event:
    """A transmission, or a reset, whose mark is `!` and which has no frame.

    `device` is the identifier of the one that sent it, or to which it goes; nothing where the report doesn't tell.
    `whole` is the command, answer or payload that an ISO-DEP or NFC-DEP frame completes; nothing else has one.
    """

    line: str
    mark: str
    frame: Frame
    fate: str
    told: str
    is_nfcv: bool
    device: str = ""
    protocol: type | None = None
    whole: bytes = b""
    is_nfcf: bool = False


@dataclass
class Entry:
    """A line of the script: what happened on the air, then its answer. The last one may have been cut off before it."""

    line: str
    events: list[Event] = field(default_factory=list)
    answer: str = ""


class Reader:
    """Reads a report's lines in order."""

    def __init__(self) -> None:
        self.session = Session()
        self.answering = Answering()
        self.is_nfcv = self.is_nfcf = False

    def dark(self) -> None:
        self.is_nfcv = self.is_nfcf = False
        self.answering.dark()

    def event(self, text: str) -> Event | None:
        """What happens by this line, if it shows something of the air."""
        number = text.partition(" ")[0]
        if is_reset(text):
            self.dark()
            return Event(number, "!", Frame(b""), "", self.session.reset(), False)
        shown = frame_line(text)
        return None if shown is None else self.transmission(number, shown)

    def transmission(self, number: str, shown: FrameLine) -> Event:
        told = self.session.tell(shown)
        if shown.mark == ">":
            self.is_nfcv = self.is_nfcv_request(shown.frame)
            self.is_nfcf = isinstance(self.session.told_by, Type3)
        is_nfcv, is_nfcf = self.is_nfcv, self.is_nfcf
        device = self.device(shown)
        if shown.fate == "break":
            self.dark()
        told_by = self.session.told_by
        whole = told_by.whole if shown.mark != "*" and isinstance(told_by, (IsoDep, NfcDep)) else b""
        protocol = type(told_by) if told_by else None
        return Event(number, shown.mark, shown.frame, shown.fate, told, is_nfcv, device, protocol, whole, is_nfcf)

    def device(self, shown: FrameLine) -> str:
        """Who sends it, or to whom it goes. A frame of NFC-F names its tag."""
        if self.is_nfcf:
            return "" if shown.mark == "*" else named(shown.frame)
        return self.answering.device(shown, self.is_nfcv)

    def is_nfcv_request(self, frame: Frame) -> bool:
        """Whether it is Type 5's. A report doesn't print it; of one that fits nothing the first byte decides."""
        told_by = self.session.told_by
        if told_by is not None:
            return isinstance(told_by, Type5)
        return frame.is_whole and bool(frame.data) and frame.data[0] in NFCV_FLAGS


def entries(lines: Iterable[str]) -> Iterator[Entry]:
    """The entries of a report, each when it is whole. A fault line gives none, nor does the line of a workload."""
    reader, entry = Reader(), None
    for text in lines:
        number, _, rest = text.partition(" ")
        if not number.isdecimal():
            continue
        entry = entry or Entry(number)
        event = reader.event(text)
        if event is None:
            entry.answer = rest
            yield entry
            entry = None
        else:
            entry.events.append(event)
    if entry is not None:
        yield entry
