"""How a test asks what is told of some lines."""

from __future__ import annotations

from annotate import annotated_line
from frames.session import Session

SELECT_TYPE_4 = (
    "> 26/7 pass",
    "< 0400 pass",
    "> 9320 pass",
    "< 0203040500 pass",
    "> 93700203040500 pass",
    "< 20 pass",
)
ACTIVATE = SELECT_TYPE_4 + ("> E080 pass", "< 0200 pass")
NFCID3 = "00010203040506070809"


def told(*lines: str) -> list[str]:
    """The annotations of these lines of one report, which stand here without their number."""
    session = Session()
    return [annotated_line(session, f"1 {line}")[2 + len(line) :].strip() for line in lines]


def last_told(*lines: str) -> str:
    """The annotation of the last of these lines."""
    return told(*lines)[-1]


def dep_frame(payload: str, number: int = 0, up: bool = False) -> str:
    """The frame of an NFC-DEP link that carries this payload."""
    rest = f"{'D507' if up else 'D406'}{number:02X}{payload}"
    return f"{'<' if up else '>'} F0{len(rest) // 2 + 1:02X}{rest} pass"


def pdu_told(payload: str) -> str:
    """What is told of a payload of an NFC-DEP link."""
    begin = "DEP_REQ: information, PNI 0: "
    text = last_told(dep_frame(payload))
    return text[len(begin) :] if text.startswith(begin) else text
