"""Sequence numbers and windows of the connections of a link, as its PDUs tell them (docs/llcp.md)."""

from __future__ import annotations

from dataclasses import dataclass, field

from frames import llcp
from frames.entries import Event
from frames.nfc_dep import ATR, NfcDep

LEAST_WINDOW, MODULUS = 1, 16
NUMBERED = (llcp.I_PDU, llcp.RR, llcp.RNR)


@dataclass
class Direction:
    """What one end of a connection sent: the next N(S), and the last N(R) that the other end told of it."""

    window: int = LEAST_WINDOW
    sent: int = 0
    acknowledged: int = 0

    @property
    def open(self) -> int:
        return (self.sent - self.acknowledged) % MODULUS


@dataclass
class Connection:
    """Its two directions, by whether they lead from the target to the initiator."""

    ends: dict[bool, Direction] = field(default_factory=lambda: {False: Direction(), True: Direction()})


class Windows:
    """The connections of the link that is open."""

    def __init__(self) -> None:
        self.connections: dict[frozenset[int], Connection] = {}

    def notes(self, event: Event) -> list[dict[str, object]]:
        """Of each numbered PDU that the frame completes its numbers, and how much of the window is taken behind it."""
        if event.protocol is not NfcDep or event.mark == "*":
            return []
        if event.frame.data[3] & 0xFE == ATR:
            self.connections.clear()
        if len(event.whole) < 2:
            return []
        up = event.mark == "<"
        notes = (self.note(pdu, up, event.fate == "pass") for pdu in pdus(event.whole))
        return [note for note in notes if note]

    def note(self, pdu: bytes, up: bool, arrives: bool) -> dict[str, object]:
        target, kind, source = llcp.header(pdu)
        key = frozenset((target, source))
        if kind in (llcp.CONNECT, llcp.CC) and arrives:
            self.open(key, kind, pdu[2:], up)
        connection = self.connections.get(key)
        if connection is None or kind not in NUMBERED:
            return {}
        mine, other = connection.ends[up], connection.ends[not up]
        numbers = f"N(R) {pdu[2] & 15}"
        if kind == llcp.I_PDU:
            numbers = f"N(S) {pdu[2] >> 4}, {numbers}"
            mine.sent = (pdu[2] >> 4) + 1
        if arrives:
            other.acknowledged = pdu[2] & 15
        shown = mine if kind == llcp.I_PDU else other
        return {"numbers": numbers, "open": shown.open, "window": shown.window, "own": shown is mine}

    def open(self, key: frozenset[int], kind: int, rest: bytes, up: bool) -> None:
        """A CONNECT begins a connection anew; each end says how many I PDUs it takes, one if it says nothing."""
        connection = self.connections.setdefault(key, Connection())
        if kind == llcp.CONNECT:
            connection = self.connections[key] = Connection()
        said = dict(llcp.parameters(rest)).get(llcp.RW)
        connection.ends[not up].window = said[0] & 15 if said else LEAST_WINDOW


def pdus(payload: bytes) -> list[bytes]:
    """A payload's PDUs, those inside an AGF too; none of a payload that is no PDU."""
    try:
        llcp.check_pdu(payload, 0, len(payload), False)
    except llcp.Refused:
        return []
    is_aggregate = llcp.header(payload)[1] == llcp.AGF
    return llcp.inner_pdus(payload[2:]) if is_aggregate else [payload]
