"""The messages that an answer of a report tells (docs/report.md), by their records."""

from __future__ import annotations

import re

from ndef.telling import message_text

MESSAGE = re.compile(r"[0-9]+ message (-|(?:[0-9A-F]{2})+) (?:writable|readonly)")
INBOX = re.compile(r"[0-9]+ inbox [0-9]+((?: [0-9]+(?:\.[0-9]+)?:(?:-|(?:[0-9A-F]{2})+))+)")


def messages_text(line: str) -> str | None:
    """What the messages of an answer hold, where it tells any."""
    message, inbox = MESSAGE.fullmatch(line), INBOX.fullmatch(line)
    if message:
        return held_text(message[1])
    if inbox:
        return " | ".join(entry_text(entry) for entry in inbox[1].split())
    return None


def entry_text(entry: str) -> str:
    """A message of an inbox behind the link on which it came, and behind the SAP, where that is told."""
    origin, _, digits = entry.partition(":")
    link, _, sap = origin.partition(".")
    return f"link {link}{f', SAP {sap}' if sap else ''}: {held_text(digits)}"


def held_text(digits: str) -> str:
    return "no bytes" if digits == "-" else message_text(bytes.fromhex(digits))
