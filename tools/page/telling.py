"""What a place of the slider tells, from the answers of its two last commands."""

from __future__ import annotations

from frames.words import hexadecimal

NOTHING = "-"


def message_told(answer: str, before: str, written: bytes) -> str:
    """Which message a read told: the old one, the one that was written, the empty one; any other answer as it is."""
    message = message_of(answer)
    if message is None:
        return answer
    if message == message_of(before):
        return "old"
    if message == (hexadecimal(written) or NOTHING):
        return "new"
    return "empty" if message == NOTHING else answer


def message_of(answer: str) -> str | None:
    words = answer.split(" ")
    return words[1] if len(words) == 3 and words[0] == "message" else None


def put_told(answer: str, behind: str, before: str) -> str:
    is_accepted = len(accepted(behind)) > len(accepted(before))
    if answer == "success":
        return "told" if is_accepted else "told, and not accepted"
    return "accepted" if is_accepted else "not accepted"


def accepted(inbox: str) -> list[str]:
    """The messages of an inbox's answer, each with its link."""
    return inbox.split(" ")[2:] if inbox.startswith("inbox ") else []
