"""Records in words. What fits no rule is told as its bytes, with a sentence that says why."""

from __future__ import annotations

from typing import Callable

from frames.words import counted
from ndef.records import (
    ABSOLUTE,
    EMPTY,
    EXTERNAL,
    MIME,
    UNKNOWN,
    WELL_KNOWN,
    NoMessage,
    Record,
    records_of,
)
from ndef.text import read_text
from ndef.uri import read_uri

ACTIONS = ("do it now", "save it", "open it for editing")
MOST_BYTES = 24
LONGEST_LINE = 240
DEEPEST = 4


def message_lines(message: bytes) -> list[str]:
    """A message, a line for each of its records. `NoMessage` tells why it is none."""
    return [record_text(record) for record in records_of(message)]


def message_line(message: bytes) -> str:
    """A message in one line, which is cut off where it is long. `NoMessage` tells why it is none."""
    told = "; ".join(message_lines(message))
    return told if len(told) <= LONGEST_LINE else told[:LONGEST_LINE] + ".."


def message_text(message: bytes) -> str:
    """A message in one line; why, where it is none."""
    try:
        return message_line(message)
    except NoMessage as fault:
        return f"no NDEF message: {fault}"


def record_text(record: Record, depth: int = 0) -> str:
    """What a record says, then its identifier and chunks, where it has any."""
    told = content_text(record, depth)
    if record.ident is not None:
        told += f", identifier {plain(record.ident)}"
    return f"{told}, in {record.chunks} chunks" if record.chunks > 1 else told


def content_text(record: Record, depth: int) -> str:
    if record.form == EMPTY:
        return "empty record"
    if record.form == WELL_KNOWN and record.kind in READERS:
        try:
            return READERS[record.kind](record.payload, depth)
        except ValueError as fault:
            return f"{type_text(record)}, {bytes_text(record.payload)} ({fault})"
    text = shown_text(record.payload) if record.form == MIME and record.kind.startswith(b"text/") else None
    return f"{type_text(record)}, {bytes_text(record.payload) if text is None else text}"


def type_text(record: Record) -> str:
    """What a record is, by its type name format and its type."""
    kind = plain(record.kind) if record.kind else "of no type"
    named = {
        WELL_KNOWN: f"well-known record {kind}",
        MIME: f"MIME {kind}",
        ABSOLUTE: f"record of type {kind}",
        EXTERNAL: f"external record {kind}",
        UNKNOWN: "record of unknown type",
    }
    return named.get(record.form, f"record of reserved type name format {record.form}")


def uri_text(payload: bytes, _depth: int) -> str:
    return f"URI {printable(read_uri(payload))}"


def text_text(payload: bytes, _depth: int) -> str:
    language, text, is_wide = read_text(payload)
    return f"Text ({printable(language) or 'no language'}{', UTF-16' if is_wide else ''}) {printable(text)}"


def poster_text(payload: bytes, depth: int) -> str:
    """A Smart Poster holds a message, in which some types of records have a meaning of their own."""
    if depth >= DEEPEST:
        raise ValueError("too many Smart Posters within each other")
    return f"Smart Poster: {'; '.join(part_text(record, depth + 1) for record in records_of(payload)) or 'nothing'}"


def part_text(record: Record, depth: int) -> str:
    """A record of a Smart Poster."""
    reader = PARTS.get(record.kind) if record.form == WELL_KNOWN else None
    told = reader(record.payload) if reader else None
    return told or record_text(record, depth)


def action_text(payload: bytes) -> str | None:
    return f"action: {ACTIONS[payload[0]]}" if len(payload) == 1 and payload[0] < len(ACTIONS) else None


def size_text(payload: bytes) -> str | None:
    return f"size {counted(int.from_bytes(payload, 'big'), 'byte')}" if len(payload) == 4 else None


def kind_text(payload: bytes) -> str | None:
    return f"type {plain(payload)}" if payload else None


READERS: dict[bytes, Callable[[bytes, int], str]] = {b"U": uri_text, b"T": text_text, b"Sp": poster_text}
PARTS: dict[bytes, Callable[[bytes], str | None]] = {b"act": action_text, b"s": size_text, b"t": kind_text}


def printable(text: str) -> str:
    """Text in one line: marks that can't be shown by their escapes."""
    return "".join(mark if mark.isprintable() else mark.encode("unicode_escape").decode("ascii") for mark in text)


def plain(name: bytes) -> str:
    """A name as text where it is printable ASCII, else in hexadecimal."""
    is_plain = bool(name) and all(0x20 < byte < 0x7F for byte in name)
    return name.decode("ascii") if is_plain else f"{name.hex().upper() or '-'}h"


def shown_text(payload: bytes) -> str | None:
    """A payload of a type that is text, where it is UTF-8."""
    try:
        return f"{counted(len(payload), 'byte')} of text: {printable(payload.decode('utf-8'))}"
    except UnicodeDecodeError:
        return None


def bytes_text(content: bytes) -> str:
    """How many bytes, and the first of them."""
    shown = content[:MOST_BYTES].hex().upper() + (".." if len(content) > MOST_BYTES else "")
    count = counted(len(content), "byte")
    return f"{count}: {shown}" if content else count
