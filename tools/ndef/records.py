"""The records of a message: headers, chunks put together, and why bytes are no message."""

from __future__ import annotations

from dataclasses import dataclass

from frames.words import counted

BEGINS, ENDS, CHUNK, SHORT, HAS_ID, FORMAT_BITS = 0x80, 0x40, 0x20, 0x10, 0x08, 0x07
EMPTY, WELL_KNOWN, MIME, ABSOLUTE, EXTERNAL, UNKNOWN, UNCHANGED, RESERVED = range(8)


class NoMessage(ValueError):
    """Why some bytes are no NDEF message."""


@dataclass(frozen=True)
class Record:
    """A record: its type name format, type, identifier and payload, and in how many chunks it came."""

    form: int
    kind: bytes
    ident: bytes | None
    payload: bytes
    chunks: int = 1

    @property
    def encoded(self) -> bytes:
        """The bytes of a message of this record alone."""
        is_short = len(self.payload) < 256
        flags = BEGINS | ENDS | SHORT * is_short | HAS_ID * (self.ident is not None)
        lengths = bytes([flags | self.form, len(self.kind)]) + len(self.payload).to_bytes(1 if is_short else 4, "big")
        ident = b"" if self.ident is None else self.ident
        return lengths + bytes([len(ident)] * (self.ident is not None)) + self.kind + ident + self.payload


@dataclass(frozen=True)
class Piece:
    """A record as it stands, perhaps a chunk of one, and where the next begins."""

    flags: int
    record: Record
    end: int

    @property
    def goes_on(self) -> bool:
        return bool(self.flags & CHUNK)


def records_of(message: bytes) -> list[Record]:
    """The records of a message, chunks put together."""
    pieces = pieces_of(message)
    records: list[Record] = []
    goes_on = False
    for number, piece in enumerate(pieces, 1):
        if goes_on != (piece.record.form == UNCHANGED):
            what = "is no chunk, and one has to come" if goes_on else "is a chunk, and none has to come"
            raise NoMessage(f"record {number} {what}")
        if goes_on:
            records[-1] = joined(records[-1], piece.record, number)
        else:
            records.append(piece.record)
        goes_on = piece.goes_on
    if goes_on:
        raise NoMessage("the last chunk is missing")
    return records


def joined(begun: Record, chunk: Record, number: int) -> Record:
    """The record with one more chunk, which has neither a type nor an identifier of its own."""
    if chunk.kind or chunk.ident is not None:
        raise NoMessage(f"record {number} is a chunk, and has a type or an identifier of its own")
    return Record(begun.form, begun.kind, begun.ident, begun.payload + chunk.payload, begun.chunks + 1)


def pieces_of(message: bytes) -> list[Piece]:
    """What stands in a message one behind the other; the first alone says that it begins, the last that it ends."""
    pieces: list[Piece] = []
    start = 0
    while start < len(message):
        number = len(pieces) + 1
        if bool(message[start] & BEGINS) != (number == 1):
            says = "does not say" if number == 1 else "says"
            raise NoMessage(f"record {number} {says} that the message begins with it")
        piece = piece_at(message, start, number)
        if bool(piece.flags & ENDS) != (piece.end == len(message)):
            raise NoMessage(ending_fault(piece, number, len(message)))
        pieces.append(piece)
        start = piece.end
    if not pieces:
        raise NoMessage("it has no record")
    return pieces


def ending_fault(piece: Piece, number: int, length: int) -> str:
    if piece.flags & ENDS:
        return f"record {number} says that it is the last, with {counted(length - piece.end, 'byte')} behind it"
    return f"record {number} stands last, and does not say so"


def piece_at(message: bytes, start: int, number: int) -> Piece:
    """The record that begins here."""
    flags = message[start]
    cursor = Cursor(message, start + 1, number)
    kind_length = cursor.number_of(1, "the length of its type")
    length = cursor.number_of(1 if flags & SHORT else 4, "the length of its payload")
    ident_length = cursor.number_of(1, "the length of its identifier") if flags & HAS_ID else None
    kind = cursor.take(kind_length, "type")
    ident = None if ident_length is None else cursor.take(ident_length, "identifier")
    record = Record(flags & FORMAT_BITS, kind, ident, cursor.take(length, "payload"))
    check_format(record, number)
    return Piece(flags, record, cursor.place)


class Cursor:
    """A place in a message from which bytes are taken."""

    def __init__(self, message: bytes, place: int, number: int) -> None:
        self.message = message
        self.place = place
        self.number = number

    def take(self, count: int, what: str) -> bytes:
        left = len(self.message) - self.place
        if count > left:
            raise NoMessage(f"record {self.number} says {counted(count, 'byte')} of {what}, and {left} are there")
        self.place += count
        return self.message[self.place - count : self.place]

    def number_of(self, size: int, what: str) -> int:
        if self.place + size > len(self.message):
            raise NoMessage(f"record {self.number} is cut off before {what}")
        return int.from_bytes(self.take(size, what), "big")


def check_format(record: Record, number: int) -> None:
    """An empty record has nothing, and one of unknown type has no type."""
    if record.form == EMPTY and (record.kind or record.ident or record.payload):
        raise NoMessage(f"record {number} is an empty one, and isn't empty")
    if record.form == UNKNOWN and record.kind:
        raise NoMessage(f"record {number} is of unknown type, and has a type")
