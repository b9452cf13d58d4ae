"""Readers of PC/SC, by pyscard. Type 4: APDUs as they are. Type 2: READ by FF B0, WRITE by FF D6, as PC/SC part 3 has them for storage cards.

Such a reader hides a Type 2 tag's own answers: 9000h stands for the acknowledgement, any other status for a refusal (four bits, 0h). Written
from memory of pyscard and PC/SC, whose documents weren't at hand; tried neither with that library nor with a reader.
"""

from __future__ import annotations

from typing import Optional

from . import NoReader, NoTag

GET_UID = [0xFF, 0xCA, 0x00, 0x00, 0x00]
DONE = (0x90, 0x00)
ACKNOWLEDGED, REFUSED = (b"\x0a", 4), (b"\x00", 4)
STORAGE = bytes.fromhex("A000000306")


def is_storage(atr: list[int]) -> bool:
    """Whether an ATR names a storage card, by the identifier of PC/SC."""
    return STORAGE in bytes(atr)


class Reader:
    def __init__(self, name: str = "", kind: int = 0, ident: bytes = b""):
        try:
            from smartcard.Exceptions import CardConnectionException, NoCardException
            from smartcard.System import readers
        except ImportError:
            raise NoReader("the library pyscard isn't installed") from None
        self.gone, self.kind, self.connection = (CardConnectionException, NoCardException), 0, None
        named = [reader for reader in readers() if name in str(reader)]
        if not named:
            raise NoReader(f"no reader of PC/SC is named {name}" if name else "PC/SC has no reader")
        self.reader = named[0]

    def find(self) -> tuple[int, bytes]:
        self.connection = self.reader.createConnection()
        try:
            self.connection.connect()
            ident, *_ = self.connection.transmit(GET_UID)
        except self.gone:
            raise NoTag() from None
        self.kind = 2 if is_storage(self.connection.getATR()) else 4
        return self.kind, bytes(ident)

    def sent(self, command: list[int]) -> tuple[bytes, tuple[int, int]]:
        answer, high, low = self.connection.transmit(command)
        return bytes(answer), (high, low)

    def transceive(self, command: bytes) -> Optional[tuple[bytes, int]]:
        try:
            if self.kind == 4:
                answer, status = self.sent(list(command))
                return answer + bytes(status), 0
            if command[0] == 0x30:
                answer, status = self.sent([0xFF, 0xB0, 0x00, command[1], 16])
                return (answer, 0) if status == DONE and len(answer) == 16 else REFUSED
            _, status = self.sent([0xFF, 0xD6, 0x00, command[1], 4, *command[2:]])
            return ACKNOWLEDGED if status == DONE else REFUSED
        except self.gone:
            return None

    def close(self) -> None:
        if self.connection:
            self.connection.disconnect()
