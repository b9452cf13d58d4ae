"""Tags of Types 4 and 5 for tests, in plain Python: what they answer to the commands that the reader and the writer send."""

from __future__ import annotations

from typing import Optional

OK = b"\x90\x00"


class Type4Tag:
    """A container and an NDEF file behind APDUs."""

    def __init__(self, message: bytes, size: int = 0x7FFF):
        self.container = bytes.fromhex("000F20003B00340406E104") + size.to_bytes(2, "big") + b"\0\0"
        self.file = bytearray((len(message).to_bytes(2, "big") + message).ljust(size, b"\0"))
        self.current: Optional[bytearray] = None

    def obey(self, command: bytes) -> tuple[bytes, int]:
        return self.answer(command), 0

    def answer(self, command: bytes) -> bytes:
        if command[:4] == bytes.fromhex("00A40400"):
            return OK
        offset = int.from_bytes(command[2:4], "big")
        if command[:4] == bytes.fromhex("00A4000C"):
            named = {b"\xe1\x03": bytearray(self.container), b"\xe1\x04": self.file}
            self.current = named.get(command[5:7])
            return OK if self.current is not None else b"\x6a\x82"
        if command[1] == 0xB0:
            return bytes(self.current[offset : offset + command[4]]) + OK
        self.current[offset : offset + command[4]] = command[5:]
        return OK


class Type5Tag:
    """Blocks of four bytes, with READ, WRITE and READ MULTIPLE; block 3 may be locked."""

    def __init__(self, ident: bytes, memory: bytes, locked: tuple[int, ...] = ()):
        self.name, self.memory, self.locked = ident[::-1], bytearray(memory), locked

    def obey(self, command: bytes) -> Optional[tuple[bytes, int]]:
        if command[0] != 0x22 or command[2:10] != self.name:
            return None
        return self.answer(command[1], command[10], command[11:]), 0

    def answer(self, code: int, block: int, rest: bytes) -> bytes:
        last = block + (rest[0] if code == 0x23 else 0)
        if 4 * last >= len(self.memory):
            return b"\x01\x10"
        if code == 0x21:
            if block in self.locked:
                return b"\x01\x12"
            self.memory[4 * block : 4 * block + 4] = rest
            return b"\0"
        return b"\0" + bytes(self.memory[4 * block : 4 * last + 4])
