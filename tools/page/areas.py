"""The message in a memory of which a report tells some bytes (docs/areas.md)."""

from __future__ import annotations

from typing import Iterator

NULL, LOCK_CONTROL, MEMORY_CONTROL, NDEF, TERMINATOR = 0x00, 0x01, 0x02, 0x03, 0xFE
LONG_LENGTH = 0xFF
T2_MAGIC, T5_MAGICS = 0xE1, (0xE1, 0xE2)
T2_CONTAINER, T2_AREA = 12, 16


class Memory(dict[int, bytes]):
    """The bytes that are known, by their addresses. A byte that isn't known is a KeyError."""

    def put(self, address: int, content: bytes) -> None:
        for place, byte in enumerate(content):
            self[address + place] = byte


def message_t2(memory: Memory) -> bytes | None:
    """The message of a Type 2 tag; nothing where it has none, or where too little is known."""
    try:
        if memory[T2_CONTAINER] != T2_MAGIC:
            return None
        return message(memory, T2_AREA, T2_AREA + 8 * memory[T2_CONTAINER + 2], True)
    except (KeyError, StopIteration):
        return None


def message_t5(memory: Memory) -> bytes | None:
    """The message of a Type 5 tag, whose container has four bytes or eight."""
    try:
        if memory[0] not in T5_MAGICS:
            return None
        is_short = memory[2] != 0
        blocks, start = (memory[2], 4) if is_short else (256 * memory[6] + memory[7], 8)
        return message(memory, start, start + 8 * blocks, False)
    except (KeyError, StopIteration):
        return None


def message(memory: Memory, start: int, end: int, reserves: bool) -> bytes | None:
    """The value of the first NDEF TLV from `start` on. Control TLVs reserve bytes behind themselves, or nothing."""
    reserved: set[int] = set()
    free = (address for address in range(start, end) if address not in reserved)
    while True:
        kind = memory[next(free)]
        if kind == TERMINATOR:
            return None
        if kind == NULL:
            continue
        length = length_at(memory, free)
        if kind == NDEF:
            return bytes([memory[next(free)] for _ in range(length)])
        places = [next(free) for _ in range(length)]
        if reserves and kind in (LOCK_CONTROL, MEMORY_CONTROL) and length == 3:
            reserved |= reserved_by(kind, [memory[place] for place in places], places[-1])


def length_at(memory: Memory, free: Iterator[int]) -> int:
    """A length of one byte, or of two behind FFh."""
    first = memory[next(free)]
    return first if first != LONG_LENGTH else 256 * memory[next(free)] + memory[next(free)]


def reserved_by(kind: int, value: list[int], last: int) -> set[int]:
    """The addresses behind a control TLV that it reserves; `last` is the address of its own last byte."""
    position, size, control = value
    begin = (position >> 4) * 2 ** (control & 15) + (position & 15)
    size = size or 256
    count = (size + 7) // 8 if kind == LOCK_CONTROL else size
    return {address for address in range(begin, begin + count) if address > last}
