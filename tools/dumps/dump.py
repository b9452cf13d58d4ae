"""What a dump says, whatever its format, and how its parts are put together."""

import string
from typing import NamedTuple, Optional

from faults import BadInput

T2_BLOCK_SIZE = 4
CASCADE_TAG = 0x88
ISO15693_FIRST = 0xE0


class DumpError(BadInput):
    """Why no line can be made of a dump."""


class Dump(NamedTuple):
    """What a file holds, and what it says of the tag: its kind, identifier and block size, where it says them.

    `header` says how many bytes stand before the memory, if it is that of a Type 2 tag.
    """

    memory: bytes
    kind: Optional[str] = None
    ident: Optional[bytes] = None
    block_size: Optional[int] = None
    header: int = 0


def hex_bytes(text, what):
    """The bytes that hexadecimal digits spell, with any space between them."""
    digits = "".join(text.split())
    wrong = next((mark for mark in digits if mark not in string.hexdigits), None)
    if wrong is not None:
        raise DumpError(f"{what}: {wrong!r} is no hexadecimal digit")
    if len(digits) % 2:
        raise DumpError(f"{what}: an odd number of hexadecimal digits")
    return bytes.fromhex(digits)


def joined(parts, what):
    """The parts by their numbers joined into one memory; none may be missing."""
    if not parts:
        raise DumpError(f"the dump has no {what}s")
    missing = next((number for number in range(max(parts)) if number not in parts), None)
    if missing is not None:
        raise DumpError(f"{what} {missing} is missing")
    return b"".join(parts[number] for number in sorted(parts))


def check_length(part, what, size):
    if len(part) != size:
        raise DumpError(f"{what} has {len(part)} bytes, not {size}")


def high_first(ident):
    """An identifier of ISO 15693, which begins with E0, turned round where it ends so instead."""
    is_turned = bool(ident) and ident[-1] == ISO15693_FIRST != ident[0]
    return ident[::-1] if is_turned else ident


def has_check_bytes(memory):
    """Whether bytes 3 and 8 of a Type 2 memory are the check bytes of the identifier beside them."""
    if len(memory) < 9:
        return False
    return memory[3] == CASCADE_TAG ^ xor_of(memory[0:3]) and memory[8] == xor_of(memory[4:8])


def xor_of(content):
    result = 0
    for byte in content:
        result ^= byte
    return result
