"""The kinds of words that stand in a script's lines. Each tells its form, what is wrong with a word, and its value."""

from __future__ import annotations

import re
import string
from dataclasses import dataclass
from typing import Any, Protocol

from frames.words import counted, either

CASCADE_TAG = 0x88
LONGEST_MESSAGE = 65536
SHOWN = 32


class Kind(Protocol):
    """`name` is how docs/script.md calls the kind, `told` what a word of it looks like."""

    name: str

    @property
    def told(self) -> str: ...

    def fault(self, word: str) -> str | None:
        """What is wrong with a word, none where it is one of this kind."""

    def value(self, word: str) -> Any:
        """What a word of this kind says."""


def short(word: str) -> str:
    """A word in quotation marks, cut off where it is long."""
    return f"'{word}'" if len(word) <= SHOWN else f"'{word[:SHOWN]}..'"


@dataclass(frozen=True)
class Number:
    """A decimal number within two limits, and what it says."""

    name: str
    least: int
    most: int
    says: str = "a number"

    @property
    def told(self) -> str:
        return f"{self.says}: from {self.least} to {self.most}, decimal, without sign and leading zeros"

    def fault(self, word: str) -> str | None:
        if not re.fullmatch("[0-9]+", word):
            return f"{short(word)} is no decimal number"
        if word[0] == "0" and word != "0":
            return f"{short(word)} begins with a zero"
        if int(word) < self.least:
            return f"{word} is below {self.least}"
        return f"{short(word)} is above {self.most}" if int(word) > self.most else None

    def value(self, word: str) -> int:
        return int(word)


@dataclass(frozen=True)
class Hexadecimal:
    """Any bytes."""

    name: str = "HEX"
    told: str = "two hexadecimal digits a byte, or - for no bytes"

    def fault(self, word: str) -> str | None:
        return None if word == "-" else digits_fault(word)

    def value(self, word: str) -> bytes:
        return b"" if word == "-" else bytes.fromhex(word)


@dataclass(frozen=True)
class Payload:
    """The bytes of one payload of LLCP."""

    most: int = 2178
    name: str = "HEX"
    told: str = "a payload of 1 to 2178 bytes, two hexadecimal digits a byte"

    def fault(self, word: str) -> str | None:
        if word == "-":
            return "a payload has bytes, and - stands for none"
        fault = "a payload is missing" if not word else digits_fault(word)
        if fault is not None:
            return fault
        return f"a payload of {len(word) // 2} bytes is longer than {self.most}" if len(word) > 2 * self.most else None

    def value(self, word: str) -> bytes:
        return bytes.fromhex(word)


@dataclass(frozen=True)
class Frame:
    """A frame of the air, and how many bits of its last byte are sent where it isn't sent whole."""

    most: int = 288
    name: str = "FRAME"
    told: str = "HEX of at most 288 bytes, with /1 to /7 behind it where only so many low bits of the last byte are sent, and the others are 0"

    def fault(self, word: str) -> str | None:
        digits, slash, tail = word.partition("/")
        fault = Hexadecimal().fault(digits) if digits else "its digits are missing, and - stands for none"
        if fault is not None:
            return fault
        if slash and tail not in tuple("1234567"):
            return f"{short('/' + tail)} isn't /1 to /7, how many bits of the last byte are sent"
        content = Hexadecimal().value(digits)
        if len(content) > self.most:
            return f"a frame of {len(content)} bytes is longer than {self.most}"
        return tail_fault(content, int(tail)) if slash else None

    def value(self, word: str) -> tuple[bytes, int]:
        digits, _, tail = word.partition("/")
        return Hexadecimal().value(digits), int(tail or "0")


def tail_fault(content: bytes, tail: int) -> str | None:
    """What is wrong with a frame's last byte, of which the low bits are sent."""
    if not content:
        return "the empty frame has no byte to send in part"
    if content[-1] >= 1 << tail:
        return f"its last byte, {content[-1]:02X}h, has other bits than its low {tail}"
    return None


@dataclass(frozen=True)
class SlotPut:
    """What one client puts: the number of its slot, and a message behind the first colon."""

    name: str = "K:MSG"
    told: str = "the slot of a client, 0 to 7, and a message: 0:D1 or 3:gen:300:0"

    def fault(self, word: str) -> str | None:
        slot, colon, message = word.partition(":")
        if not colon:
            return f"{short(word)} has no colon between a slot and a message"
        missing = None if message else "the message is missing, and - stands for no bytes"
        return Number("K", 0, 7).fault(slot) or missing or Message().fault(message)

    def value(self, word: str) -> tuple[int, bytes]:
        slot, _, message = word.partition(":")
        return int(slot), Message().value(message)


@dataclass(frozen=True)
class Literally:
    """A word that stands as it is between others."""

    name: str

    @property
    def told(self) -> str:
        return f"the word {self.name}"

    def fault(self, word: str) -> str | None:
        return None if word == self.name else f"{short(word)} isn't {self.name}"

    def value(self, word: str) -> str:
        return word


def digits_fault(word: str) -> str | None:
    """What is wrong with hexadecimal digits, two for each byte."""
    if word[:2] in ("0x", "0X"):
        return f"{short(word)} begins with 0x, which isn't written here"
    wrong = next((mark for mark in word if mark not in string.hexdigits), None)
    if wrong is not None:
        return f"{short(word)} has {wrong!r}, which is no hexadecimal digit"
    return f"{short(word)} has an odd number of digits" if len(word) % 2 else None


@dataclass(frozen=True)
class Identifier:
    """A device's identifier, by the lengths that are allowed."""

    lengths: tuple[int, ...]
    told: str
    name: str = "ID"

    def fault(self, word: str) -> str | None:
        if word == "-":
            return "an identifier has bytes, and - stands for none"
        fault = digits_fault(word)
        return fault or self.bytes_fault(word, bytes.fromhex(word))

    def bytes_fault(self, word: str, ident: bytes) -> str | None:
        if len(ident) not in self.lengths:
            return f"{short(word)} has {counted(len(ident), 'byte')}, and this ID has {either(self.lengths)}"
        if len(ident) == 4 and ident[0] == CASCADE_TAG:
            return f"{word} begins with 88h, the cascade tag, which no ID of 4 bytes does"
        if len(ident) == 7 and ident[3] == CASCADE_TAG:
            return f"{word} has 88h, the cascade tag, as its fourth byte, which no ID of 7 bytes has"
        return None

    def value(self, word: str) -> bytes:
        return bytes.fromhex(word)


@dataclass(frozen=True)
class Size:
    """How many bytes a block has."""

    words: tuple[str, ...] = ("4", "8", "16", "32")
    name: str = "SIZE"

    @property
    def told(self) -> str:
        return f"how many bytes a block has: {either(self.words)}"

    def fault(self, word: str) -> str | None:
        return None if word in self.words else f"{short(word)} isn't {either(self.words)}"

    def value(self, word: str) -> int:
        return int(word)


@dataclass(frozen=True)
class Message:
    """Bytes, or so many counted ones."""

    name: str = "MSG"
    told: str = (
        f"HEX, or gen:N:S with N from 0 to {LONGEST_MESSAGE} and S from 0 to 255; "
        "`nfc.py ndef` makes HEX of a URI or a text"
    )

    def fault(self, word: str) -> str | None:
        if not word.startswith("gen:"):
            return Hexadecimal().fault(word)
        parts = word.split(":")
        if len(parts) != 3:
            return f"{short(word)} isn't gen:N:S"
        return Number("N", 0, LONGEST_MESSAGE).fault(parts[1]) or Number("S", 0, 255).fault(parts[2])

    def value(self, word: str) -> bytes:
        if not word.startswith("gen:"):
            return Hexadecimal().value(word)
        count, start = map(int, word.split(":")[1:])
        return (bytes(range(256)) * (count // 256 + 2))[start : start + count]


@dataclass(frozen=True)
class Name:
    """A service's name. All of a line is printable, and its words have no space, so its length alone can be wrong."""

    name: str = "NAME"
    told: str = "1 to 64 printable characters without a space"

    def fault(self, word: str) -> str | None:
        return f"a name of {len(word)} characters is longer than 64" if len(word) > 64 else None

    def value(self, word: str) -> str:
        return word


@dataclass(frozen=True)
class Fates:
    """A letter for each transmission."""

    name: str = "FATES"
    told: str = "1 to 4000 letters P, D, L or B: pass, damage, lose, break"

    def fault(self, word: str) -> str | None:
        wrong = next((mark for mark in word if mark not in "PDLB"), None)
        if wrong is not None:
            return f"letter {word.index(wrong) + 1} is {wrong!r}, and fates are P, D, L and B"
        return f"{len(word)} letters are more than 4000" if len(word) > 4000 else None

    def value(self, word: str) -> str:
        return word
