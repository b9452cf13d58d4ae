"""Scripts with one to three faults each, made from a seed: what tools/tests/test_why_agrees.py runs."""

from __future__ import annotations

import random
import re
from typing import Callable, Iterable

from script.grammar import FIRST_WORDS, IN_ORDER
from script.kinds import Kind, Number, Size

IDS = ("01020304", "88020304", "04112233445566", "04112288445566", "0A112233445566778899", "E004010203040506",
       "08010203")  # fmt: skip
NUMBERS = (0, 1, 2, 3, 4, 5, 6, 8, 9, 15, 16, 17, 31, 32, 33, 59, 60, 127, 128, 255, 256, 257, 1023, 1024, 2047, 2048,
           2049, 2175, 2176, 16384, 16385, 32767, 65535, 65536, 65537)  # fmt: skip
BYTES = (b" ", b"\t", b"\r", b"\0", b"\x7f", b"\xc3\xa4", b"#", b"-", b":", b"+", b"x", b"0", b"F", b"g", b"~")
CONTAINER = "000F20003B00340406E1{}{:04X}0000{}"
WORDS = {
    "HEX": ("-", "00", "0fF0", "ABC", "00" * 40, "000000000000000000000000E1100600")
    + tuple(CONTAINER.format(*word) for word in (("04", 0, ""), ("04", 50, "FF"), ("03", 9, ""), ("04", 0x7FFF, ""),
                                                ("04", 0x8000, ""), ("05", 9, "00" * 49), ("05", 9, "00" * 50))),
    "MSG": ("-", "D00000", "gen:65536:255", "gen:65537:0", "gen:0:256", "gen:1", "gen:01:2", "gen:2:2:2", "gen:3:4"),
    "NAME": ("urn:nfc:sn:sdp", "a", "~" * 64, "~" * 65, "-"),
    "FRAME": ("-", "26/7", "9320", "3000", "A205AABBCCDD", "26/8", "26/0", "A6/7", "-/3", "300", "00" * 288, "00" * 289),
    "K:MSG": ("0:D1", "1:gen:300:7", "7:-", "8:D1", "01:D1", "2:", "D1", "0:gen:1"),
    "put": ("put", "put", "get"),
    "get": ("get", "get", "lookup"),
    "FATES": ("P", "PDLB", "-", "p", "P" * 4000, "P" * 4001),
}  # fmt: skip
CONTAINER_PLACES = (9, 10, 11, 12, 13, 14)
CONTAINER_BYTES = ("00", "01", "06", "0C", "0D", "3E", "3F", "7E", "7F", "80", "E1", "E2", "03", "FF")

Lines = list[bytes]
Mutation = Callable[[random.Random, Lines], None]


def mutants(seeds: Iterable[bytes], count: int, seed: int) -> Iterable[bytes]:
    """So many scripts, each one of the seeds with a few mutations."""
    chance = random.Random(seed)
    originals = sorted(seeds)
    for _ in range(count):
        lines = chance.choice(originals).split(b"\n")
        for _ in range(chance.choice((1, 1, 2, 3))):
            chance.choice(MUTATIONS)(chance, lines)
        yield b"\n".join(lines)


def place_of(chance: random.Random, lines: Lines) -> int:
    """A line that says something, if any does."""
    spoken = [place for place, line in enumerate(lines) if line and not line.startswith(b"#")]
    return chance.choice(spoken) if spoken else 0


def change_words(chance: random.Random, lines: Lines, change: Callable[[list[bytes]], None]) -> None:
    if lines:
        place = place_of(chance, lines)
        words = lines[place].split(b" ")
        change(words)
        lines[place] = b" ".join(words)


def one_byte(chance: random.Random, lines: Lines) -> None:
    """A byte goes, comes or is another one, at any place of any line."""
    if not lines:
        return
    place = chance.randrange(len(lines))
    at = chance.randrange(len(lines[place]) + 1)
    behind = at + chance.randrange(2)
    lines[place] = lines[place][:at] + chance.choice(BYTES + (b"",)) + lines[place][behind:]


def another_word(chance: random.Random, lines: Lines) -> None:
    """A word becomes another one of the script."""
    words_of_all = [word for line in lines if not line.startswith(b"#") for word in line.split(b" ")] or [b""]

    def change(words: list[bytes]) -> None:
        words[chance.randrange(len(words))] = chance.choice(words_of_all)

    change_words(chance, lines, change)


def another_number(chance: random.Random, lines: Lines) -> None:
    """A number becomes one at a limit, with a zero or a sign before it now and then."""
    number = chance.choice(("", "", "", "", "0", "+", "-")) + str(chance.choice(NUMBERS))

    def change(words: list[bytes]) -> None:
        numbers = [place for place, word in enumerate(words) if word.isdigit() and len(word) < 6] or [len(words) - 1]
        words[chance.choice(numbers)] = number.encode()

    change_words(chance, lines, change)


def another_identifier(chance: random.Random, lines: Lines) -> None:
    def change(words: list[bytes]) -> None:
        place = 2 if words[0] == b"place" else 1
        if len(words) > place:
            words[place] = chance.choice(IDS).encode()
            words[place] = words[place].lower() if chance.randrange(4) == 0 else words[place]

    change_words(chance, lines, change)


def another_count_of_words(chance: random.Random, lines: Lines) -> None:
    def change(words: list[bytes]) -> None:
        place = chance.randrange(len(words))
        words[place : place + chance.randrange(2)] = [words[place]] * chance.randrange(3)

    change_words(chance, lines, change)


def turned_words(chance: random.Random, lines: Lines) -> None:
    def change(words: list[bytes]) -> None:
        first, second = chance.randrange(len(words)), chance.randrange(len(words))
        words[first], words[second] = words[second], words[first]

    change_words(chance, lines, change)


def another_command(chance: random.Random, lines: Lines) -> None:
    def change(words: list[bytes]) -> None:
        words[0] = chance.choice(FIRST_WORDS).encode()

    change_words(chance, lines, change)


def store_bytes(chance: random.Random, lines: Lines) -> None:
    """A byte of a memory or a container is another one, where what it says of sizes stands."""
    placed = [place for place, line in enumerate(lines) if line.startswith(b"place t")]
    if not placed:
        return
    place = chance.choice(placed)
    words = lines[place].split(b" ")
    content = len(words) - 1 - (words[1:2] == [b"t4"])
    at = 2 * chance.choice(CONTAINER_PLACES)
    words[content] = words[content][:at] + chance.choice(CONTAINER_BYTES).encode() + words[content][at + 2 :]
    lines[place] = b" ".join(words)


def longer_or_shorter_store(chance: random.Random, lines: Lines) -> None:
    def change(words: list[bytes]) -> None:
        place = len(words) - 1 - chance.randrange(2)
        cut = chance.randrange(len(words[place]) + 1)
        longer = words[place] + b"00" * chance.choice((1, 4, 50))
        words[place] = chance.choice((words[place][:cut], longer, b"-"))

    change_words(chance, lines, change)


def moved_lines(chance: random.Random, lines: Lines) -> None:
    """A line goes, stands twice, or stands elsewhere."""
    if not lines:
        return
    line = lines.pop(chance.randrange(len(lines)))
    for _ in range(chance.randrange(3)):
        lines.insert(chance.randrange(len(lines) + 1), line)


def made_line(chance: random.Random, lines: Lines) -> None:
    """A line as the grammar makes it, with words at their limits, stands somewhere."""
    command = chance.choice(IN_ORDER)
    told = [one_word(chance, kind, lines) for kind in command.kinds]
    lines.insert(chance.randrange(len(lines) + 1), " ".join([command.first] + told).encode())


def one_word(chance: random.Random, kind: Kind, lines: Lines) -> str:
    """A word of this kind, and now and then one that is just none."""
    if isinstance(kind, Number):
        inside = chance.randint(kind.least, kind.most)
        return str(chance.choice((kind.least, kind.most, inside, inside, inside, kind.most + 1, kind.least - 1)))
    if isinstance(kind, Size):
        return chance.choice(kind.words)
    if kind.name == "ID":
        spelled = [line.split(b" ")[2].decode("latin-1") for line in lines if re.match(rb"place \S+ \S", line)]
        return chance.choice(spelled * 3 + list(IDS))
    return chance.choice(WORDS[kind.name])


def limits(chance: random.Random, lines: Lines) -> None:
    """A line at its limit of bytes, a script at its limit of lines, or devices at theirs."""
    at = chance.randrange(len(lines) + 1)
    length = chance.choice((4095, 4096, 4097))
    many = [b""] * (chance.choice((999, 1000, 1001)) - len(lines))
    crowd = [b"place peer 0801%04X 0 128 1 1024" % number for number in range(chance.choice((14, 15, 16, 17)))]
    comment = b"#".ljust(length, b" ")
    hexadecimal = b"put ".ljust(length, b"0")
    lines[at:at] = chance.choice((many, crowd, [comment], [hexadecimal]))


def other_ends(chance: random.Random, lines: Lines) -> None:
    """The ends of lines or the begin of a file as other systems write them."""
    if not lines:
        return
    if chance.randrange(3) == 0:
        lines[0] = b"\xef\xbb\xbf" + lines[0]
    elif chance.randrange(2):
        lines[:] = [line + b"\r" for line in lines]
    elif lines[-1] == b"":
        lines.pop()


MUTATIONS: tuple[Mutation, ...] = (
    one_byte,
    one_byte,
    another_word,
    another_number,
    another_number,
    another_identifier,
    another_identifier,
    another_count_of_words,
    turned_words,
    another_command,
    store_bytes,
    store_bytes,
    store_bytes,
    longer_or_shorter_store,
    moved_lines,
    moved_lines,
    made_line,
    made_line,
    made_line,
    limits,
    other_ends,
)
