"""Which line of a script is refused first, and why: the limits, the grammar, then the context conditions."""

from __future__ import annotations

import difflib
from dataclasses import dataclass
from typing import Any, Iterator

from frames.words import counted, either
from script.field import Field, NotAccepted
from script.grammar import COMMANDS, FIRST_WORDS, PLACES, VERBS, Command
from script.kinds import Kind, short

MOST_LINES = 1000
LONGEST_LINE = 4096
BYTE_ORDER_MARK = b"\xef\xbb\xbf"


class Refused(Exception):
    """What is wrong with a line, and what would have been right, as far as the line tells what was meant."""

    def __init__(self, reason: str, command: Command | None = None, kind: Kind | None = None) -> None:
        super().__init__(reason)
        self.command = command
        self.kind = kind


@dataclass(frozen=True)
class Line:
    """A line that is obeyed: its number, its command, and what the words behind it say."""

    number: int
    command: Command
    values: list[Any]


@dataclass(frozen=True)
class Refusal:
    """The first line that is refused."""

    number: int
    line: bytes
    fault: Refused

    @property
    def told(self) -> list[str]:
        """The reason, and the form that was expected."""
        fault = self.fault
        told = [f"line {self.number} is refused: {fault}"]
        text = self.line.decode("utf-8", "backslashreplace").rstrip("\r")
        if text and text.isprintable():
            told.append(f"  it is:     {text if len(text) <= 80 else text[:80] + '..'}")
        if fault.command is not None:
            told.append(f"  expected:  {fault.command.form}")
        if fault.kind is not None:
            told.append(f"  {fault.kind.name} is {fault.kind.told}")
        elif fault.command is not None and fault.command.where:
            told.append(f"  accepted where {fault.command.where}")
        return told


@dataclass(frozen=True)
class Script:
    """What a script's text says: the lines up to the first that is refused, and that one, if there is one."""

    obeyed: list[Line]
    refusal: Refusal | None
    count: int


def read_script(content: bytes) -> Script:
    field = Field()
    obeyed = []
    number = 0
    for number, line in enumerate(lines_of(content), 1):
        try:
            read = read_line(field, number, line)
        except Refused as fault:
            return Script(obeyed, Refusal(number, line, fault), number)
        if read is not None:
            obeyed.append(read)
    return Script(obeyed, None, number)


def lines_of(content: bytes) -> Iterator[bytes]:
    """The lines without their LF; behind the last LF there is none."""
    lines = content.split(b"\n")
    return iter(lines if lines[-1] else lines[:-1])


def read_line(field: Field, number: int, line: bytes) -> Line | None:
    """What a line says, none where it asks for nothing. The field is changed as it says."""
    if number > MOST_LINES:
        raise Refused(f"a script has at most {MOST_LINES} lines, comments and empty ones too")
    if len(line) > LONGEST_LINE:
        raise Refused(f"it has {len(line)} bytes, and a line has at most {LONGEST_LINE}")
    if not line or line.startswith(b"#"):
        return None
    check_bytes(line)
    text = line.decode("ascii")
    check_spaces(text)
    command, words = command_of(text.split(" "))
    check_words(command, words)
    values = command.values(words)
    field.line = number
    try:
        command.obey(field, *values)
    except NotAccepted as problem:
        raise Refused(str(problem), command) from None
    return Line(number, command, values)


def check_bytes(line: bytes) -> None:
    """A line is spelled in printable ASCII. What editors put there is told by its name."""
    if line.startswith(BYTE_ORDER_MARK):
        raise Refused("a byte order mark stands before it (save the file as UTF-8 without one)")
    if line.endswith(b"\r"):
        raise Refused("it ends with CR LF, and a line ends with LF alone (tr -d '\\r' takes CRs away)")
    if b"\t" in line:
        raise Refused("it has a tab, and words are parted by one space each")
    place = next((place for place, byte in enumerate(line) if not 0x20 <= byte <= 0x7E), None)
    if place is not None:
        raise Refused(f"byte {place + 1} is {line[place]:02X}h, which is no printable ASCII")


def check_spaces(text: str) -> None:
    if text.startswith(" "):
        raise Refused("a space stands before it, and even a comment has none")
    if text.endswith(" "):
        raise Refused("a space stands at its end")
    if "  " in text:
        raise Refused("two spaces stand in a row, and words are parted by one")


def command_of(words: list[str]) -> tuple[Command, list[str]]:
    """The command that the first word names, the first two words of a place, or the first and third of `on`; and the words behind."""
    first = words[0]
    if first not in FIRST_WORDS:
        raise Refused(f"there is no command {short(first)}{likely(first, FIRST_WORDS)}")
    if first == "on":
        return COMMANDS[f"on {verb_of(words)}"], words[1:]
    if first != "place":
        return COMMANDS[first], words[1:]
    kind = words[1] if len(words) > 1 else ""
    if kind not in PLACES:
        what = f"{short(kind)} is no kind of device{likely(kind, PLACES)}" if kind else "the kind of device is missing"
        raise Refused(f"{what}: behind place stands {either(PLACES)}")
    return COMMANDS[f"place {kind}"], words[2:]


def verb_of(words: list[str]) -> str:
    """What the client of a slot does."""
    verb = words[2] if len(words) > 2 else ""
    if verb not in VERBS:
        what = f"{short(verb)} is nothing that a slot does{likely(verb, VERBS)}" if verb else "what the slot does is missing"
        raise Refused(f"{what}: behind on and a slot stands {either(VERBS)}")
    return verb


def likely(word: str, known: tuple[str, ...]) -> str:
    """Which word was probably meant."""
    near = difflib.get_close_matches(word.lower(), known, 1)
    return f" (perhaps {near[0]})" if near else ""


def check_words(command: Command, words: list[str]) -> None:
    kinds = command.kinds_of(len(words))
    if kinds is None:
        wanted = len(command.kinds)
        needs = f"needs {counted(wanted, 'word')} behind it" if wanted else "has no word behind it"
        needs = f"needs {wanted} to {wanted + command.most - 1} words behind it" if command.most > 1 else needs
        here = f"here {'is' if len(words) == 1 else 'are'} {len(words) or 'none'}"
        raise Refused(f"{command.first} {needs}, and {here}", command)
    for kind, word in zip(kinds, words, strict=True):
        fault = kind.fault(word)
        if fault is not None:
            raise Refused(f"{kind.name}: {fault}", command, kind)
