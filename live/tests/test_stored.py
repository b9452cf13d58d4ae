"""Each `read` and `write` of the stored scripts that met no noise: the library, fed with the report's answers, sends its commands and tells its answer."""

from __future__ import annotations

import re
import unittest
from pathlib import Path
from typing import Iterator, NamedTuple

from zevlodek import Fault, read, write

ROOT = Path(__file__).resolve().parent.parent.parent
TEXTS = {
    -101: "not ndef", -102: "version", -103: "no read", -104: "sectors", -105: "bad size", -106: "no message tlv", -107: "bad tlv",
    -112: "read only", -114: "short mlc",
}  # fmt: skip
OTHER = re.compile(r"not found|wrong kind|disturbed|field lost|six bad")
KINDS = {"t2": 2, "t4": 4, "t5": 5}


class Entry(NamedTuple):
    """A line of a script that reads or writes, with its frames and its answer."""

    name: str
    kind: int
    ident: bytes
    message: bytes | None
    turns: list[tuple[bytes, tuple[bytes, int]]]
    answer: str


def message_of(word: str) -> bytes:
    if word.startswith("gen:"):
        _, count, start = word.split(":")
        return bytes((int(start) + i) % 256 for i in range(int(count)))
    return bytes.fromhex("" if word == "-" else word)


def frame_of(text: str) -> tuple[bytes, int]:
    digits, _, tail = text.partition("/")
    return bytes.fromhex("" if digits == "-" else digits), int(tail or 0)


def is_command(kind: int, frame: bytes, tail: int) -> bool:
    """Whether a request is one of the tag's commands, and none of polling."""
    if tail:
        return False
    if kind == 2:
        return (len(frame), frame[:1]) in ((2, b"\x30"), (6, b"\xa2"))
    return len(frame) >= 11 and frame[0] == 0x22 if kind == 5 else frame[:1] in (b"\x02", b"\x03") and len(frame) > 3


def turns_of(kind: int, lines: list[str]) -> list[tuple[bytes, tuple[bytes, int]]] | None:
    """The tag's commands with their answers; none where the link of a Type 4 tag cut one, asked again or was asked for time."""
    turns, asked = [], None
    for line in lines:
        sign, text = line.split(" ")[1:3]
        frame, tail = frame_of(text) if sign in "<>" else (b"", 0)
        if sign == ">":
            asked = frame if is_command(kind, frame, tail) else None
            if kind == 4 and frame[:1] in (b"\x12", b"\x13", b"\xa2", b"\xa3", b"\xb2", b"\xb3", b"\xf2"):
                return None
        elif sign == "<" and asked is not None:
            if kind == 4 and frame[:1] not in (b"\x02", b"\x03"):
                return None
            cut = 1 if kind == 4 else 0
            turns.append((asked[cut:], (frame[cut:], tail)))
    return turns


def entries_of(script: Path) -> Iterator[Entry]:
    report: dict[int, list[str]] = {}
    for line in script.with_name(script.name + ".stdout").read_text(errors="replace").split("\n"):
        number = line.split(" ")[0]
        if number.isdigit():
            report.setdefault(int(number), []).append(line)
    kinds: dict[bytes, int] = {}
    for number, line in enumerate(script.read_text(errors="replace").split("\n"), 1):
        words = line.split(" ")
        *lines, last = report.get(number, [""])
        if words[0] == "place" and words[1] in KINDS and last:
            kinds[bytes.fromhex(words[2])] = KINDS[words[1]]
        if words[0] not in ("read", "write") or len(words) < 2 or not last or OTHER.search(last) or not all(row.endswith(("pass", "reset")) for row in lines):
            continue
        ident = bytes.fromhex(words[1])
        turns = turns_of(kinds[ident], lines) if ident in kinds else None
        if turns:
            message = message_of(words[2]) if words[0] == "write" else None
            yield Entry(f"{script.parent.name}/{script.name} {number}", kinds[ident], ident, message, turns, last.partition(" ")[2])


def scripts() -> Iterator[Path]:
    for folder in [*sorted((ROOT / "tests/cases").iterdir()), ROOT / "examples"]:
        for report in sorted(folder.glob("*.stdout")):
            script = report.with_suffix("")
            words = script.with_name(script.name + ".args")
            if folder.name not in ("sweep", "audit") and script.exists() and not (words.exists() and "run" != words.read_text().strip()):
                yield script


def told(entry: Entry) -> tuple[str, int]:
    """The answer in a report's words, and how many commands were sent."""
    ident = entry.ident if entry.kind == 5 else b""
    job = read(entry.kind, ident) if entry.message is None else write(entry.kind, ident, entry.message)
    sent = 0
    try:
        command = next(job)
        for wanted, answer in entry.turns:
            if command != wanted:
                return f"sends {command.hex()} and not {wanted.hex()}", sent
            sent += 1
            command = job.send(answer)
        return f"sends {command.hex()} more", sent
    except StopIteration as end:
        if end.value is None:
            return "written", sent
        return f"message {end.value.message.hex().upper() or '-'} {'writable' if end.value.writable else 'readonly'}", sent
    except Fault as fault:
        if fault.number == -108:
            return f"refused {fault.code:04X}", sent
        return TEXTS.get(fault.number, f"too long {fault.capacity}"), sent


class Stored(unittest.TestCase):
    def test_frames_and_answers(self):
        seen = {kind: 0 for kind in KINDS.values()}
        for script in scripts():
            for entry in entries_of(script):
                with self.subTest(entry.name):
                    self.assertEqual(told(entry), (entry.answer, len(entry.turns)))
                    seen[entry.kind] += 1
        self.assertGreater(min(seen.values()), 50, seen)


if __name__ == "__main__":
    unittest.main()
