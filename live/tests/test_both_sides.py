"""Each `read` and `write` of the stored scripts that met no noise, with both sides proved code: the tags of the library answer its reader and its
writer, with the frames and the answers of the reports. A part of them goes through `zev` and `live/tag.py`, over the pipe."""

from __future__ import annotations

import subprocess
import sys
import tempfile
import unittest
from pathlib import Path
from typing import Iterator

from tests.test_stored import KINDS, Entry, entries_of, message_of, scripts, told
from zevlodek import Type2Tag, Type4Tag, Type5Tag

LIVE = Path(__file__).resolve().parent.parent
Tag = Type2Tag | Type4Tag | Type5Tag


def placed(words: list[str]) -> Tag:
    """The tag that a line places."""
    kind, ident = KINDS[words[1]], bytes.fromhex(words[2])
    if kind == 4:
        container, file = message_of(words[4]), message_of(words[5])
        return Type4Tag(container, file.ljust(int.from_bytes(container[11:13], "big"), b"\0"))
    size = 4 if kind == 2 else int(words[4])
    memory = message_of(words[-1]).ljust(int(words[3]) * size, b"\0")
    return Type2Tag(memory) if kind == 2 else Type5Tag(ident, memory, size)


def fresh(tag: Tag) -> Tag:
    """The same tag as it comes into the field."""
    if isinstance(tag, Type4Tag):
        return Type4Tag(tag.container, tag.file)
    if isinstance(tag, Type2Tag):
        made = Type2Tag(bytes(tag.memory))
    else:
        made = Type5Tag(tag.ident, bytes(tag.memory), tag.block)
    made.locks = tag.locks
    return made


def rows_of(script: Path) -> Iterator[tuple[Entry, Tag]]:
    """Each such line with its tag, which is as the lines before leave it. A write that met noise, and frames by hand, leave it unknown."""
    answers: dict[int, str] = {}
    for line in script.with_name(script.name + ".stdout").read_text(errors="replace").split("\n"):
        number, _, text = line.partition(" ")
        if number.isdigit():
            answers[int(number)] = text
    entries, tags = {entry.name.split(" ")[-1]: entry for entry in entries_of(script)}, {}
    for number, line in enumerate(script.read_text(errors="replace").split("\n"), 1):
        words = line.split(" ")
        if words[0] == "place" and words[1] in KINDS and answers.get(number) == "ok":
            tags[words[2]] = placed(words)
        elif words[0] == "lock" and answers.get(number) == "ok" and isinstance(tags.get(words[1]), (Type2Tag, Type5Tag)):
            locks = bytearray(tags[words[1]].locks)
            locks[int(words[2])] = 1
            tags[words[1]].locks = bytes(locks)
        elif len(words) > 1 and words[1] in tags and str(number) in entries:
            tags[words[1]] = fresh(tags[words[1]])
            yield entries[str(number)], tags[words[1]]
        elif words[0] == "raw":
            tags.clear()
        elif words[0] == "write" and answers.get(number) not in ("not found", "wrong kind"):
            tags.pop(words[1], None)


class InMemory(unittest.TestCase):
    def test_frames_and_answers(self):
        seen = {kind: 0 for kind in KINDS.values()}
        for script in scripts():
            for entry, tag in rows_of(script):
                turns = [(command, tag.obey(command)) for command, _ in entry.turns]
                with self.subTest(entry.name):
                    self.assertEqual(turns, entry.turns)
                    self.assertEqual(told(entry._replace(turns=turns)), (entry.answer, len(turns)))
                    seen[entry.kind] += 1
        self.assertGreater(min(seen.values()), 50, seen)


class OverThePipe(unittest.TestCase):
    def check(self, entry: Entry, tag: Tag, folder: str) -> None:
        file, report = Path(folder) / "tag", Path(folder) / "report"
        file.write_bytes(bytes(tag.memory))
        locked = [str(number) for number, lock in enumerate(getattr(tag, "locks", b"")) if lock]
        words = ["--type", str(entry.kind), *(("--id", entry.ident.hex()) if entry.kind == 5 else ())]
        block = ["--block", str(tag.block)] if isinstance(tag, Type5Tag) else ["--container", str(len(getattr(tag, "container", b"")))]
        over = " ".join([f"pipe:{sys.executable} {LIVE / 'tag.py'} {file}", *words, *block, *(["--locked", *locked] if locked else [])])
        job = ["read"] if entry.message is None else ["write", entry.message.hex() or "-"]
        subprocess.run([sys.executable, LIVE / "zev", *job, "--reader", over, *words, "--report", report], capture_output=True, timeout=60)
        frames = [line.split(" ")[1:3] for line in report.read_text().split("\n") if line.endswith(" pass")]
        wanted = [[sign, spelled(*frame)] for turn in entry.turns for sign, frame in ((">", (turn[0], 0)), ("<", turn[1]))]
        self.assertEqual(frames, wanted)

    def test_frames(self):
        with tempfile.TemporaryDirectory() as folder:
            short = [(entry, fresh(tag)) for script in scripts() for entry, tag in self.each(script) if len(entry.message or b"") < 200]
            for entry, tag in short[::61]:
                with self.subTest(entry.name):
                    self.check(entry, tag, folder)

    def each(self, script: Path) -> Iterator[tuple[Entry, Tag]]:
        """Each row with the tag as it is before."""
        for entry, tag in rows_of(script):
            before = fresh(tag)
            for command, _ in entry.turns:
                tag.obey(command)
            yield entry, before


def spelled(content: bytes, bits: int) -> str:
    return (content.hex().upper() or "-") + (f"/{bits}" if bits else "")


if __name__ == "__main__":
    unittest.main()
