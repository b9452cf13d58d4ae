"""Which transmissions took which fates.

Fates stand in one queue: what a command doesn't take stays for the next, before those of a later `fates` line. Who
writes a `fates` line before each command expects each list to belong to one command, so what differs is told.
"""

from __future__ import annotations

from collections import Counter, deque
from typing import Iterable

from frames.line import frame_line
from frames.words import counted
from script.refusal import Line

MOST_NOTES = 3


class Transmissions:
    """How many transmissions each line of a script had, by the lines of its report."""

    def __init__(self) -> None:
        self.counts: Counter[int] = Counter()

    def count(self, line: str) -> None:
        if frame_line(line):
            self.counts[int(line.split(" ", 1)[0])] += 1


def fates_notes(lines: Iterable[Line], counts: Counter[int]) -> list[str]:
    """What of the fates a reader may not expect: those that a later list stood before, and those that are left."""
    queue: deque[tuple[int, str]] = deque()
    notes: list[str] = []
    last = 0
    for line in lines:
        if line.command.name == "fates":
            last = line.number
            queue.extend((last, letter) for letter in line.values[0])
        taken = Counter(queue.popleft()[0] for _ in range(min(counts[line.number], len(queue))))
        notes += taken_notes(line.number, taken, last)
    notes += left_notes(queue)
    more = len(notes) - MOST_NOTES
    return notes if more <= 0 else [*notes[:MOST_NOTES], f"and so {counted(more, 'time')} more"]


def taken_notes(number: int, taken: Counter[int], last: int) -> list[str]:
    """Of which lines before the last list a line took fates."""
    told = f"line {number} took {{}} of line {{}}, before those of line {last}"
    return [told.format(counted(count, "fate"), owner) for owner, count in taken.items() if owner != last]


def left_notes(queue: Iterable[tuple[int, str]]) -> list[str]:
    """Of which lines fates are left, where any of them would have done something."""
    left = list(queue)
    if all(letter == "P" for _, letter in left):
        return []
    counts = Counter(owner for owner, _ in left)
    return [f"{counted(count, 'fate')} of line {owner} still left" for owner, count in counts.items()]
