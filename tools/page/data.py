"""What ladder.js draws, made from a report: plain dictionaries, lists, texts and numbers."""

from __future__ import annotations

import re
from typing import Iterable, Sequence

from frames.entries import Entry, Event, entries
from frames.words import hexadecimal
from page.stores import Stores
from page.windows import Windows

MOST_SHOWN = 100
SELECTED = re.compile(r"SEL_RES: (.+), ([0-9A-F]+) is selected")
ALL = 0


class Columns:
    """The devices that the report tells, in the order in which they come; column 0 is the field, for all of them."""

    def __init__(self) -> None:
        self.places: dict[str, int] = {}
        self.kinds: dict[str, str] = {}

    def column(self, event: Event) -> int:
        if not event.device:
            return ALL
        selected = SELECTED.search(event.told)
        if selected:
            self.kinds[selected[2]] = selected[1]
        elif event.is_nfcv:
            self.kinds[event.device] = "Type 5 tag"
        elif event.is_nfcf:
            self.kinds[event.device] = "Type 3 tag"
        return self.places.setdefault(event.device, len(self.places) + 1)

    def told(self) -> list[dict[str, str]]:
        return [{"name": name, "kind": self.kinds.get(name, "")} for name in self.places]


def ladder_data(lines: Iterable[str], title: str, script: Sequence[str] = ()) -> dict[str, object]:
    """A report as what ladder.js takes: a title, the devices and the entries, each with its line of the script."""
    columns, windows = Columns(), Windows()
    drawn = [entry_data(entry, columns, windows) | command_data(entry, script) for entry in entries(lines)]
    return {"title": title, "devices": columns.told(), "entries": drawn}


def command_data(entry: Entry, script: Sequence[str]) -> dict[str, str]:
    """The line of the script, without what is too long to be shown; nothing where it isn't known."""
    place = int(entry.line) - 1
    if not 0 <= place < len(script):
        return {}
    text = script[place]
    return {"command": text if len(text) <= MOST_SHOWN else f"{text[:MOST_SHOWN]} .."}


def entry_data(entry: Entry, columns: Columns, windows: Windows) -> dict[str, object]:
    stores = Stores()
    frames = [event_data(event, columns, stores, windows) for event in entry.events]
    return {"line": entry.line, "answer": entry.answer, "frames": frames}


def event_data(event: Event, columns: Columns, stores: Stores, windows: Windows) -> dict[str, object]:
    """One row of the picture. What is empty is left out."""
    row = {
        "mark": event.mark,
        "frame": frame_text(event),
        "fate": event.fate,
        "words": event.told,
        "column": columns.column(event),
        "state": stores.state(event),
        "windows": windows.notes(event),
    }
    return {name: value for name, value in row.items() if value or name == "column"}


def frame_text(event: Event) -> str:
    """The frame as the report shows it; nothing of a reset."""
    if event.mark == "!":
        return ""
    tail = f"/{event.frame.tail}" if event.frame.tail else ""
    return hexadecimal(event.frame.data) + tail
