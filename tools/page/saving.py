"""One file of a script: the page, its report, and the run of each place of its slider, with nothing from outside.

The runs are packed. They go in from coarse to fine, so where the file would grow too large, or the runs take too long,
what is left out lies evenly between what is inside.
"""

from __future__ import annotations

import base64
import json
import time
import zlib
from collections import Counter
from concurrent.futures import ThreadPoolExecutor
from contextlib import closing
from dataclasses import dataclass
from itertools import takewhile
from typing import Any, Callable, Iterator

from frames.words import counted
from page.file import as_json
from page.parts import FRAME, SCRIPTS, STYLES, joined
from page.running import never
from page.shown import shown
from page.sliding import FATES, WORKERS, Slider, coarse_to_fine

STYLE = '<link rel="stylesheet" href="page.css">'
SCRIPT = '<script src="page.js"></script>'
CHARSET = '<meta charset="utf-8">'
SPARED = 0.97
PLACEHOLDER = 16
POLICY = "default-src 'none'; style-src 'unsafe-inline'; script-src 'unsafe-inline'; img-src data:"


@dataclass(frozen=True)
class Room:
    """How large the file may be, and how long its runs may take."""

    size: int = 10_000_000
    seconds: float = 90


def saved_page(slider: Slider, script: bytes, room: Room = Room(), gone: Callable[[], bool] = never) -> str:
    """The file's text."""
    return with_data(as_json(packed(saved(slider, script, room, gone))))


def saved(slider: Slider, script: bytes, room: Room, gone: Callable[[], bool]) -> dict[str, Any]:
    """What the file holds."""
    begun = time.monotonic()
    left_out: list[str] = []
    text = script.decode("utf-8", "surrogateescape")
    size = int(room.size * SPARED) - len(with_data("")) - packed_size(text)
    own, size = fitting(packed_shown(slider, script, gone), size, "the script's own report", left_out)
    slide = the_slide(slider, script, begun + room.seconds / 2, gone)
    missing = slide["head"].get("runs", 0) - len(slide["rows"])
    if missing:
        left_out.append(f"{counted(missing, 'place')} of the slider")
    slide, size = fitting(slide, size, "the slider", left_out)
    rows = slide["rows"] if slide else []
    slides = inside(slider, [row["script"] for row in rows], size, begun + room.seconds, gone)
    missing = slides.count(None)
    if missing:
        left_out.append(f"the runs of {missing} of {counted(len(rows), 'place')}")
    why = f"the file would have more than {room.size:,} bytes, or its runs take longer than {room.seconds:g} seconds"
    told = f"Left out, as {why}: {', '.join(left_out)}." if left_out else None
    return {"script": text, "shown": own, "slide": slide, "slides": slides, "left_out": told}


def the_slide(slider: Slider, script: bytes, until: float, gone: Callable[[], bool]) -> dict[str, Any]:
    """What `/slide` answers, its rows in order: those that come in time."""
    with closing(slider.rows(script, gone)) as answers:
        head = next(answers)
        rows = [row for row in takewhile(lambda _: time.monotonic() < until, answers) if "at" in row]
    fates = FATES.get(head.get("kind"), "")
    rows.sort(key=lambda row: (row["at"], fates.index(row["fate"])))
    return {"head": head, "rows": rows, "done": Counter(row["told"] for row in rows)}


def fitting(part: dict[str, Any], size: int, name: str, left_out: list[str]) -> tuple[dict[str, Any] | None, int]:
    """A part, if there is room for it, and how much is left then."""
    needed = packed_size(part)
    if needed <= size:
        return part, size - needed
    left_out.append(name)
    return None, size


def inside(
    slider: Slider, scripts: list[str], size: int, until: float, gone: Callable[[], bool]
) -> list[dict[str, str] | None]:
    """The packed runs of the places, none where there was no room or no time left for one."""
    slides: list[dict[str, str] | None] = [None] * len(scripts)
    size -= PLACEHOLDER * len(scripts)

    def late() -> bool:
        return time.monotonic() > until or gone()

    with ThreadPoolExecutor(WORKERS) as pool:
        for batch in batches(coarse_to_fine(len(scripts)), 2 * WORKERS):
            if late():
                break
            runs = pool.map(lambda at: packed_shown(slider, encoded(scripts[at]), gone), batch)
            for at, part in zip(batch, runs, strict=True):
                slides[at], size = fitting(part, size, "", [])
            if any(slides[at] is None for at in batch):
                break
    return slides


def batches(places: list[int], size: int) -> Iterator[list[int]]:
    for start in range(0, len(places), size):
        yield places[start : start + size]


def encoded(script: str) -> bytes:
    return script.encode("utf-8", "surrogateescape")


def packed_shown(slider: Slider, script: bytes, gone: Callable[[], bool]) -> dict[str, str]:
    return packed(shown(slider.runner, script, gone))


def packed(value: Any) -> dict[str, str]:
    """A value as JSON, in the form that the browser's DecompressionStream unpacks."""
    text = json.dumps(value, separators=(",", ":")).encode()
    return {"z": base64.b64encode(zlib.compress(text)).decode()}


def packed_size(value: Any) -> int:
    return len(packed(value)["z"])


def with_data(data: str) -> str:
    """The page with its style, its script and this data inside."""
    style, script, page = joined(STYLES), joined(SCRIPTS), joined(FRAME)
    policy = f'{CHARSET}\n<meta http-equiv="Content-Security-Policy" content="{POLICY}">'
    held = f'<script type="application/json" id="saved">{data}</script>\n<script>\n{script}</script>'
    for place, part in ((CHARSET, policy), (STYLE, f"<style>\n{style}</style>"), (SCRIPT, held)):
        before, found, behind = page.partition(place)
        if not found:
            raise RuntimeError(f"page.html has no {place}")
        page = before + part + behind
    return page

