"""The files that the page is made of. No request and no script names any other."""

from __future__ import annotations

from pathlib import Path

HERE = Path(__file__).parent
SCRIPTS = (
    "ladder.js",
    "fates.js",
    "packing.js",
    "asking.js",
    "editor.js",
    "menu.js",
    "slider.js",
    "page.js",
)
STYLES = ("ladder.css", "page.css")
FRAME = ("page.html",)


def joined(names: tuple[str, ...]) -> str:
    """The text of these files, one behind another."""
    return "".join((HERE / name).read_text("utf-8") for name in names)
