"""draws a report as a picture, one file of HTML

    python3 tools/nfc.py ladder [REPORT] [--script SCRIPT] -o FILE.html

The reader stands left, each device right, and time goes downwards. Each frame has its words; one that is damaged, lost
or broken off has a form and a colour of its own. Beside a write stands which message the tag holds, beside the PDUs of
a link their numbers and the window. An entry is folded by its button; `#all` behind the file's address draws all at
once, and a large report otherwise as far as it is looked at. The file needs nothing else, and no network.
"""

from __future__ import annotations

import os
import sys

from commands.given import BadInput, Words, content_of, opened, report_lines
from page.data import ladder_data
from page.file import page


def main(words: list[str]) -> int:
    parser = Words("ladder", __doc__)
    parser.add_argument("report", nargs="?", default="-", help="the report; standard input where none is named")
    parser.add_argument("-o", "--output", default="-", help="the picture; standard output where none is named")
    parser.add_argument("--script", help="the script, whose lines are shown then")
    parser.add_argument("--title", help="what stands above it; the report's name where nothing is said")
    chosen = parser.parse_args(words)
    if chosen.output == "-" and sys.stdout.isatty():
        raise BadInput("a picture isn't text for a terminal: name a file with -o")
    name = "report" if chosen.report == "-" else os.path.basename(chosen.report)
    script = content_of(chosen.script).decode("utf-8", "replace").split("\n") if chosen.script else ()
    with opened(chosen.report) as report:
        text = page(ladder_data(report_lines(report), chosen.title or name, script))
    write(chosen.output, text)
    return 0


def write(name: str, text: str) -> None:
    if name == "-":
        sys.stdout.write(text)
    else:
        with open(name, "w", encoding="utf-8") as file:
            file.write(text)
