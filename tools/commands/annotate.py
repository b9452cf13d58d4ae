"""tells what each frame of a report is

    python3 tools/nfc.py annotate [REPORT]

The report, a file or else standard input, is written again, and behind each line that shows a frame stands what it is,
and behind one that tells messages what records they hold.
"""

from __future__ import annotations

import sys

from annotate import annotated
from commands.given import Words, opened, report_lines


def main(words: list[str]) -> int:
    parser = Words("annotate", __doc__)
    parser.add_argument("report", nargs="?", default="-", help="the report; standard input where none is named")
    with opened(parser.parse_args(words).report) as report:
        for line in annotated(report_lines(report)):
            print(line, flush=sys.stdout.isatty())
    return 0
