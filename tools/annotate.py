#!/usr/bin/env python3
"""Tells what each frame of a report is.

    tools/annotate.py [REPORT]

The report, a file or else standard input, is written again to standard output. Behind each line that shows a frame
stands what the frame is, and behind each reset what that is. Behind an answer that tells messages stands what records
they hold; all other lines are as they were. A frame that fits nothing gets `?`. What a report is: docs/report.md. Two
lines of one with what is told:

    2 > 93700102030404 pass                         SEL_REQ of level 1: identifier part 01020304, BCC 04h right
    2 message D1010D55046578616D706C652E636F6D2F writable  URI https://example.com/

What an answer is depends on its request, and how a request is read on the link that is under way, so a report is
read from its start. Where a transmission had another fate than `pass`, the annotation tells what was sent, and in
brackets what became of it.
"""

from __future__ import annotations

import argparse
import os
import sys
from typing import BinaryIO, Iterable

from frames.line import frame_line, is_reset
from frames.session import Session
from ndef.answers import messages_text

WIDTH = 46


def annotated(report: Iterable[str]) -> Iterable[str]:
    """The lines of a report, each with its annotation if it has one, and with its end."""
    session = Session()
    for ended in report:
        line = ended.rstrip("\r\n")
        yield annotated_line(session, line) + ended[len(line) :]


def annotated_line(session: Session, line: str) -> str:
    """The line, and what it is at the common column, or two spaces behind a line that is longer."""
    shown = frame_line(line)
    if shown is not None:
        told = session.tell(shown)
    elif is_reset(line):
        told = session.reset()
    else:
        told = messages_text(line)
    return line if told is None else f"{line:<{WIDTH}}  {told}"


def annotate(report: BinaryIO, output: BinaryIO) -> None:
    """Writes the report with its annotations. Bytes that aren't text pass as they are."""
    lines = (line.decode("utf-8", "surrogateescape") for line in report)
    for line in annotated(lines):
        output.write(line.encode("utf-8", "surrogateescape"))
    output.flush()


def main() -> int:
    parser = argparse.ArgumentParser(description="Tells what each frame of a report is.")
    parser.add_argument("report", nargs="?", help="the report; standard input if none is named")
    arguments = parser.parse_args()
    try:
        if arguments.report is None:
            annotate(sys.stdin.buffer, sys.stdout.buffer)
        else:
            with open(arguments.report, "rb") as report:
                annotate(report, sys.stdout.buffer)
    except BrokenPipeError:
        os.dup2(os.open(os.devnull, os.O_WRONLY), sys.stdout.fileno())
    except OSError as error:
        parser.error(str(error))
    return 0


if __name__ == "__main__":
    sys.exit(main())
