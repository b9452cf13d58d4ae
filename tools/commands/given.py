"""What a word is given: its words, files and reports, each refused with one sentence where it is bad."""

from __future__ import annotations

import argparse
import re
import sys
from typing import BinaryIO, Iterable, Iterator, NoReturn

from faults import BadInput

REPORT_LINE = re.compile(
    r"[1-9][0-9]{0,3} (?:! reset|[><*] (?:-|(?:[0-9A-F]{2})+(?:/[1-7])?) (?:pass|damage|lose|break)|[a-z][ -~]*)"
    r"|fault [0-9].*|made .*"
)


class Words(argparse.ArgumentParser):
    """The words behind a word of `nfc.py`. Wrong ones are bad input, told in one sentence."""

    def __init__(self, word: str, told: str | None) -> None:
        layout = argparse.RawDescriptionHelpFormatter
        super().__init__(prog=f"nfc.py {word}", description=told, formatter_class=layout)

    def error(self, message: str) -> NoReturn:
        raise BadInput(f"{message} ({self.prog} --help tells more)")


def opened(name: str) -> BinaryIO:
    """The file of this name; standard input for `-`."""
    return sys.stdin.buffer if name == "-" else open(name, "rb")


def content_of(name: str) -> bytes:
    """All that a file holds."""
    with opened(name) as file:
        return file.read()


def report_lines(report: Iterable[bytes]) -> Iterator[str]:
    """The lines of a report without their ends, each as soon as it has come, so that a report may come from a pipe.

    What isn't one is refused at its first wrong line. A last line that was cut off within is left out.
    """
    number = 0
    for number, ended in enumerate(report, 1):
        line = ended.decode("ascii", "replace").rstrip("\n")
        if REPORT_LINE.fullmatch(line):
            yield line
        elif ended.endswith(b"\n") or number == 1:
            raise BadInput(f"this is no report of the bench: line {number} is no line of one")
    if number == 0:
        raise BadInput("the report is empty")
