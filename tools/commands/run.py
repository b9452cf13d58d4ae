"""runs a script by the bench, and tells why a line is refused

    python3 tools/nfc.py run [--quiet] [SCRIPT]

The report goes to standard output, and the exit status is the program's own (docs/script.md). The program is the one
that the environment variable NFC_BENCH names, or else crates/nfc_bench/out/nfc_bench, which `rt run` builds. Where
there is none the status is 1.

Where a line is refused, the reason goes to standard error, as `why` tells it. So does a sentence where a command took
fates that stood before those of a later `fates` line, and where some are left at the end: but not with --quiet, which
shows no transmission.
"""

from __future__ import annotations

import os
import subprocess
import sys
from contextlib import suppress
from threading import Thread
from typing import BinaryIO

import bench
from commands.given import Words, opened
from script.fates import Transmissions, fates_notes
from script.refusal import read_script

REFUSED, NO_PROGRAM = 2, 1
PIECE = 4096


class Feeding(Thread):
    """Hands a script on to the program piece by piece, as it comes, and keeps what was handed on.

    It reads by the file's number: a thread that waits within Python's own buffer can't be left behind at the end.
    """

    def __init__(self, source: int, sink: BinaryIO) -> None:
        super().__init__(daemon=True)
        self.source = source
        self.sink = sink
        self.kept = bytearray()

    def run(self) -> None:
        with suppress(BrokenPipeError), self.sink:
            while piece := os.read(self.source, PIECE):
                self.kept += piece
                self.sink.write(piece)
                self.sink.flush()


def main(words: list[str]) -> int:
    parser = Words("run", __doc__)
    parser.add_argument("script", nargs="?", default="-", help="the script; standard input where none is named")
    parser.add_argument("--quiet", action="store_true", help="the answers alone, without the frames")
    options = parser.parse_args(words)
    with opened(options.script) as source:
        program = bench.program()
        if program is None:
            print(f"nfc run: {missing()}", file=sys.stderr)
            return NO_PROGRAM
        return run(source.fileno(), [str(program), "run"] + ["quiet"] * options.quiet)


def missing() -> str:
    """What to do where there is no program."""
    named = os.environ.get(bench.VARIABLE)
    what = f"{bench.VARIABLE} names {named}, which is no program" if named else f"{bench.BUILT} isn't built"
    how = f"Build it by `rt run` in crates/nfc_bench, which proves it, or name one by {bench.VARIABLE}=PROGRAM."
    return f"{what}. {how}"


def run(source: int, command: list[str]) -> int:
    """The program's status; that of a signal by which it ended as a shell counts it."""
    program = subprocess.Popen(command, stdin=subprocess.PIPE, stdout=subprocess.PIPE)
    feeding = Feeding(source, program.stdin)
    feeding.start()
    transmissions = passed_on(program.stdout)
    status = program.wait()
    script = read_script(bytes(feeding.kept))
    told = fates_notes(script.obeyed, transmissions.counts) if transmissions.counts else []
    if status == REFUSED and script.refusal is not None:
        told += script.refusal.told
    for line in told:
        print(line, file=sys.stderr)
    return status if status >= 0 else 128 - status


def passed_on(report: BinaryIO) -> Transmissions:
    """Hands each line of the report on as it comes, and counts what was sent."""
    transmissions = Transmissions()
    for line in report:
        sys.stdout.buffer.write(line)
        sys.stdout.buffer.flush()
        transmissions.count(line.decode("ascii", "replace").rstrip("\n"))
    return transmissions
