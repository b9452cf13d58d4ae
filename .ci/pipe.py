#!/usr/bin/env python3
"""Runs the bench in a pipe whose writer waits for the answer to each line before it writes the next: pipe.py PROGRAM.

Script and report go through two FIFOs. A program that read further than a line before it answered, or that kept a part of its report
back, would leave both ends waiting for each other: a time limit ends that. The last line has no LF, so its answer comes at the input's end.
`.ci/run` runs it on the program that the gate has built.
"""

import os
import select
import subprocess
import sys
import tempfile
import time

# How many seconds one answer may take.
ANSWER = 60
# Each line, and the answer that is waited for behind it; none for a line that asks for nothing.
LINES = [
    (b"# a comment\n", None),
    (b"\n", None),
    (b"place t2 01020304 16 000000000000000000000000E11006000303D00000FE\n", b"3 ok\n"),
    (b"find\n", b"4 found 1 01020304:t2\n"),
    (b"read 01020304\n", b"5 message D00000 writable\n"),
    (b"write 01020304 gen:40:1\n", b"6 written\n"),
    (b"dump 01020304", None),
]
LAST = b"7 store 000000000000000000000000E11006000328" + bytes(range(1, 41)).hex().upper().encode() + b"FE0000000000\n"


class Stuck(Exception):
    """The awaited text didn't come in time."""


def read_until(report, held, wanted):
    """Reads on until the text held ends with what is wanted; at the report's end, or when the time is over, it is stuck."""
    limit = time.monotonic() + ANSWER
    while not held.endswith(wanted):
        left = limit - time.monotonic()
        if left <= 0 or not select.select([report], [], [], left)[0]:
            raise Stuck(f"no {wanted!r} in {ANSWER} seconds behind {held[-200:]!r}")
        got = os.read(report, 65536)
        if not got:
            raise Stuck(f"the report ends behind {held[-200:]!r}, without {wanted!r}")
        held += got
    return held


def converse(script, report):
    """Writes each line once the line before it is answered."""
    held = b""
    for line, answer in LINES:
        os.write(script, line)
        if answer:
            held = read_until(report, held, answer)
    os.close(script)
    read_until(report, held, LAST)


def main(program):
    with tempfile.TemporaryDirectory() as folder:
        ends = [os.path.join(folder, name) for name in ("script", "report")]
        for end in ends:
            os.mkfifo(end)
        bench = subprocess.Popen(
            ["sh", "-c", 'exec "$0" run <"$1" >"$2"', program, *ends],
            stderr=subprocess.DEVNULL,
        )
        try:
            converse(os.open(ends[0], os.O_WRONLY), os.open(ends[1], os.O_RDONLY))
            status = bench.wait(timeout=ANSWER)
        except (Stuck, OSError, subprocess.TimeoutExpired) as fault:
            bench.kill()
            print(f"pipe: {fault}")
            return 1
    if status != 0:
        print(f"pipe: the run ended with {status}")
        return 1
    print("pipe: each line was answered before the next was written")
    return 0


if __name__ == "__main__":
    sys.exit(main(sys.argv[1]))
