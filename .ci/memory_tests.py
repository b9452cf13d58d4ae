#!/usr/bin/env python3
"""Runs tests short of memory: memory_tests.py PROGRAM.

Each test of the program is run with each of its requests for memory refused in turn, and has to pass each time. The program is what `rt test` makes
in crates/memory_tests, out/memory_tests_tests. It tells how many requests each test makes. It needs a C compiler, as memory.py does, so the gate
leaves it out.
"""

import os
import subprocess
import sys
import tempfile
import time

from memory import LIMIT, build

# What stands behind each name in the list of a program's tests.
MARK = ": test"


def names(program):
    """The tests of a program."""
    listed = subprocess.run([program, "--list"], stdout=subprocess.PIPE, text=True, check=True)
    return [line.removesuffix(MARK) for line in listed.stdout.splitlines() if line.endswith(MARK)]


def run(program, library, test, refused=0):
    """The status and the output of a test whose request of this number is refused, none where it is 0, and how many it made."""
    ours, told = os.pipe()
    environment = {"LD_PRELOAD": str(library), "REFUSED": str(refused), "TOLD": str(told)}
    ended = subprocess.run(
        [program, test], stdout=subprocess.PIPE, stderr=subprocess.STDOUT, env=environment, pass_fds=[told], timeout=LIMIT
    )
    os.close(told)
    made = int(os.read(ours, 64) or -1)
    os.close(ours)
    return ended.returncode, ended.stdout, made


def failures(program, library, test, made):
    """How a test of so many requests fails where none of them is refused, and where each is in turn."""
    for number in range(made + 1):
        status, written, _ = run(program, library, test, number)
        if status:
            yield f"request {number} is refused: status {status}, {written[-200:]!r}"
    if made < 1:
        yield "no request"


def main(program):
    wrong = 0
    with tempfile.TemporaryDirectory() as folder:
        library = build(folder)
        for test in names(program):
            began = time.monotonic()
            made = run(program, library, test)[2]
            faults = list(failures(program, library, test, made))
            print(f"memory: {test}: {len(faults)} wrong, {made} requests, {time.monotonic() - began:.0f} s")
            for fault in faults:
                print(f"memory: {test}: {fault}")
            wrong += len(faults)
    return bool(wrong)


if __name__ == "__main__":
    sys.exit(main(sys.argv[1]))
