#!/usr/bin/env python3
"""Audits stored reports: audits.py PROGRAM.

Each report of a script that is run and obeyed whole, and in which no frames are written by hand beside a peer, is one that its script may
have; with a byte of one line changed, without its last LF, with a line more, and with a line left out it isn't, and the first such line is
named. `.ci/run` runs it on the program that the gate has built.
"""

import re
import subprocess
import sys
from concurrent.futures import ThreadPoolExecutor
from pathlib import Path

from stored import status_of, stored_scripts

ROOT = Path(__file__).resolve().parent.parent
# How many seconds one run may take.
LIMIT = 120
MOST_REPORT = 16_777_216


def words_of(line):
    """The words of a line that asks for something."""
    return [] if line.startswith(b"#") else line.split()


def has_raw_beside_peer(script):
    """Whether frames are written by hand while a peer is placed."""
    peers = set()
    for line in script.split(b"\n"):
        match words_of(line):
            case [b"place", b"peer", name, *_]:
                peers.add(name)
            case [b"remove", name]:
                peers.discard(name)
            case [b"raw", *_]:
                if peers:
                    return True
    return False


def ask(program, script, report):
    """What an audit of a report by a script tells, and its status."""
    ended = b"" if not script or script.endswith(b"\n") else b"\n"
    ran = subprocess.run([program, "audit"], input=script + ended + b"%%\n" + report, stdout=subprocess.PIPE, timeout=LIMIT, check=False)
    return ran.stdout, ran.returncode


def entry_count(script):
    """How many lines of a script ask for something."""
    return sum(bool(words_of(line)) for line in script.split(b"\n"))


def with_byte_changed(line, seed):
    """A line with one of its bytes changed, which isn't its LF."""
    place = seed % (len(line) - 1)
    other = b"0" if line[place : place + 1] != b"0" else b"1"
    return line[:place] + other + line[place + 1 :]


def changes(report, seed):
    """Reports that aren't this one, each with what is told of it."""
    lines = report.splitlines(keepends=True)
    place = seed % len(lines)
    faulty = lambda n: b"faulty line %d\n" % n
    changed = [*lines[:place], with_byte_changed(lines[place], seed), *lines[place + 1 :]]
    yield "a byte changed", b"".join(changed), faulty(place + 1)
    yield "the last LF left out", report[:-1], faulty(len(lines))
    yield "a line more", report + b"\n", faulty(len(lines) + 1)
    yield "ended too early", b"".join(lines[:place]), faulty(place + 1)


def wrong_audits(program, script, report):
    """What is wrong in the audits of a stored report, by its place among all."""
    name, lines, text = script.relative_to(ROOT), script.read_bytes(), report.read_bytes()
    told, status = ask(program, lines, text)
    first, *others = told.splitlines() or [b""]
    if status != 0 or first != b"legal %d" % entry_count(lines) or not all(re.match(rb"accepted \d", line) for line in others):
        return [f"{name}: its own report is told {first!r}, status {status}"]
    wrong = []
    for what, other, wanted in changes(text, sum(text)) if text else ():
        told, status = ask(program, lines, other)
        if (told, status) != (wanted, 1):
            wrong.append(f"{name}: {what}: {told[:60]!r}, status {status}, and not {wanted!r}")
    return wrong


def may_be_audited(script, words, report):
    """Whether a stored report tells frames of a script that is obeyed whole, none of whose frames are written by hand beside a peer."""
    text = report.read_bytes()
    return words == ["run"] and status_of(text) == 0 and len(text) <= MOST_REPORT and not has_raw_beside_peer(script.read_bytes())


def main():
    program = str(Path(sys.argv[1]).resolve())
    rows = [row for row in stored_scripts() if may_be_audited(*row)]
    with ThreadPoolExecutor(2) as pool:
        wrong = [it for each in pool.map(lambda row: wrong_audits(program, row[0], row[2]), rows) for it in each]
    print(*wrong, sep="\n", end="\n" * bool(wrong))
    print(f"audits: {len(rows)} reports, {len(wrong)} wrong")
    return 1 if wrong or not rows else 0


if __name__ == "__main__":
    sys.exit(main())
