#!/usr/bin/env python3
"""Runs that are made here, and not stored, since they are long or many: runs.py PROGRAM.

Scripts with as many lines as there may be, and one more; lines as long as they may be, and longer, with what is left unread behind them; a
thousand lines that are obeyed; words that make a workload, or don't, which read nothing; and a write to a tag of each kind, with a Break at each
of its transmissions: behind it the old message is read, then the empty one, then the new one, in this order. `.ci/run` runs it on the
program that the gate has built.
"""

import os
import subprocess
import sys
import tempfile

PLACE = b"place t2 01020304 16 000000000000000000000000E11006000303D00000FE0000\n"
LONGEST = 4096
# What a run shows; its script; its status, what it writes, and how many bytes of the script are left unread.
LINES = [
    ("a thousand lines", b"#\n" * 1000, 0, "", 0),
    ("without the last LF", b"#\n" * 999 + b"#", 0, "", 0),
    ("a thousand empty lines", b"\n" * 1000, 0, "", 0),
    ("one more", b"#\n" * 1000 + b"#", 2, "fault 2 line 1001\n", 0),
    ("one more that is empty", b"\n" * 1001, 2, "fault 2 line 1001\n", 0),
    ("a refused line counts first", b"#\n" * 999 + b"fly\n#", 2, "fault 2 line 1000\n", 0),
    ("4,096 bytes", b"#" * LONGEST, 0, "", 0),
    ("with an LF", b"#" * LONGEST + b"\n", 0, "", 0),
    ("4,097 bytes", b"#" * (LONGEST + 1), 2, "fault 2 line 1\n", 0),
    ("4,097 bytes and an LF", b"#" * (LONGEST + 1) + b"\n", 2, "fault 2 line 1\n", 1),
    ("no more is read than that line", b"#" * 20_000, 2, "fault 2 line 1\n", 20_000 - LONGEST - 1),
]
# Words, the status, and the line that is written.
MADE = [
    ("make 5 3", 0, "made 5 3 writes 3 reads 3 puts 3 bytes 756\n"),
    ("make 65535 1", 0, "made 65535 1 writes 1 reads 1 puts 1 bytes 993\n"),
    ("make 0 150", 0, "made 0 150 writes 150 reads 150 puts 150 bytes 76359\n"),
    *((words, 6, "fault 6 words\n") for words in (
        "make", "make 5", "make 05 3", "make 5 03", "make +5 3", "make 5 0", "make 5 151", "make 5 259", "make 65536 1", "make 5 3 3", "ran",
    )),
]
# A tag that holds D00000, and its identifier.
TAGS = [
    ("place t2 01020304 16 000000000000000000000000E11006000303D00000FE", "01020304"),
    ("place t4 02030405 8 000F20003B000D0406E10400200000 0003D00000", "02030405"),
    ("place t5 E004010203040506 8 4 E14004000303D00000FE", "E004010203040506"),
]
OLD, EMPTY, NEW = "D00000", "-", "D10000AA"


def run(program, words, script):
    """The status, what is written, and how many bytes of the script are left unread."""
    with tempfile.TemporaryFile() as source:
        source.write(script)
        source.flush()
        os.lseek(source.fileno(), 0, os.SEEK_SET)
        ran = subprocess.run([program, *words], stdin=source, stdout=subprocess.PIPE, check=False)
        return ran.returncode, ran.stdout.decode(), len(script) - os.lseek(source.fileno(), 0, os.SEEK_CUR)


def check_lines(program):
    for shows, script, status, text, left in LINES:
        if (told := run(program, ["run"], script)) != (status, text, left):
            yield f"{shows}: {told}"
    status, text, left = run(program, ["run"], PLACE + b"read 01020304\n" * 999)
    if (status, text.count("\n"), left) != (0, 1 + 999 * 12, 0):
        yield f"a thousand lines that are obeyed: {status}, {text.count(chr(10))} lines, {left} bytes left"


def check_made(program):
    for words, status, line in MADE:
        if (told := run(program, words.split(), b"find\n")) != (status, line, len(b"find\n")):
            yield f"{words}: {told}"


def broken_off(program, place, ident, passes):
    script = f"{place}\nfates {'P' * passes}B\nwrite {ident} {NEW}\nread {ident}"
    return run(program, ["run", "quiet"], script.encode())[1]


def check_breaks(program):
    for place, ident in TAGS:
        stages, stage = [f"1 ok\n2 ok\n3 field lost\n4 message {held} writable\n" for held in (OLD, EMPTY, NEW)], 0
        for passes in range(80):
            text = broken_off(program, place, ident, passes)
            if text == "1 ok\n2 ok\n3 written\n4 field lost\n":
                break
            if text not in stages[stage:]:
                yield f"{ident}, a Break behind {passes} transmissions: {text!r}"
                break
            stage = stages.index(text)
        if stage != 2:
            yield f"{ident}: no Break left the new message"


def main():
    program = os.path.abspath(sys.argv[1])
    wrong = [it for check in (check_lines, check_made, check_breaks) for it in check(program)]
    print(*wrong, sep="\n", end="\n" * bool(wrong))
    print(f"runs: {len(LINES) + 1} at the limits of lines, {len(MADE)} by words, Breaks in a write of {len(TAGS)} kinds of tags, {len(wrong)} wrong")
    return 1 if wrong else 0


if __name__ == "__main__":
    sys.exit(main())
