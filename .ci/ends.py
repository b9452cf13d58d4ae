#!/usr/bin/env python3
"""Runs the bench over ends that give little, or fail: ends.py PROGRAM.

Each stored script is read in pieces of 1 and of 7 bytes, and its report has to stay the same. Then, over a script with every kind of line,
the source fails behind each of its bytes and the sink behind each of its pieces: status and report have to be those of the whole lines
before. `.ci/run` runs it on the program that the gate has built.
"""

import fcntl
import os
import socket
import subprocess
import sys
import tempfile
import threading
from pathlib import Path

from stored import stored_scripts

ROOT = Path(__file__).resolve().parent.parent
# How many seconds one run may take.
LIMIT = 120
# Every kind of line, in an order in which each is obeyed.
SCRIPT = b"""# a comment

place t2 01020304 16 000000000000000000000000E11006000303D00000FE
place t4 08020304 8 000F20003B000D0406E10400100000 0003D00000
place t5 E004010203040506 16 4 E14008000303D00000FE
place peer 08010203 3 128 1 1024
offer 08010203 6B31 A1A2A3
fates PPDPPPLPPP
busy 08020304 1 2
find
lock 01020304 9
read 08020304
write 01020304 D00000
write E004010203040506 gen:5:1
dump E004010203040506
inbox 08010203
link 08010203 128 1
put D00000
get 16 6B31
lookup urn:nfc:sn:snep
unlink
remove 01020304
read 01020304
"""
# A script that is swept.
SWEEP = b"""place t5 E004010203040506 4 32 E1400F000303D00000FE
write E004010203040506 D101
"""
# A script whose report is audited: two messages are accepted.
AUDITED = b"""place peer 08010203 3 128 1 1024
link 08010203 128 1
puts 0:D1 1:gen:200:0
"""
READ_FAULT, WRITE_FAULT = 3, 4

# how many bytes a line of a script may have
LONGEST_LINE = 4096


def run(program, words, source, sink):
    """Starts the program with these words between these ends; a sink that is gone is an error that it is told."""
    return subprocess.Popen(
        [program, *words],
        stdin=source,
        stdout=sink,
        stderr=subprocess.DEVNULL,
        restore_signals=False,
    )


def feed(end, script, size):
    """Writes the script in pieces of this size."""
    try:
        for at in range(0, len(script), size):
            os.write(end, script[at : at + size])
    except BrokenPipeError:
        pass
    finally:
        os.close(end)


def by_pieces(program, words, script, size):
    """The status and the report of a run whose source gives this many bytes a call."""
    # In a pipe of packets each read gets one write at most.
    source, ours = os.pipe2(os.O_DIRECT | os.O_CLOEXEC)
    writer = threading.Thread(target=feed, args=(ours, script, size))
    with tempfile.TemporaryFile() as sink:
        bench = run(program, words, source, sink)
        os.close(source)
        writer.start()
        status = bench.wait(timeout=LIMIT)
        writer.join()
        sink.seek(0)
        return status, sink.read()


def with_source_failing(program, words, script, count):
    """The status and the report of a run whose source fails behind so many bytes."""
    source, ours = socket.socketpair()
    # An end that is closed with bytes unread is a fault for the other one.
    source.send(b"?")
    ours.send(script[:count])
    ours.close()
    with tempfile.TemporaryFile() as sink:
        status = run(program, words, source, sink).wait(timeout=LIMIT)
        source.close()
        sink.seek(0)
        return status, sink.read()


def with_sink_failing(program, words, script, count):
    """The status of a run whose sink fails behind so many pieces, or one more, and these pieces."""
    ours, sink = os.pipe2(os.O_DIRECT | os.O_CLOEXEC)
    # It holds one piece, and a writer waits for the next until that one is taken.
    fcntl.fcntl(sink, fcntl.F_SETPIPE_SZ, 4096)
    with tempfile.TemporaryFile() as source:
        source.write(script)
        source.seek(0)
        if count == 0:
            # Closed before the program begins: one that is quick writes its only piece before it could be closed.
            os.close(ours)
        bench = run(program, words, source, sink)
        os.close(sink)
        pieces = []
        while len(pieces) < count and (piece := os.read(ours, 4096)):
            pieces.append(piece)
        if count > 0:
            os.close(ours)
        return bench.wait(timeout=LIMIT), pieces


def sizes(script):
    """How many bytes the pieces of a script have. The reader asks for no more than a longest line has room for, and a pipe of
    packets drops what is beyond that of one, so a script with a line near the limit comes byte by byte alone."""
    longest = max(map(len, script.split(b"\n")))
    return (1, 7) if longest <= LONGEST_LINE - 7 else (1,)


def check_pieces(program):
    """Each stored script has the same report, however few bytes a call gives."""
    for script, words, report in stored_scripts():
        text = script.read_bytes()
        for size in sizes(text):
            if by_pieces(program, words, text, size)[1] != report.read_bytes():
                yield f"{script.name}: another report by pieces of {size}"


def check_source(program):
    """Behind a source that failed there is the report of the whole lines before, and the fault."""
    for count in range(len(SCRIPT) + 1):
        whole = SCRIPT[: SCRIPT.rfind(b"\n", 0, count) + 1]
        wanted = by_pieces(program, ["run"], whole, 4096)[1] + b"fault 3 read\n"
        if with_source_failing(program, ["run"], SCRIPT, count) != (READ_FAULT, wanted):
            yield f"the source fails behind byte {count}: another status or report"


def check_sink(program):
    """In front of a sink that failed there is a prefix of the report, and no fault line."""
    status, report = by_pieces(program, ["run"], SCRIPT, 4096)
    all_pieces = with_sink_failing(program, ["run"], SCRIPT, len(report) + 1)[1]
    if status != 0 or b"".join(all_pieces) != report:
        yield "the script with every kind of line: another status or report"
    # The last piece may be in the pipe before its end is closed.
    for count in range(len(all_pieces) - 1):
        if with_sink_failing(program, ["run"], SCRIPT, count) != (WRITE_FAULT, all_pieces[:count]):
            yield f"the sink fails behind piece {count}: another status or report"


def check_sweep(program):
    """A sweep reads its whole script before it obeys a line, and writes one line behind all runs."""
    for count in range(len(SWEEP) + 1):
        if with_source_failing(program, ["sweep"], SWEEP, count) != (READ_FAULT, b"fault 3 read\n"):
            yield f"the source of a sweep fails behind byte {count}: another status or report"
    if with_sink_failing(program, ["sweep"], SWEEP, 0) != (WRITE_FAULT, []):
        yield "the sink of a sweep fails at once: another status or report"


def check_audit(program):
    """An audit reads its whole input before it follows a line, and writes what it found behind that."""
    audited = AUDITED + b"%%\n" + by_pieces(program, ["run"], AUDITED, 4096)[1]
    for count in range(len(audited) + 1):
        if with_source_failing(program, ["audit"], audited, count) != (READ_FAULT, b"fault 3 read\n"):
            yield f"the source of an audit fails behind byte {count}: another status or report"
    status, found = by_pieces(program, ["audit"], audited, 4096)
    pieces = with_sink_failing(program, ["audit"], audited, len(found) + 1)[1]
    if status != 0 or b"".join(pieces) != found or found.count(b"accepted") != 2:
        yield "an audit of a script's own report: another status or report"
    for faulty in (audited, audited + b"x"):
        if with_sink_failing(program, ["audit"], faulty, 0) != (WRITE_FAULT, []):
            yield "the sink of an audit fails at once: another status or report"


def main(program):
    faults = [fault for check in (check_pieces, check_source, check_sink, check_sweep, check_audit) for fault in check(program)]
    for fault in faults:
        print(f"ends: {fault}")
    if not faults:
        print("ends: reports and statuses are the same by pieces, and right where an end fails")
    return bool(faults)


if __name__ == "__main__":
    sys.exit(main(sys.argv[1]))
