"""Runs of the program on a script: with no shell, its output as it comes, within limits, and at most four at once.

A script is handed over as a file that has no name, so that no thread is needed to feed the program. Each run has a
process group of its own, which is ended whole: nothing that a run started is left behind.
"""

from __future__ import annotations

import os
import re
import selectors
import signal
import subprocess
import tempfile
import time
from contextlib import closing, contextmanager, suppress
from dataclasses import dataclass, field
from threading import BoundedSemaphore, Lock
from typing import Callable, Generator, Iterator

from commands.given import REPORT_LINE
from page.program import Limits, NoProgram, Program, found

FORMS = {"run": ("run",), "run quiet": ("run", "quiet")}
AT_ONCE = 4
PIECE = 1 << 16
TICK = 0.2
Pieces = Generator[bytes, None, None]
ENDED = re.compile(rb"run=ended status=([0-9]+)")
# the signals that ask a program to end
ENDS = (signal.SIGINT, signal.SIGTERM, signal.SIGHUP)


class Gone(Exception):
    """Nobody waits for this run any longer, or the server ends."""


@dataclass
class Run:
    """One run: its pieces of output, and behind them its status and the sentence of a limit that ended it."""

    pieces: Pieces = field(init=False)
    status: int | None = None
    ended: str | None = None
    note: str | None = None


@dataclass(frozen=True)
class Ran:
    """A run that is over, with all its output."""

    status: int | None
    output: bytes
    ended: str | None
    note: str | None


def never() -> bool:
    return False


@contextmanager
def signals_held() -> Iterator[None]:
    """Meanwhile a signal that asks this program to end waits, so that no process begins which nobody knows of. What begins here holds
    them too: it has a session of its own, and is ended by SIGKILL."""
    before = signal.pthread_sigmask(signal.SIG_BLOCK, ENDS)
    try:
        yield
    finally:
        signal.pthread_sigmask(signal.SIG_SETMASK, before)


class Runner:
    """Starts runs, lets at most four run at once, and ends them all."""

    def __init__(self, find: Callable[[], Program] = found, at_once: int = AT_ONCE) -> None:
        self.find = find
        self.slots = BoundedSemaphore(at_once)
        self.lock = Lock()
        self.processes: set[subprocess.Popen[bytes]] = set()
        self.is_stopped = False

    def run(self, form: str, script: bytes, gone: Callable[[], bool] = never) -> Run:
        """A run whose pieces are to be taken one after another; it waits for its turn before the first."""
        program = self.find()
        run = Run(note=program.note)
        pieces = self.pieces(run, program, form, script, gone)
        run.pieces = tried(run, pieces) if program.is_tried else pieces
        return run

    def whole(self, form: str, script: bytes, gone: Callable[[], bool] = never) -> Ran:
        """A run from beginning to end."""
        run = self.run(form, script, gone)
        with closing(run.pieces):
            output = b"".join(run.pieces)
        return Ran(run.status, output, run.ended, run.note)

    def pieces(self, run: Run, program: Program, form: str, script: bytes, gone: Callable[[], bool]) -> Pieces:
        with self.turn(gone), self.started(program, form, script) as process:
            deadline = time.monotonic() + program.limits.seconds
            for piece in within(program.limits, run, output_of(process, deadline, gone)):
                yield piece
            run.status = self.ending(process, deadline, run, program.limits)

    @contextmanager
    def turn(self, gone: Callable[[], bool]) -> Iterator[None]:
        """One of the few places; who waits for one may go away meanwhile."""
        while not self.slots.acquire(timeout=TICK):
            if gone() or self.is_stopped:
                raise Gone
        try:
            yield
        finally:
            self.slots.release()

    @contextmanager
    def started(self, program: Program, form: str, script: bytes) -> Iterator[subprocess.Popen[bytes]]:
        """The process, which has ended with all that it started when this is left."""
        with tempfile.TemporaryFile() as source:
            source.write(script)
            source.seek(0)
            process = self.start(program, form, source.fileno())
        try:
            yield process
        finally:
            end(process)
            with self.lock:
                self.processes.discard(process)

    def start(self, program: Program, form: str, source: int) -> subprocess.Popen[bytes]:
        errors = subprocess.STDOUT if program.is_tried else subprocess.DEVNULL
        with signals_held(), self.lock:
            if self.is_stopped:
                raise Gone
            try:
                process = subprocess.Popen(
                    [*program.words, *FORMS[form]],
                    stdin=source,
                    stdout=subprocess.PIPE,
                    stderr=errors,
                    cwd=program.folder,
                    start_new_session=True,
                )
            except OSError as problem:
                raise NoProgram(f"The program can't be started: {problem.strerror}.") from None
            self.processes.add(process)
        return process

    def ending(self, process: subprocess.Popen[bytes], deadline: float, run: Run, limits: Limits) -> int | None:
        """The status behind the last piece, that of a signal as a shell counts it; none where a limit ended the run."""
        if self.is_stopped:
            raise Gone
        if run.ended is not None:
            return None
        try:
            status = process.wait(max(0.0, deadline - time.monotonic()))
        except subprocess.TimeoutExpired:
            run.ended = limits.too_long()
            return None
        return status if status >= 0 else 128 - status

    def stop(self) -> None:
        """Ends all that runs, and lets nothing begin any more."""
        with self.lock:
            self.is_stopped = True
            running = list(self.processes)
        for process in running:
            kill(process)
            process.wait()


class OutOfTime(Exception):
    """The time of a run is over."""


def output_of(process: subprocess.Popen[bytes], deadline: float, gone: Callable[[], bool]) -> Iterator[bytes]:
    """What the process writes, as it comes."""
    descriptor = process.stdout.fileno()
    with selectors.DefaultSelector() as waiting:
        waiting.register(descriptor, selectors.EVENT_READ)
        while True:
            left = deadline - time.monotonic()
            if left <= 0:
                raise OutOfTime
            if gone():
                raise Gone
            if not waiting.select(min(left, TICK)):
                continue
            piece = os.read(descriptor, PIECE)
            if not piece:
                return
            yield piece


def within(limits: Limits, run: Run, pieces: Iterator[bytes]) -> Iterator[bytes]:
    """The pieces up to a limit. Where one is reached, the run has its sentence."""
    left = limits.size
    try:
        for piece in pieces:
            yield piece[:left]
            left -= len(piece)
            if left < 0:
                run.ended = limits.too_much()
                return
    except OutOfTime:
        run.ended = limits.too_long()


def tried(run: Run, pieces: Pieces) -> Pieces:
    """Of what `rt try` writes, the report's lines alone. The program's status is in a line of its own."""
    status: int | None = None
    kept = b""
    with closing(pieces):
        for piece in pieces:
            *lines, kept = (kept + piece).split(b"\n")
            yield b"".join(line + b"\n" for line in lines if REPORT_LINE.fullmatch(line.decode("ascii", "replace")))
            ended = [int(line[1]) for line in map(ENDED.match, lines) if line]
            status = ended[-1] if ended else status
    run.status = run.status if status is None else status


def end(process: subprocess.Popen[bytes]) -> None:
    """Ends the process, where it still runs, and takes its status, so that nothing of it stays."""
    if process.poll() is None:
        kill(process)
        process.wait()
    process.stdout.close()


def kill(process: subprocess.Popen[bytes]) -> None:
    """Ends the process with all that it started."""
    if process.returncode is None:
        with suppress(ProcessLookupError, PermissionError):
            os.killpg(process.pid, signal.SIGKILL)
