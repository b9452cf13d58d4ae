"""The runs of a slider: a script's last write or put, disturbed at each of its transmissions, and what stands then.

What is behind that line is left away. Before it stands a `fates` line that lets all transmissions pass up to the place,
and behind it a `read` of the tag, or an `inbox` of the peer. So each place is a script of its own, which may be run by
itself, and one run of the program tells what it tells.
"""

from __future__ import annotations

from collections import Counter, deque
from concurrent.futures import ThreadPoolExecutor, as_completed
from contextlib import closing
from dataclasses import dataclass
from threading import Event
from typing import Any, Callable, Generator

from frames.words import hexadecimal
from page.cache import Cache
from page.program import NoProgram
from page.running import Ran, Runner, never
from page.telling import accepted, message_told, put_told
from script.fates import Transmissions
from script.refusal import MOST_LINES, Line, lines_of, read_script

LETTERS = 4000
MOST_RUNS = 1000
MOST_TEXT = 16_000_000
WORKERS = 3
FATES = {"write": "B", "put": "DLB"}
TOLD = {"write": ("old", "empty", "new"), "put": ("told", "accepted", "not accepted")}


class NoSlider(Exception):
    """Why a script has no slider, in one sentence."""


@dataclass(frozen=True)
class Place:
    """A transmission, counted from 1 on, the letter of its fate, and the script that gives it this fate."""

    at: int
    fate: str
    script: bytes


@dataclass(frozen=True)
class Slide:
    """The last write or put of a script: the lines before it, itself, and the line behind it that tells what stands."""

    before: list[bytes]
    line: Line
    text: bytes
    asks: bytes
    transmissions: int = 0

    @property
    def kind(self) -> str:
        return self.line.command.name

    def script(self, letters: str) -> bytes:
        """The script in which these are the fates of the last command."""
        pieces = [letters[start : start + LETTERS] for start in range(0, len(letters), LETTERS)]
        fates = [f"fates {piece}".encode() for piece in pieces]
        return b"".join(line + b"\n" for line in (*self.before, *fates, self.text, self.asks))

    def place(self, at: int, fate: str) -> Place:
        return Place(at, fate, self.script("P" * (at - 1) + fate))

    def chosen(self) -> list[int]:
        """The transmissions that are looked at: all, or as many as may be run, evenly, with the first and the last."""
        last = self.transmissions
        text = len(self.script("P" * last))
        most = max(2, min(MOST_RUNS, MOST_TEXT // text) // len(FATES[self.kind]))
        if last <= most:
            return list(range(1, last + 1))
        return [1 + step * (last - 1) // (most - 1) for step in range(most)]

    def places(self) -> list[Place]:
        return [self.place(at, fate) for at in self.chosen() for fate in FATES[self.kind]]


Rows = Generator[dict[str, Any], None, None]
Answered = Generator[tuple[Place, tuple[str, str]], None, None]


class Slider:
    """Makes the answers of `/slide`, and keeps what each place told."""

    def __init__(self, runner: Runner, cache: Cache) -> None:
        self.runner = runner
        self.cache = cache

    def rows(self, script: bytes, gone: Callable[[], bool] = never) -> Rows:
        """First how many there are, then what each place tells, as it comes, then how often each was told."""
        try:
            slide = self.slide(script, gone)
        except NoSlider as problem:
            yield {"none": str(problem)}
            return
        places = slide.places()
        yield head(slide, places)
        try:
            yield from self.told(slide, places, gone)
        except NoProgram as problem:
            yield {"ended": str(problem)}

    def told(self, slide: Slide, places: list[Place], gone: Callable[[], bool]) -> Rows:
        base = self.last_answer(slide.script("B") if slide.kind == "write" else inbox_before(slide), gone)
        counts: Counter[str] = Counter(dict.fromkeys(TOLD[slide.kind], 0))
        with closing(self.answers(places, gone)) as answers:
            for place, two in answers:
                row = row_of(slide, place, base, *two)
                counts[row["told"] if row["told"] in counts else "other"] += 1
                yield row
        yield {"done": dict(counts)}

    def slide(self, script: bytes, gone: Callable[[], bool]) -> Slide:
        """The slide of a script, with the count of its transmissions."""
        if self.runner.find().is_tried:
            raise NoSlider("the slider needs the built program: `rt run` in crates/nfc_bench proves and builds it")
        obeyed, found = last_command(script)
        lines = list(lines_of(script))
        number = found.number
        report = self.report(b"".join(line + b"\n" for line in lines[:number]), gone)
        before = without_left(lines[: number - 1], obeyed, counts_of(report))
        slide = Slide(before, found, lines[number - 1], asks(obeyed, found))
        count = counts_of(self.report(slide.script(""), gone))[number]
        if not count:
            raise NoSlider(f"the {slide.kind} of line {number} sends nothing, as no link is open")
        if slide.script("P" * count).count(b"\n") > MOST_LINES:
            raise NoSlider(f"the slider's lines don't fit into the {MOST_LINES} that a script may have")
        return Slide(slide.before, slide.line, slide.text, slide.asks, count)

    def report(self, script: bytes, gone: Callable[[], bool]) -> bytes:
        ran = self.runner.whole("run", script, gone)
        if ran.ended:
            raise NoSlider(ran.ended)
        return ran.output

    def answers(self, places: list[Place], gone: Callable[[], bool]) -> Answered:
        """What the last two commands of each place's script answer, several runs at a time."""
        left = Event()

        def is_left() -> bool:
            return left.is_set() or gone()

        pool = ThreadPoolExecutor(WORKERS)
        ordered = [places[at] for at in coarse_to_fine(len(places))]
        try:
            waiting = {pool.submit(self.two_answers, place.script, is_left): place for place in ordered}
            for done in as_completed(waiting):
                yield waiting[done], done.result()
        finally:
            left.set()
            pool.shutdown(cancel_futures=True)

    def two_answers(self, script: bytes, gone: Callable[[], bool]) -> tuple[str, str]:
        """The answers of the last two commands, from a run or from an earlier one of the same script."""
        key = self.runner.find().build, script
        kept = self.cache.get(key)
        if kept is None:
            kept = two_last(self.runner.whole("run quiet", script, gone))
            self.cache.put(key, kept, len(kept[0]) + len(kept[1]))
        return kept

    def last_answer(self, script: bytes, gone: Callable[[], bool]) -> str:
        return self.two_answers(script, gone)[1]


def coarse_to_fine(count: int) -> list[int]:
    """All numbers below `count`: the first and the last, then those between, ever closer together.

    Who stops in the middle has seen all of it, evenly.
    """
    if not count:
        return []
    step = 1 << (count - 1).bit_length()
    order = {0: None, count - 1: None}
    while step:
        order.update(dict.fromkeys(range(0, count, step)))
        step //= 2
    return list(order)


def last_command(script: bytes) -> tuple[list[Line], Line]:
    """The lines before a script's last write or put, and that one."""
    read = read_script(script)
    places = [place for place, line in enumerate(read.obeyed) if line.command.name in FATES]
    if not places:
        where = f" before line {read.refusal.number}, which is refused" if read.refusal else ""
        raise NoSlider(f"there is neither a write nor a put{where}")
    return read.obeyed[: places[-1]], read.obeyed[places[-1]]


def asks(obeyed: list[Line], line: Line) -> bytes:
    """The line that tells what stands behind a write or a put."""
    if line.command.name == "write":
        return f"read {hexadecimal(line.values[0])}".encode()
    peers = [earlier.values[0] for earlier in obeyed if earlier.command.name == "link"]
    if not peers:
        raise NoSlider(f"the put of line {line.number} has no link before it")
    return f"inbox {hexadecimal(peers[-1])}".encode()


def inbox_before(slide: Slide) -> bytes:
    """The script that tells what the peer accepted before the put."""
    return b"".join(line + b"\n" for line in (*slide.before, slide.asks, slide.asks))


def counts_of(report: bytes) -> Counter[int]:
    """How many transmissions each line had."""
    transmissions = Transmissions()
    for line in report.decode("ascii", "replace").splitlines():
        transmissions.count(line)
    return transmissions.counts


def without_left(lines: list[bytes], obeyed: list[Line], counts: Counter[int]) -> list[bytes]:
    """The lines without the fates that they leave over: those would come before the slider's own."""
    queue: deque[int] = deque()
    for line in obeyed:
        if line.command.name == "fates":
            queue.extend([line.number] * len(line.values[0]))
        for _ in range(min(counts[line.number], len(queue))):
            queue.popleft()
    cut = list(lines)
    for number, left in Counter(queue).items():
        kept = cut[number - 1][:-left]
        cut[number - 1] = b"" if kept == b"fates " else kept
    return cut


def two_last(ran: Ran) -> tuple[str, str]:
    """The answers of the last two commands; of a run that was ended the sentence that says so."""
    if ran.ended:
        return ran.ended, ran.ended
    lines = ran.output.decode("ascii", "replace").splitlines()
    if len(lines) < 2 or ran.status != 0:
        sentence = f"the program ended with status {ran.status}"
        return sentence, sentence
    first, second = (line.partition(" ")[2] for line in lines[-2:])
    return first, second


def head(slide: Slide, places: list[Place]) -> dict[str, Any]:
    runs, all_runs = len(places), slide.transmissions * len(FATES[slide.kind])
    note = f"Of {all_runs} runs {runs} are made, evenly over the transmissions." if runs < all_runs else None
    line = slide.line.number
    return {"kind": slide.kind, "places": slide.transmissions, "line": line, "runs": runs, "note": note}


def row_of(slide: Slide, place: Place, base: str, answer: str, behind: str) -> dict[str, Any]:
    """What a place tells: of a write by the message that is read, of a put by what was told and what was accepted."""
    row = {"at": place.at, "fate": place.fate, "answer": answer, "script": text_of(place.script)}
    if slide.kind == "write":
        return row | {"told": message_told(behind, base, slide.line.values[1])}
    return row | {"told": put_told(answer, behind, base), "accepted": accepted(behind)}


def text_of(script: bytes) -> str:
    return script.decode("utf-8", "surrogateescape")
