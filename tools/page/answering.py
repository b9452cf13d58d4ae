"""What each request is answered: the examples, a run, what it shows, the runs of a slider, the one file."""

from __future__ import annotations

import json
from contextlib import closing
from dataclasses import dataclass, field
from typing import Any, Callable, Generator

import bench
from page.cache import Cache
from page.program import NoProgram
from page.running import FORMS, Runner
from page.saving import saved_page
from page.shown import shown
from page.sliding import Slider

EXAMPLES = bench.ROOT / "examples"
TEXT = "text/plain; charset=utf-8"
HTML = "text/html; charset=utf-8"
JSON = "application/json"
ROWS = "application/x-ndjson"

Pieces = Generator[bytes, None, None]
Gone = Callable[[], bool]


class Refusal(Exception):
    """A request that isn't obeyed: its status, and why, in one sentence."""

    def __init__(self, status: int, why: str) -> None:
        super().__init__(why)
        self.status = status


@dataclass(frozen=True)
class Answer:
    """What goes back: its kind, and its body or the pieces of it as they come."""

    kind: str
    body: bytes | Pieces
    headers: dict[str, str] = field(default_factory=dict)


class Answers:
    """Answers each request that is posted, by what it asks; `gone` tells whether its client has gone away."""

    def __init__(self, runner: Runner) -> None:
        self.runner = runner
        self.slider = Slider(runner, Cache())

    def examples(self) -> list[dict[str, Any]]:
        return examples()

    def program(self) -> dict[str, str | None]:
        """What is to be told of the program before anything is run."""
        return {"note": program_note(self.runner)}

    def run(self, asked: dict[str, Any], gone: Gone) -> Answer:
        form, script = form_of(asked), script_of(asked)
        run = self.runner.run(form, script, gone)

        def pieces() -> Pieces:
            last = b"\n"
            with closing(run.pieces):
                for piece in run.pieces:
                    last = piece[-1:] or last
                    yield piece
            if run.ended:
                yield b"" if last == b"\n" else b"\n"
                yield f"ended: {run.ended}\n".encode()

        return Answer(TEXT, pieces())

    def shown(self, asked: dict[str, Any], gone: Gone) -> Answer:
        return Answer(JSON, as_json(shown(self.runner, script_of(asked), gone)))

    def slide(self, asked: dict[str, Any], gone: Gone) -> Answer:
        script = script_of(asked)

        def pieces() -> Pieces:
            with closing(self.slider.rows(script, gone)) as rows:
                for row in rows:
                    yield as_json(row) + b"\n"

        return Answer(ROWS, pieces())

    def save(self, asked: dict[str, Any], gone: Gone) -> Answer:
        text = saved_page(self.slider, script_of(asked), gone=gone)
        return Answer(HTML, text.encode(), {"Content-Disposition": 'attachment; filename="nfc-page.html"'})


POSTED: dict[str, Callable[[Answers, dict[str, Any], Gone], Answer]] = {
    "run": Answers.run,
    "shown": Answers.shown,
    "slide": Answers.slide,
    "save": Answers.save,
}


GOT: dict[str, Callable[[Answers], Any]] = {"examples": Answers.examples, "program": Answers.program}


def as_json(value: Any) -> bytes:
    return json.dumps(value, separators=(",", ":")).encode()


def examples() -> list[dict[str, Any]]:
    """The scripts of examples/, each with the three lines on what to look at."""
    found = []
    for path in sorted(EXAMPLES.glob("*.script")):
        script = path.read_text("utf-8")
        about = [line.removeprefix("#").strip() for line in script.split("\n")[:3] if line.startswith("#")]
        found.append({"name": path.stem, "about": about, "script": script})
    return found


def program_note(runner: Runner) -> str | None:
    """Which command builds the program, where it isn't built; none where it is."""
    try:
        return runner.find().note
    except NoProgram as problem:
        return str(problem)


def form_of(asked: dict[str, Any]) -> str:
    form = asked.get("form", "run")
    if not isinstance(form, str) or form not in FORMS:
        raise Refusal(400, f"the form is one of {', '.join(FORMS)}")
    return form


def script_of(asked: dict[str, Any]) -> bytes:
    """The script as bytes. Those that are no text may be sent as Python escapes them, each as one lone surrogate."""
    script = asked.get("script")
    if not isinstance(script, str):
        raise Refusal(400, "the request has no script")
    try:
        return script.encode("utf-8", "surrogateescape")
    except UnicodeEncodeError:
        raise Refusal(400, "the script is no text") from None
