"""What the page shows of a script: its report, as data for the ladder too, and why a line is refused."""

from __future__ import annotations

import re
from typing import Any, Callable

from page.data import ladder_data
from page.running import Ran, Runner, never
from script.fates import Transmissions, fates_notes
from script.refusal import Refusal, Script, read_script

REFUSED = 2
MOST_DRAWN = 150_000
FAULT_LINE = re.compile(rb"fault 2 line ([0-9]+)\n\Z")


def shown(runner: Runner, script: bytes, gone: Callable[[], bool] = never) -> dict[str, Any]:
    """The answer of `/shown`."""
    return told(script, runner.whole("run", script, gone))


def told(script: bytes, ran: Ran) -> dict[str, Any]:
    read = read_script(script)
    report = ran.output.decode("ascii", "replace")
    lines = report.split("\n")[:-1]
    data, too_large = drawn(lines, script)
    notes = [sentence(ran.ended), ran.note, nothing(script), too_large, *fates_told(read, lines)]
    return {
        "status": ran.status,
        "report": report,
        "data": data,
        "refused": refused(ran, read.refusal),
        "note": " ".join(filter(None, notes)) or None,
    }


def sentence(text: str | None) -> str | None:
    return f"{text[0].upper()}{text[1:]}." if text else None


def nothing(script: bytes) -> str | None:
    """What is said of a script that asks for nothing at all."""
    if not script:
        return "The script is empty."
    return None


def drawn(lines: list[str], script: bytes) -> tuple[dict[str, object] | None, str | None]:
    """The ladder's data; none of a report that is too long to be drawn, with a sentence."""
    if len(lines) > MOST_DRAWN:
        return None, f"The report has {len(lines)} lines; a picture is drawn of at most {MOST_DRAWN}."
    return ladder_data(lines, "", script.decode("utf-8", "replace").split("\n")), None


def fates_told(read: Script, lines: list[str]) -> list[str]:
    """Which fates another command took than one may expect, and which are left."""
    transmissions = Transmissions()
    for line in lines:
        transmissions.count(line)
    return [f"{note[0].upper()}{note[1:]}." for note in fates_notes(read.obeyed, transmissions.counts)]


def refused(ran: Ran, refusal: Refusal | None) -> dict[str, Any] | None:
    """The line that the program refused, with the words of `why`."""
    fault = FAULT_LINE.search(ran.output)
    if ran.status != REFUSED or fault is None:
        return None
    line = int(fault[1])
    if refusal is None or refusal.number != line:
        return {"line": line, "reason": "the program refuses it, and `why` doesn't know the reason", "expected": None}
    command = refusal.fault.command
    return {"line": line, "reason": str(refusal.fault), "expected": command.form if command else None}
