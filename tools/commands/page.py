"""opens a page in the browser: a script, what goes over the air, and a slider for the moment of the break

    python3 tools/nfc.py page [--port N] [--no-open]
    python3 tools/nfc.py page SCRIPT -o FILE.html

The first serves the page to this machine alone, prints its address and opens it. The address has a token: who hasn't
it is refused. The page asks the built program, and tells how to build it where it isn't there. Ctrl-C ends the server
and all that it started. docs/page.md tells the page.

The second makes one file of a script, with all its runs inside. It needs no server and no network.
"""

from __future__ import annotations

import signal
import sys
import webbrowser
from threading import Event, Thread, current_thread, main_thread
from types import FrameType

from commands.given import BadInput, Words, content_of
from commands.run import NO_PROGRAM
from page.answering import program_note
from page.cache import Cache
from page.program import NoProgram
from page.running import ENDS, Runner
from page.saving import saved_page
from page.server import MOST_BODY, Server
from page.sliding import Slider

def main(words: list[str]) -> int:
    parser = Words("page", __doc__)
    parser.add_argument("script", nargs="?", help="the script of which one file is made")
    parser.add_argument("-o", "--output", help="the one file")
    parser.add_argument("--port", type=int, default=0, help="where to listen; a free port where none is named")
    parser.add_argument("--no-open", action="store_true", help="open no browser")
    chosen = parser.parse_args(words)
    if chosen.script is not None:
        return save(content_of(chosen.script), chosen.output)
    if chosen.output is not None:
        raise BadInput("name the script of which the file is made")
    if not 0 <= chosen.port <= 65535:
        raise BadInput(f"{chosen.port} is no port")
    return serve(chosen.port, not chosen.no_open)


def save(script: bytes, name: str | None) -> int:
    """Makes the one file."""
    if name is None:
        raise BadInput("name the file with -o")
    if len(script) > MOST_BODY:
        raise BadInput(f"the script has {len(script)} bytes, and the page takes at most {MOST_BODY}")
    left = ended_by_signals()
    runner = Runner()
    try:
        text = saved_page(Slider(runner, Cache()), script, gone=left.is_set)
    except NoProgram as problem:
        print(f"nfc page: {problem}", file=sys.stderr)
        return NO_PROGRAM
    finally:
        runner.stop()
    with open(name, "w", encoding="utf-8") as file:
        file.write(text)
    return 0


def serve(port: int, opens: bool) -> int:
    """Serves until Ctrl-C, or until it is told to end."""
    ended_by_signals()
    runner = Runner()
    try:
        server = Server(port, runner)
    except OSError as problem:
        raise BadInput(f"port {port}: {problem.strerror}") from None
    try:
        print(server.address, flush=True)
        print(" ".join(filter(None, (program_note(runner), "Ctrl-C ends it."))), file=sys.stderr)
        if opens:
            Thread(target=webbrowser.open, args=(server.address,), daemon=True).start()
        server.serve_forever(poll_interval=0.1)
    except KeyboardInterrupt:
        return 0
    finally:
        server.stop()
    return 0


def ended_by_signals() -> Event:
    """Lets the other signals that ask a program to end do what Ctrl-C does. What runs meanwhile is told by an event."""
    left = Event()

    def interrupted(_signal: int, _frame: FrameType | None) -> None:
        left.set()
        raise KeyboardInterrupt

    if current_thread() is main_thread():
        for ends in ENDS:
            signal.signal(ends, interrupted)
    return left
