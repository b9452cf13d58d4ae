"""The page's server: this machine alone, one secret address, three files of its own, and runs of the program.

What a request names is looked up in a table, and never becomes the name of a file. What is refused is told in one
sentence of plain text.
"""

from __future__ import annotations

import itertools
import json
import secrets
import select
import socket
import time
from contextlib import closing, suppress
from http.server import BaseHTTPRequestHandler, ThreadingHTTPServer
from threading import BoundedSemaphore
from typing import Any, Callable

from page.answering import GOT, HTML, JSON, POSTED, TEXT, Answers, Pieces, Refusal, as_json
from page.parts import FRAME, SCRIPTS, STYLES, joined
from page.program import NoProgram
from page.running import Gone, Runner

ADDRESS = "127.0.0.1"
NAMES = (ADDRESS, "localhost")
MOST_BODY = 1_000_000
MOST_DRAINED = 8_000_000
MOST_CONNECTIONS = 100
PATIENCE = 30
DRAINING = 5
PIECE = 1 << 16

FILES = {
    "": (HTML, FRAME),
    "page.js": ("text/javascript; charset=utf-8", SCRIPTS),
    "page.css": ("text/css; charset=utf-8", STYLES),
}
POLICY = "; ".join(
    (
        "default-src 'none'",
        "script-src 'self'",
        "style-src 'self'",
        "connect-src 'self'",
        "img-src 'self' data:",
        "base-uri 'none'",
        "form-action 'none'",
        "frame-ancestors 'none'",
    )
)
HEADERS = {
    "Cache-Control": "no-store",
    "Content-Security-Policy": POLICY,
    "Referrer-Policy": "no-referrer",
    "X-Content-Type-Options": "nosniff",
    "X-Frame-Options": "DENY",
}


class Server(ThreadingHTTPServer):
    """Listens, with a token that only the printed address has."""

    daemon_threads = True
    block_on_close = False
    request_queue_size = 64

    def __init__(self, port: int, runner: Runner) -> None:
        super().__init__((ADDRESS, port), Handler)
        self.runner = runner
        self.places = BoundedSemaphore(MOST_CONNECTIONS)
        self.answers = Answers(runner)
        self.token = secrets.token_hex(16)
        self.hosts = {f"{name}:{self.server_port}" for name in NAMES}

    @property
    def address(self) -> str:
        return f"http://{ADDRESS}:{self.server_port}/{self.token}/"

    def server_bind(self) -> None:
        """Binds without asking who this machine is, which may take a while where there is no network."""
        self.socket.bind(self.server_address)
        self.server_address = self.socket.getsockname()
        self.server_name, self.server_port = self.server_address[:2]

    def process_request(self, request: Any, client_address: Any) -> None:
        """Takes a connection; above a number that no page needs it is closed."""
        if self.places.acquire(blocking=False):
            super().process_request(request, client_address)
        else:
            self.shutdown_request(request)

    def process_request_thread(self, request: Any, client_address: Any) -> None:
        try:
            super().process_request_thread(request, client_address)
        finally:
            self.places.release()

    def handle_error(self, request: Any, client_address: Any) -> None:
        """A connection that fails concerns its client alone."""

    def stop(self) -> None:
        self.runner.stop()
        self.server_close()


class Handler(BaseHTTPRequestHandler):
    """One connection, request after request."""

    protocol_version = "HTTP/1.1"
    server_version = "nfc-page"
    sys_version = ""
    timeout = PATIENCE
    disable_nagle_algorithm = True
    has_begun = False
    server: Server

    def do_GET(self) -> None:
        self.obey(self.get)

    def do_POST(self) -> None:
        self.obey(self.post)

    def obey(self, obeyed: Callable[[str], None]) -> None:
        """Answers a request, or tells why not."""
        self.has_begun = False
        try:
            self.check_origin()
            obeyed(self.name())
        except Refusal as refusal:
            self.refuse(refusal.status, str(refusal))
        except NoProgram as problem:
            self.fail(503, str(problem))
        except (Gone, OSError):
            self.close_connection = True
        except Exception as problem:
            self.fail(500, f"the server failed at this request ({type(problem).__name__})")

    def fail(self, status: int, why: str) -> None:
        """Tells why, unless an answer has begun already: that one is cut off."""
        self.close_connection = True
        with suppress(OSError):
            if not self.has_begun:
                self.refuse(status, why)

    def check_origin(self) -> None:
        """Another site's page can neither ask by another name of this machine, nor from its own origin."""
        host, origin = self.headers.get_all("Host", []), self.headers.get_all("Origin", [])
        if len(host) != 1 or host[0].lower() not in self.server.hosts:
            raise Refusal(403, "this Host isn't the page's")
        if any(one.lower() != f"http://{host[0].lower()}" for one in origin):
            raise Refusal(403, "this Origin isn't the page's")

    def name(self) -> str:
        """What stands behind the token."""
        parts = self.path.split("/")
        if len(parts) != 3 or parts[0] or not secrets.compare_digest(parts[1].encode(), self.server.token.encode()):
            raise Refusal(404, "there is nothing at this address")
        return parts[2]

    def get(self, name: str) -> None:
        if name in GOT:
            self.answer(200, JSON, as_json(GOT[name](self.server.answers)))
        elif name in FILES:
            kind, parts = FILES[name]
            self.answer(200, kind, joined(parts).encode())
        elif name in POSTED:
            raise Refusal(405, f"{name} is asked by POST")
        else:
            raise Refusal(404, "there is nothing at this address")

    def post(self, name: str) -> None:
        if name not in POSTED:
            raise Refusal(405 if name in FILES or name in GOT else 404, "nothing is posted to this address")
        answer = POSTED[name](self.server.answers, self.asked(), self.is_gone)
        if isinstance(answer.body, bytes):
            self.answer(200, answer.kind, answer.body, **answer.headers)
        else:
            self.stream(answer.kind, answer.body)

    def asked(self) -> dict[str, Any]:
        """The request's body."""
        length = self.headers.get("Content-Length", "")
        if "Transfer-Encoding" in self.headers or not (length.isascii() and length.isdecimal()):
            raise Refusal(411, "the request has to say its length")
        if int(length[:20]) > MOST_BODY:
            raise Refusal(413, f"a request has at most {MOST_BODY} bytes")
        body = self.rfile.read(int(length))
        if len(body) != int(length):
            raise Gone
        try:
            asked = json.loads(body)
        except (ValueError, RecursionError):
            raise Refusal(400, "the request is no JSON") from None
        if not isinstance(asked, dict):
            raise Refusal(400, "the request is no object of JSON")
        return asked

    def answer(self, status: int, kind: str, body: bytes, **more: str) -> None:
        self.begin(status, kind, **{"Content-Length": str(len(body))}, **more)
        self.wfile.write(body)

    def begin(self, status: int, kind: str, **headers: str) -> None:
        self.has_begun = True
        self.send_response(status)
        for name, value in {"Content-Type": kind, **HEADERS, **headers}.items():
            self.send_header(name, value)
        self.end_headers()

    def stream(self, kind: str, pieces: Pieces) -> None:
        """An answer whose pieces go out as they come. Where nothing can run, that is told before anything is sent."""
        with closing(pieces):
            first = next(pieces, b"")
            self.begin(200, kind, **{"Transfer-Encoding": "chunked"})
            for piece in itertools.chain([first], pieces):
                self.chunk(piece)
        self.wfile.write(b"0\r\n\r\n")

    def chunk(self, piece: bytes) -> None:
        if piece:
            self.wfile.write(b"%X\r\n%b\r\n" % (len(piece), piece))

    def refuse(self, status: int, why: str) -> None:
        """Tells why, and ends the connection; what the client still sends is taken, so that it hears the answer."""
        self.close_connection = True
        self.answer(status, TEXT, f"{why}\n".encode(), Connection="close")
        with suppress(OSError):
            self.drain()

    def drain(self) -> None:
        self.connection.shutdown(socket.SHUT_WR)
        self.connection.settimeout(1)
        until, taken = time.monotonic() + DRAINING, 0
        while taken < MOST_DRAINED and time.monotonic() < until and (piece := self.connection.recv(PIECE)):
            taken += len(piece)

    def is_gone(self) -> bool:
        """Whether the client has closed its end."""
        waiting = select.poll()
        waiting.register(self.connection, select.POLLIN)
        if not waiting.poll(0):
            return False
        try:
            return not self.connection.recv(1, socket.MSG_PEEK)
        except OSError:
            return True

    def send_error(self, code: int, message: str | None = None, explain: str | None = None) -> None:
        """What Python's own server refuses, such as another method: the same form as all else."""
        status, why = (405, "this method isn't known here") if code == 501 else (code, "this is no request of HTTP")
        with suppress(OSError):
            self.refuse(status, why)

    def log_message(self, *_: Any) -> None:
        """Nothing is written of requests."""
