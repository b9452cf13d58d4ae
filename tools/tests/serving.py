"""A page's server for tests, the programs that stand in for the built one, and how a test asks."""

from __future__ import annotations

import http.client
import json
import os
import socket
import tempfile
import time
import unittest
from contextlib import closing, suppress
from dataclasses import dataclass
from pathlib import Path
from threading import Thread
from typing import Any

import bench
from page.program import Limits, Program
from page.running import Runner
from page.server import ADDRESS, Server

ONE_TAG = b"place t2 01020304 16 000000000000000000000000E11006000303D00000FE\n"
WRITE = ONE_TAG + b"write 01020304 D1\n"
NOT_BUILT = "the program isn't built"
SLEEPING = "echo 1 ok\nsleep 300 &\necho $! $$ >> pids\nwait\n"
FLOODING = "echo $$ >> pids\nexec yes '1 ok'\n"

needs_program = unittest.skipUnless(bench.program(), NOT_BUILT)


@dataclass(frozen=True)
class Answer:
    """What came back."""

    status: int
    headers: http.client.HTTPMessage
    body: bytes

    @property
    def text(self) -> str:
        return self.body.decode()

    @property
    def json(self) -> Any:
        return json.loads(self.body)

    @property
    def rows(self) -> list[dict[str, Any]]:
        return [json.loads(line) for line in self.body.splitlines()]


class Serving(unittest.TestCase):
    """A test with a folder and a server of its own, of the built program where no other is said."""

    def setUp(self) -> None:
        folder = tempfile.TemporaryDirectory()
        self.addCleanup(folder.cleanup)
        self.folder = Path(folder.name)
        self.serve(Runner())

    def serve(self, runner: Runner) -> None:
        self.runner = runner
        self.server = Server(0, runner)
        self.port, self.token = self.server.server_port, self.server.token
        Thread(target=self.server.serve_forever, kwargs={"poll_interval": 0.02}, daemon=True).start()
        self.addCleanup(self.server.stop)
        self.addCleanup(self.server.shutdown)

    def serve_instead(self, text: str, limits: Limits = Limits()) -> None:
        """A server whose program is this text of a shell, run in the test's folder."""
        program = Program((str(self.stand_in(text)),), limits)
        self.serve(Runner(lambda: program))

    def stand_in(self, text: str, name: str = "stand-in") -> Path:
        path = self.folder / name
        path.write_text(f"#!/bin/sh\ncd {self.folder}\n{text}")
        path.chmod(0o700)
        return path

    def connected(self) -> http.client.HTTPConnection:
        return http.client.HTTPConnection(ADDRESS, self.port, timeout=60)

    def ask(self, method: str, path: str, body: bytes | None = None, **headers: str) -> Answer:
        with closing(self.connected()) as connection:
            return asked(connection, method, path, body, **headers)

    def post(self, name: str, **what: Any) -> Answer:
        return self.ask("POST", f"/{self.token}/{name}", json.dumps(what).encode())

    def begin(self, name: str, script: str) -> socket.socket:
        """A request whose answer isn't waited for."""
        body = json.dumps({"script": script}).encode()
        lines = (f"POST /{self.token}/{name} HTTP/1.1", f"Host: {ADDRESS}:{self.port}", f"Content-Length: {len(body)}")
        head = "".join(f"{line}\r\n" for line in (*lines, ""))
        line = socket.create_connection((ADDRESS, self.port), timeout=20)
        line.sendall(head.encode() + body)
        return line

    def pids(self, count: int) -> list[int]:
        """The processes that stand-ins told, once there are so many."""
        until = time.monotonic() + 20
        while time.monotonic() < until:
            with suppress(FileNotFoundError):
                pids = [int(word) for word in (self.folder / "pids").read_text().split()]
                if len(pids) >= count:
                    return pids
            time.sleep(0.02)
        self.fail("the program didn't begin")

    def assert_nothing_stays(self, count: int) -> None:
        """So many processes were started, and soon none of them is there any more, nor does the runner know of one."""
        self.assert_gone(self.pids(count))
        until = time.monotonic() + 20
        while self.runner.processes and time.monotonic() < until:
            time.sleep(0.02)
        self.assertEqual(self.runner.processes, set())

    def assert_gone(self, pids: list[int]) -> None:
        """Soon none of these processes is there any more: one that was killed may take a moment."""
        until = time.monotonic() + 20
        while any(map(is_there, pids)) and time.monotonic() < until:
            time.sleep(0.02)
        self.assertEqual([pid for pid in pids if is_there(pid)], [])


def asked(
    connection: http.client.HTTPConnection, method: str, path: str, body: bytes | None = None, **headers: str
) -> Answer:
    connection.request(method, path, body, headers)
    answer = connection.getresponse()
    return Answer(answer.status, answer.headers, answer.read())


def is_there(pid: int) -> bool:
    """Whether a process still runs; one that ended and whose status nobody took yet doesn't."""
    try:
        os.kill(pid, 0)
        return " Z " not in Path(f"/proc/{pid}/stat").read_text().rpartition(")")[2][:3]
    except (ProcessLookupError, FileNotFoundError):
        return False
