"""The page's server: what it refuses, and that every stored script gives the stored report."""

from __future__ import annotations

import json
import os
import random
import re
import socket
import time
import unittest
from concurrent.futures import ThreadPoolExecutor
from contextlib import closing
from pathlib import Path
from threading import BoundedSemaphore
from unittest import mock

import bench
from page.running import FORMS
from page.server import MOST_BODY
from tests.calling import ROOT
from tests.serving import ADDRESS, ONE_TAG, Serving, asked, needs_program

EXAMPLES = ROOT / "examples"


def stored() -> list[tuple[str, Path]]:
    """The stored reports, which stand beside their scripts, each with its form of words."""
    cases = [report for report in sorted((ROOT / "tests" / "cases").rglob("*.stdout")) if report.parent.name not in ("sweep", "audit")]
    reports = [*cases, *sorted(EXAMPLES.glob("*.stdout"))]
    return [(form_of(report.with_suffix(".args")), report) for report in reports]


def form_of(words: Path) -> str:
    """The case's own words stand behind `run`."""
    return " ".join(["run", *words.read_text().split()]) if words.is_file() else "run"


class Refused(Serving):
    """Each with its status, and one sentence of plain text."""

    def refuses(self, status: int, why: str, method: str, path: str, body: bytes | None = None, **headers: str) -> None:
        with self.subTest(method=method, path=path[:60], **headers):
            answer = self.ask(method, path, body, **headers)
            self.assertEqual((answer.status, answer.text), (status, f"{why}\n"))
            self.assertEqual(answer.headers["Content-Type"], "text/plain; charset=utf-8")

    def test_addresses(self) -> None:
        wrong = "0" * len(self.token)
        nothing = "there is nothing at this address"
        for path in ("/", f"/{self.token}", f"/{wrong}/", f"/{wrong}/run", f"/{self.token[:-1]}/"):
            self.refuses(404, nothing, "GET", path)
        self.refuses(404, nothing, "POST", f"/{wrong}/run", b'{"script": "find"}')

    def test_nothing_of_the_disk(self) -> None:
        readme = (ROOT / "README.md").read_bytes()[:40]
        names = ("../README.md", "..%2fREADME.md", "README.md", "page.py", "server.py", "/etc/passwd", "..", ".", "%00")
        for name in names:
            for path in (f"/{self.token}/{name}", name, f"/{name}", f"/{self.token}/../{self.token}/{name}"):
                answer = self.ask("GET", path)
                self.assertEqual(answer.status, 404, path)
                self.assertNotIn(readme, answer.body)

    def test_other_names_and_other_sites(self) -> None:
        page = f"/{self.token}/"
        host, origin = "this Host isn't the page's", "this Origin isn't the page's"
        here = f"{ADDRESS}:{self.port}"
        for name in ("example.org", f"example.org:{self.port}", ADDRESS, f"{ADDRESS}:1", f"{here}.example.org"):
            self.refuses(403, host, "GET", page, Host=name)
            self.refuses(403, host, "POST", f"{page}run", b'{"script": "find"}', Host=name)
        for site in ("https://example.org", "null", f"https://{ADDRESS}:{self.port}", f"http://{ADDRESS}:{self.port}1"):
            self.refuses(403, origin, "POST", f"{page}run", b'{"script": "find"}', Origin=site)
        for name in (ADDRESS, "localhost"):
            here = f"{name}:{self.port}"
            self.assertEqual(self.ask("GET", page, Host=here, Origin=f"http://{here}").status, 200)

    def test_methods(self) -> None:
        for method in ("PUT", "DELETE", "OPTIONS", "PATCH", "TRACE", "FLY"):
            self.refuses(405, "this method isn't known here", method, f"/{self.token}/")
        self.assertEqual(self.ask("HEAD", f"/{self.token}/").status, 405)
        self.refuses(405, "run is asked by POST", "GET", f"/{self.token}/run")
        self.refuses(405, "nothing is posted to this address", "POST", f"/{self.token}/page.js", b"{}")

    def test_lengths(self) -> None:
        run = f"/{self.token}/run"
        why = f"a request has at most {MOST_BODY} bytes"
        self.refuses(413, why, "POST", run, b"x" * 2_000_000)
        self.refuses(413, why, "POST", run, b"x" * (MOST_BODY + 1))
        for length in ("-1", "+2", "x", "", "9" * 5000):
            answer = self.ask("POST", run, b"{}", **{"Content-Length": length})
            self.assertIn(answer.status, (411, 413))
        chunked = {"Transfer-Encoding": "chunked"}
        self.refuses(411, "the request has to say its length", "POST", run, b"2\r\n{}\r\n0\r\n\r\n", **chunked)

    def test_bodies(self) -> None:
        dice = random.Random(69)
        deep = b"[" * 100_000
        for body in (b"", b"{", b"find\n", dice.randbytes(MOST_BODY), b"\xff\xfe", deep, b"1" * 5000):
            self.refuses(400, "the request is no JSON", "POST", f"/{self.token}/run", body)
        for body in (b"[]", b"1", b'"find"', b"null"):
            self.refuses(400, "the request is no object of JSON", "POST", f"/{self.token}/shown", body)
        for name in ("run", "shown", "slide", "save"):
            for body in (b"{}", b'{"script": 1}', b'{"script": null}'):
                self.refuses(400, "the request has no script", "POST", f"/{self.token}/{name}", body)
            self.refuses(400, "the script is no text", "POST", f"/{self.token}/{name}", b'{"script": "\\ud800"}')
        for form in (b'"make"', b'["run"]', b"1", b'"run; ls"'):
            body = b'{"script": "find", "form": %b}' % form
            self.refuses(400, "the form is one of run, run quiet", "POST", f"/{self.token}/run", body)

    def test_what_is_no_request(self) -> None:
        long = b"GET /" + b"x" * 70000
        for begun in (b"hello", b"\0\1\2", b"GET / HTTP/9.9", long):
            text = begun + b"\r\n\r\n"
            with self.subTest(text[:20]), closing(self.begin("examples", "")) as line:
                line.sendall(text)
                answer = b"".join(iter(lambda: line.recv(1 << 16), b""))
                self.assertNotIn(b"Traceback", answer)
                self.assertNotIn(b"<", answer)
        self.assertEqual(self.ask("GET", f"/{self.token}/").status, 200)

    def test_more_connections_than_a_page_needs(self) -> None:
        self.server.places = BoundedSemaphore(3)
        lines = [socket.create_connection((ADDRESS, self.port), timeout=20) for _ in range(4)]
        self.assertEqual(lines[3].recv(1), b"")
        for line in lines:
            line.close()
        until = time.monotonic() + 20
        while not self.server.places.acquire(blocking=False) and time.monotonic() < until:
            time.sleep(0.02)
        self.server.places.release()
        self.assertEqual(self.ask("GET", f"/{self.token}/").status, 200)


class Served(Serving):
    def test_the_files_have_the_page_and_its_parts(self) -> None:
        for name, kind, part in (
            ("", "text/html", "<!doctype html>"),
            ("page.js", "text/javascript", "const drawLadder"),
            ("page.css", "text/css", ".ladder"),
        ):
            answer = self.ask("GET", f"/{self.token}/{name}")
            self.assertEqual((answer.status, answer.headers["Content-Type"]), (200, f"{kind}; charset=utf-8"))
            self.assertIn(part, answer.text)
            self.assertIn("default-src 'none'", answer.headers["Content-Security-Policy"])
            self.assertEqual(answer.headers["X-Content-Type-Options"], "nosniff")

    def test_the_token_has_128_bits_and_is_another_one_each_time(self) -> None:
        self.assertRegex(self.token, re.compile("[0-9a-f]{32}"))
        first = self.token
        self.serve(self.runner)
        self.assertNotEqual(self.token, first)

    def test_it_listens_to_this_machine_alone(self) -> None:
        self.assertEqual(self.server.socket.getsockname()[0], "127.0.0.1")

    def test_examples(self) -> None:
        told = self.ask("GET", f"/{self.token}/examples").json
        self.assertEqual([one["name"] for one in told], [path.stem for path in sorted(EXAMPLES.glob("*.script"))])
        for one in told:
            self.assertEqual(len(one["about"]), 3)
            self.assertEqual(one["script"], (EXAMPLES / f"{one['name']}.script").read_text())


@needs_program
class Reports(Serving):
    def test_every_stored_script_gives_the_stored_report(self) -> None:
        reports = [(form, report) for form, report in stored() if form in FORMS]
        self.assertGreater(len(reports), 800)
        shares = [reports[first::4] for first in range(4)]
        with ThreadPoolExecutor(len(shares)) as pool:
            different = [name for names in pool.map(self.different, shares) for name in names]
        self.assertEqual(different, [])

    def different(self, reports: list[tuple[str, Path]]) -> list[str]:
        """Which reports don't come back, asked over one connection."""
        found = []
        with closing(self.connected()) as connection:
            for form, report in reports:
                script = report.with_suffix("").read_bytes().decode("utf-8", "surrogateescape")
                body = json.dumps({"form": form, "script": script}).encode()
                answer = asked(connection, "POST", f"/{self.token}/run", body)
                if (answer.status, answer.body) != (200, report.read_bytes()):
                    found.append(str(report))
        return found

    def test_answers_alone(self) -> None:
        answer = self.post("run", form="run quiet", script=f"{ONE_TAG.decode()}read 01020304\n")
        self.assertEqual(answer.text, "1 ok\n2 message D00000 writable\n")

    def test_shown(self) -> None:
        script = (EXAMPLES / "one-tag.script").read_text()
        told = self.post("shown", script=script).json
        self.assertEqual(told["report"], (EXAMPLES / "one-tag.script.stdout").read_text())
        self.assertEqual((told["status"], told["refused"], told["note"]), (0, None, None))
        self.assertEqual([entry["line"] for entry in told["data"]["entries"]], ["4", "5"])

    def test_a_refused_line_has_its_reason(self) -> None:
        told = self.post("shown", script="find\nread  01020304\n").json
        self.assertEqual(told["status"], 2)
        self.assertEqual(told["refused"]["line"], 2)
        self.assertEqual(told["refused"]["reason"], "two spaces stand in a row, and words are parted by one")
        told = self.post("shown", script="read 0102\n").json
        self.assertEqual(told["refused"]["expected"], "read ID")

    def test_bad_scripts_are_told_in_one_sentence(self) -> None:
        dice = random.Random(69)
        noise = dice.randbytes(100_000).decode("latin-1")
        markup = "\0\x1b[31m<script>alert(1)</script>&amp;\x7f\u202e"
        for script, line, reason in (
            ("#\n" * 1000 + "find", 1001, "a script has at most 1000 lines, comments and empty ones too"),
            (markup, 1, "byte 1 is 00h, which is no printable ASCII"),
            (noise, 1, None),
            ("x" * 900_000, 1, "it has 900000 bytes, and a line has at most 4096"),
        ):
            with self.subTest(script[:20]):
                told = self.post("shown", script=script).json
                self.assertEqual((told["status"], told["refused"]["line"]), (2, line))
                if reason:
                    self.assertEqual(told["refused"]["reason"], reason)
                self.assertNotIn("\n", told["refused"]["reason"])
        told = self.post("shown", script="").json
        self.assertEqual((told["status"], told["report"], told["note"]), (0, "", "The script is empty."))

    def test_of_a_built_program_nothing_is_to_be_told(self) -> None:
        self.assertEqual(self.ask("GET", f"/{self.token}/program").json, {"note": None})

    def test_fates_that_are_left_are_told(self) -> None:
        told = self.post("shown", script="find\nfates PL\n").json
        self.assertEqual(told["note"], "2 fates of line 2 still left.")


class NoProgram(Serving):
    def test_the_command_that_builds_it_is_told(self) -> None:
        with mock.patch.dict(os.environ, {bench.VARIABLE: "/nowhere", "PATH": str(self.folder)}):
            for name in ("run", "shown", "slide", "save"):
                answer = self.post(name, script="find\n")
                self.assertEqual(answer.status, 503, name)
                self.assertIn("`rt run` in crates/nfc_bench", answer.text)
                self.assertEqual(answer.text.count("\n"), 1)
            self.assertIn("`rt run` in crates/nfc_bench", self.ask("GET", f"/{self.token}/program").json["note"])

    def test_meanwhile_the_tool_runs_it_where_it_is_there(self) -> None:
        self.stand_in("echo building >&2\necho \"$@\" > words\necho 1 ok\ncat > got\necho run=ended status=2\n", "rt")
        path = f"{self.folder}:{os.environ['PATH']}"
        with mock.patch.dict(os.environ, {bench.VARIABLE: "/nowhere", "PATH": path}):
            self.assertEqual(self.post("run", form="run quiet", script="find\n").text, "1 ok\n")
            self.assertEqual((self.folder / "words").read_text(), "try -- run quiet\n")
            self.assertEqual((self.folder / "got").read_text(), "find\n")
            self.assertIn("half a minute", self.ask("GET", f"/{self.token}/program").json["note"])
            told = self.post("shown", script="find\n").json
            self.assertEqual((told["status"], told["report"]), (2, "1 ok\n"))
            self.assertIn("half a minute", told["note"])
            self.assertIn("needs the built program", self.post("slide", script="find\n").rows[0]["none"])


if __name__ == "__main__":
    unittest.main()
