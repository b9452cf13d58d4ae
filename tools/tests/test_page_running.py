"""Runs behind the page: their limits, how many at once, and that no process stays whoever goes away."""

from __future__ import annotations

import os
import re
import signal
import subprocess
import sys
import time
import unittest
from concurrent.futures import ThreadPoolExecutor
from contextlib import closing
from http.client import HTTPConnection
from unittest import mock

import bench
from page.program import Limits
from page.running import AT_ONCE
from tests.calling import PROGRAM
from tests.serving import ADDRESS, FLOODING, SLEEPING, WRITE, Serving, asked, needs_program

SHORT = Limits(seconds=1.5)
SMALL = Limits(size=300_000)


class Limited(Serving):
    def test_the_limits_are_those_that_are_told(self) -> None:
        self.assertEqual(Limits().too_long(), "the program was ended after 20 seconds")
        self.assertEqual(Limits().too_much(), "the program was ended after 64 MB of output")

    def test_a_run_that_takes_long_is_ended(self) -> None:
        self.serve_instead(SLEEPING, SHORT)
        answer = self.post("run", script="find\n")
        self.assertEqual(answer.text, "1 ok\nended: the program was ended after 1.5 seconds\n")
        told = self.post("shown", script="find\n").json
        self.assertEqual((told["status"], told["report"]), (None, "1 ok\n"))
        self.assertEqual(told["note"], "The program was ended after 1.5 seconds.")
        self.assert_nothing_stays(4)

    def test_one_that_closes_its_output_and_goes_on_is_ended(self) -> None:
        self.serve_instead("echo $$ >> pids\nexec sleep 300 >&-\n", SHORT)
        self.assertEqual(self.post("run", script="").text, "ended: the program was ended after 1.5 seconds\n")
        self.assert_nothing_stays(1)

    def test_one_that_writes_much_is_ended(self) -> None:
        self.serve_instead(FLOODING, SMALL)
        answer = self.post("run", script="find\n")
        report, _, told = answer.text.partition("ended: ")
        self.assertEqual((len(report), told), (SMALL.size, "the program was ended after 300000 bytes of output\n"))
        self.assert_nothing_stays(1)

    def test_a_line_that_is_cut_off_is_no_line(self) -> None:
        self.serve_instead("echo $$ >> pids\nprintf '1 ok\\n2 found'\nexec sleep 300\n", SHORT)
        answer = self.post("run", script="find\n")
        self.assertEqual(answer.text, "1 ok\n2 found\nended: the program was ended after 1.5 seconds\n")
        told = self.post("shown", script="find\n").json
        self.assertEqual([entry["answer"] for entry in told["data"]["entries"]], ["ok"])
        self.assert_nothing_stays(2)

    def test_a_slide_or_a_file_of_a_run_that_was_ended_says_so(self) -> None:
        self.serve_instead(SLEEPING, SHORT)
        rows = self.post("slide", script=WRITE.decode()).rows
        self.assertEqual(rows, [{"none": "the program was ended after 1.5 seconds"}])
        self.assertEqual(self.post("save", script=WRITE.decode()).status, 200)
        self.assert_nothing_stays(6)

    def test_at_most_so_many_run_at_once_and_more_wait(self) -> None:
        self.serve_instead("echo begin >> log\nsleep 0.3\necho end >> log\necho 1 ok\n")
        with ThreadPoolExecutor(AT_ONCE + 3) as pool:
            answers = list(pool.map(lambda _: self.post("run", script="find\n").text, range(AT_ONCE + 3)))
        self.assertEqual(answers, ["1 ok\n"] * (AT_ONCE + 3))
        now, most = 0, 0
        for line in (self.folder / "log").read_text().split():
            now += 1 if line == "begin" else -1
            most = max(most, now)
        self.assertEqual((now, most), (0, AT_ONCE))

    def test_a_program_that_cannot_be_started(self) -> None:
        self.serve_instead("echo 1 ok\n")
        (self.folder / "stand-in").chmod(0o600)
        answer = self.post("run", script="find\n")
        self.assertEqual((answer.status, answer.text), (503, "The program can't be started: Permission denied.\n"))

    def test_a_program_that_fails_is_told_by_its_status(self) -> None:
        self.serve_instead("echo 1 ok\nexit 5\n")
        self.assertEqual(self.post("shown", script="find\n").json["status"], 5)
        self.serve_instead("kill -9 $$\n")
        self.assertEqual(self.post("shown", script="find\n").json["status"], 137)

    def test_no_shell_reads_the_script(self) -> None:
        self.serve_instead("cat > got\necho \"$@\" > words\necho 1 ok\n")
        self.post("run", script="find; touch x\n$(touch y)\n", form="run quiet")
        self.assertEqual((self.folder / "got").read_text(), "find; touch x\n$(touch y)\n")
        self.assertEqual((self.folder / "words").read_text(), "run quiet\n")
        self.assertEqual({path.name for path in self.folder.iterdir()}, {"got", "words", "stand-in"})


class Streaming(Serving):
    def test_the_output_comes_as_it_is_written(self) -> None:
        self.serve_instead("echo 1 ok\nwhile [ ! -e go ]; do sleep 0.02; done\necho 2 ok\n")
        with closing(self.connected()) as connection:
            connection.request("POST", f"/{self.token}/run", b'{"script": "find"}')
            answer = connection.getresponse()
            self.assertEqual(answer.readline(), b"1 ok\n")
            (self.folder / "go").touch()
            self.assertEqual(answer.read(), b"2 ok\n")


class GoneAway(Serving):
    def test_a_client_that_goes_away_ends_its_run(self) -> None:
        self.serve_instead(SLEEPING)
        for name in ("run", "shown", "slide", "save"):
            with self.subTest(name):
                (self.folder / "pids").unlink(missing_ok=True)
                line = self.begin(name, WRITE.decode())
                self.pids(2)
                line.close()
                self.assert_nothing_stays(2)

    def test_a_client_that_goes_away_while_much_is_written(self) -> None:
        self.serve_instead(FLOODING)
        line = self.begin("run", "find\n")
        line.recv(1000)
        line.close()
        self.assert_nothing_stays(1)

    def test_one_that_waits_for_its_turn_leaves_it(self) -> None:
        self.serve_instead(SLEEPING)
        lines = [self.begin("run", "find\n") for _ in range(AT_ONCE)]
        self.pids(2 * AT_ONCE)
        self.begin("run", "find\n").close()
        time.sleep(0.5)
        for line in lines:
            line.close()
        self.assert_nothing_stays(2 * AT_ONCE)
        time.sleep(0.3)
        self.assertEqual(len(self.pids(0)), 2 * AT_ONCE)

    def test_the_server_answers_on(self) -> None:
        self.serve_instead(SLEEPING, SHORT)
        for _ in range(3):
            self.begin("run", "find\n").close()
        self.assertEqual(self.ask("GET", f"/{self.token}/").status, 200)
        self.assertIn("ended:", self.post("run", script="find\n").text)


class Ended(Serving):
    """The word itself, in a process of its own."""

    def started(self, text: str) -> subprocess.Popen[str]:
        environment = {**os.environ, bench.VARIABLE: str(self.stand_in(text))}
        words = [sys.executable, str(PROGRAM), "page", "--no-open"]
        pipe = subprocess.PIPE
        process = subprocess.Popen(words, env=environment, text=True, stdout=pipe, stderr=pipe, start_new_session=True)
        self.addCleanup(process.communicate)
        self.addCleanup(process.kill)
        address = process.stdout.readline()
        found = re.fullmatch(r"http://127\.0\.0\.1:([0-9]+)/([0-9a-f]{32})/\n", address)
        self.assertIsNotNone(found, address)
        self.port, self.token = int(found[1]), found[2]
        return process

    def test_it_ends_by_a_signal_with_all_that_it_started(self) -> None:
        for number in (signal.SIGINT, signal.SIGTERM, signal.SIGHUP):
            with self.subTest(number.name):
                (self.folder / "pids").unlink(missing_ok=True)
                process = self.started(SLEEPING)
                lines = [self.begin("run", "find\n"), self.begin("slide", WRITE.decode())]
                pids = self.pids(4)
                process.send_signal(number)
                output, errors = process.communicate(timeout=20)
                self.assertEqual((process.returncode, output, errors), (0, "", "Ctrl-C ends it.\n"))
                self.assert_gone(pids)
                for line in lines:
                    line.close()

    def test_the_making_of_a_file_ends_by_a_signal_too(self) -> None:
        script, target = self.folder / "script", self.folder / "one.html"
        script.write_bytes(WRITE)
        environment = {**os.environ, bench.VARIABLE: str(self.stand_in(SLEEPING))}
        words = [sys.executable, str(PROGRAM), "page", str(script), "-o", str(target)]
        process = subprocess.Popen(words, env=environment, text=True, stderr=subprocess.PIPE, start_new_session=True)
        self.addCleanup(process.communicate)
        self.addCleanup(process.kill)
        pids = self.pids(2)
        process.send_signal(signal.SIGINT)
        _, errors = process.communicate(timeout=20)
        self.assertEqual((process.returncode, errors), (130, ""))
        self.assert_gone(pids)
        self.assertFalse(target.exists())

    def test_it_serves(self) -> None:
        process = self.started("echo 1 ok\n")
        with closing(HTTPConnection(ADDRESS, self.port)) as connection:
            answer = asked(connection, "POST", f"/{self.token}/run", b'{"script": "find"}')
        self.assertEqual(answer.text, "1 ok\n")
        process.send_signal(signal.SIGINT)
        self.assertEqual(process.wait(20), 0)

    def test_a_port_that_is_taken_is_one_sentence(self) -> None:
        words = [sys.executable, str(PROGRAM), "page", "--no-open", "--port", str(self.port)]
        ended = subprocess.run(words, capture_output=True, text=True, timeout=20)
        self.assertEqual((ended.returncode, ended.stdout), (2, ""))
        self.assertEqual(ended.stderr, f"nfc page: port {self.port}: Address already in use\n")

    def test_it_opens_the_browser_unless_it_is_told_not_to(self) -> None:
        opened = self.stand_in('echo "$1" > opened\n', "browser")
        with mock.patch.dict(os.environ, {"BROWSER": str(opened)}):
            environment = {**os.environ, bench.VARIABLE: str(self.stand_in("echo 1 ok\n"))}
            words = [sys.executable, str(PROGRAM), "page"]
            output = {"stdout": subprocess.PIPE, "stderr": subprocess.DEVNULL}
            process = subprocess.Popen(words, env=environment, text=True, **output)
        self.addCleanup(process.communicate)
        self.addCleanup(process.kill)
        address = process.stdout.readline()
        until = time.monotonic() + 20
        while not (self.folder / "opened").is_file() and time.monotonic() < until:
            time.sleep(0.02)
        time.sleep(0.1)
        self.assertEqual((self.folder / "opened").read_text(), address)


@needs_program
class Heavy(Serving):
    def test_a_large_report_is_shown_whole(self) -> None:
        script = WRITE.decode() + "read 01020304\n" * 150
        told = self.post("shown", script=script).json
        self.assertEqual(told["status"], 0)
        self.assertEqual(len(told["data"]["entries"]), 152)


if __name__ == "__main__":
    unittest.main()
