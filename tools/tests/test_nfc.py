"""The command `nfc.py` itself: its words, bad input, and the word `run`."""

from __future__ import annotations

import subprocess
import sys
import tempfile
import unittest
from pathlib import Path
from unittest import mock

import bench
import commands
from tests.calling import PROGRAM, ROOT, call

ONE_TAG = ROOT / "examples" / "one-tag.script"
REFUSED = ROOT / "examples" / "refused-line.script"
REPORT = ROOT / "examples" / "three-tags-collide.script.stdout"


class Help(unittest.TestCase):
    def test_each_word_stands_in_the_overview_with_its_first_line(self) -> None:
        called = call("--help")
        self.assertEqual((called.status, called.error), (0, ""))
        for word in commands.words():
            self.assertIn(f"\n  {word:<{commands.WIDTH}}  {commands.summary(word)}\n", called.text)
            self.assertTrue(commands.summary(word))

    def test_each_word_has_its_own_help(self) -> None:
        for word in commands.words():
            with self.subTest(word=word):
                called = call(word, "--help")
                self.assertEqual((called.status, called.error), (0, ""))
                self.assertTrue(called.text.startswith(f"usage: nfc.py {word} "))
                self.assertIn(commands.summary(word), called.text)

    def test_the_words_of_this_page_are_there(self) -> None:
        self.assertLessEqual({"run", "why", "annotate", "place", "dump", "ndef"}, set(commands.words()))

    def test_wrong_words(self) -> None:
        self.assertEqual(call().status, 2)
        called = call("fly")
        self.assertEqual((called.status, called.output), (2, b""))
        self.assertTrue(called.error.startswith("nfc: there is no word 'fly'; the words are run, why, "))


class BadInput(unittest.TestCase):
    """Each is one sentence and status 2."""

    def refuses(self, why: str, word: str, *words: object, given: bytes = b"") -> None:
        called = call(word, *words, given=given)
        self.assertEqual((called.status, called.output, called.error), (2, b"", f"nfc {word}: {why}\n"))

    def test_words_and_files(self) -> None:
        for word in commands.words():
            with self.subTest(word=word):
                self.refuses(f"unrecognized arguments: --fly (nfc.py {word} --help tells more)", word, "00", "--fly")
        for word in set(commands.words()) - {"ndef"}:
            with self.subTest(word=word):
                self.refuses("/nowhere: No such file or directory", word, "/nowhere")

    def test_reports(self) -> None:
        for word in {"annotate", "dump", "pcap", "ladder"} & set(commands.words()):
            with self.subTest(word=word):
                self.refuses("the report is empty", word)
                self.refuses("this is no report of the bench: line 1 is no line of one", word, given=b"hello")
                self.refuses("this is no report of the bench: line 1 is no line of one", word, given=b"\xff\0\n")

    def test_dumps(self) -> None:
        for given, why in {
            b"": "the dump is empty",
            b"hello": "unknown format",
            b"Filetype: Flipper NFC device\nDevice type: NTAG213\nPage 0: 04 11": "Page 0 has 2 bytes, not 4",
            b'{"FileType": "mfu", "blocks": {"0": "04': "unknown format: it begins like JSON and isn't",
        }.items():
            with self.subTest(given=given):
                self.refuses(why, "place", given=given)

    def test_a_report_that_ends_within_a_line_is_told_up_to_there(self) -> None:
        called = call("annotate", given=b"1 ok\n2 ! reset\n2 > 26/7 pa")
        self.assertEqual(called.status, 0)
        self.assertEqual(called.text.splitlines()[-1].split("  ")[0], "2 ! reset")


class Pipes(unittest.TestCase):
    def test_an_output_that_nobody_reads_ends_it_quietly(self) -> None:
        report = "".join(f"{number} ok\n" for number in range(1, 100000))
        words = [sys.executable, str(PROGRAM), "annotate"]
        with subprocess.Popen(words, stdin=subprocess.PIPE, stdout=subprocess.PIPE, stderr=subprocess.PIPE) as program:
            program.stdout.close()
            try:
                program.stdin.write(report.encode())
                program.stdin.close()
            except BrokenPipeError:
                pass
            self.assertEqual(program.stderr.read(), b"")
            self.assertEqual(program.wait(), 0)

    def test_each_stored_report_is_annotated_as_by_itself(self) -> None:
        words = [sys.executable, ROOT / "tools" / "annotate.py", REPORT]
        alone = subprocess.run(words, capture_output=True, check=True)
        self.assertEqual(call("annotate", REPORT).output, alone.stdout)


class Run(unittest.TestCase):
    """A script that stands for the program."""

    def stand_in(self, body: str) -> Path:
        folder = tempfile.TemporaryDirectory()
        self.addCleanup(folder.cleanup)
        path = Path(folder.name) / "bench"
        path.write_text(f"#!{sys.executable}\nimport sys\n{body}\n", "ascii")
        path.chmod(0o755)
        return path

    def run_by(self, program: Path, *words: object, given: bytes = b"") -> subprocess.CompletedProcess:
        command = [sys.executable, str(PROGRAM), "run", *map(str, words)]
        environment = {bench.VARIABLE: str(program), "PATH": "/usr/bin:/bin"}
        return subprocess.run(command, input=given, capture_output=True, env=environment)

    def test_words_script_report_and_status_go_through(self) -> None:
        program = self.stand_in("print(sys.argv[1:], len(sys.stdin.buffer.read()))\nsys.exit(5)")
        size = len(ONE_TAG.read_bytes())
        for words, given, told in (
            ((ONE_TAG,), b"", f"['run'] {size}"),
            (("--quiet", ONE_TAG), b"", f"['run', 'quiet'] {size}"),
            (("-",), b"find\n", "['run'] 5"),
            ((), b"x" * 100000, "['run'] 100000"),
        ):
            with self.subTest(words=words):
                ended = self.run_by(program, *words, given=given)
                self.assertEqual((ended.returncode, ended.stdout.decode(), ended.stderr), (5, told + "\n", b""))

    def test_a_refused_line_is_told_why(self) -> None:
        program = self.stand_in("sys.stdin.buffer.read()\nprint('fault 2 line 7')\nsys.exit(2)")
        ended = self.run_by(program, REFUSED)
        self.assertEqual((ended.returncode, ended.stdout), (2, b"fault 2 line 7\n"))
        told = b"line 7 is refused: no device 01020304 is placed: line 5 took it away\n"
        self.assertTrue(ended.stderr.startswith(told))

    def test_a_program_that_reads_no_further_ends_it(self) -> None:
        ended = self.run_by(self.stand_in("sys.exit(3)"), given=b"x" * 1000000)
        self.assertEqual((ended.returncode, ended.stderr), (3, b""))

    def test_each_line_is_handed_on_as_it_comes(self) -> None:
        program = self.stand_in("for line in sys.stdin: print(len(line), flush=True)")
        command = [sys.executable, str(PROGRAM), "run"]
        environment = {bench.VARIABLE: str(program)}
        with subprocess.Popen(command, stdin=subprocess.PIPE, stdout=subprocess.PIPE, env=environment) as running:
            for line in (b"a\n", b"bc\n"):
                running.stdin.write(line)
                running.stdin.flush()
                self.assertEqual(running.stdout.readline(), b"%d\n" % len(line))
            running.stdin.close()

    def test_without_a_program_it_says_how_to_get_one(self) -> None:
        ended = self.run_by(Path("/nowhere/bench"), ONE_TAG)
        self.assertEqual((ended.returncode, ended.stdout), (1, b""))
        self.assertIn(b"NFC_BENCH names /nowhere/bench, which is no program. Build it by `rt run`", ended.stderr)
        with mock.patch.object(bench, "program", lambda: None), mock.patch.dict("os.environ", {bench.VARIABLE: ""}):
            self.assertIn("crates/nfc_bench/out/nfc_bench isn't built", call("run", ONE_TAG).error)

    def test_the_program_itself(self) -> None:
        program = bench.program()
        if program is None:
            self.skipTest("the program isn't built")
        ended = self.run_by(program, ONE_TAG)
        self.assertEqual((ended.returncode, ended.stdout), (0, ONE_TAG.with_suffix(".script.stdout").read_bytes()))
        ended = self.run_by(program, REFUSED)
        self.assertEqual((ended.returncode, ended.stdout), (2, REFUSED.with_suffix(".script.stdout").read_bytes()))
        self.assertTrue(ended.stderr.startswith(b"line 7 is refused: "))


if __name__ == "__main__":
    unittest.main()
