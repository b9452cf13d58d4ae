"""The word `dump`: the file of a `store` line, of which `place` makes the tag's line again."""

from __future__ import annotations

import json
import subprocess
import tempfile
import unittest
from pathlib import Path

import bench
from script.refusal import read_script
from tests.calling import call

PLACES = (
    "place t2 01020304 8 000000000000000000000000E11002000303D00000FE",
    "place t2 04112233445566 40 041122BF3344556644480000E11012000103A00C34030DD101095402656E68692074616620FE",
    "place t2 01020304050607080910 4 -",
    "place t2 01020304 256 000000000000000000000000E1107E000303D00000FE",
    "place t5 E004010203040506 8 4 E14004000303D00000FE",
    "place t5 E004010203040506 2 8 E14002000303D00000FE",
    "place t5 E004010203040506 3 16 -",
    "place t5 FF04010203040506 2048 32 E2400000000000FF0303D00000FE",
)
T4 = "place t4 02030405 8 000F20003B00340406E10400100000 0005D1010155"


def store_of(place: str) -> str:
    """What the bench shows of the tag of this line."""
    line = read_script(place.encode()).obeyed[0]
    sizes = {"place t2": lambda values: 4 * values[1], "place t5": lambda values: values[1] * values[2]}
    size = sizes[line.command.name](line.values) if line.command.name in sizes else 16
    return (line.values[-1].ljust(size, b"\0")).hex().upper()


class Files(unittest.TestCase):
    def setUp(self) -> None:
        folder = tempfile.TemporaryDirectory()
        self.addCleanup(folder.cleanup)
        self.folder = Path(folder.name)

    def put(self, name: str, content: str) -> Path:
        path = self.folder / name
        path.write_text(content, "ascii")
        return path

    def given(self, place: str) -> tuple[Path, Path]:
        """A script that dumps a tag, and its report."""
        ident = place.split(" ")[2]
        script = self.put("script", f"# a tag\n{place}\ndump {ident.lower()}\n")
        return script, self.put("report", f"2 ok\n3 store {store_of(place)}\n")


class RoundTrips(Files):
    """`place` of what `dump` writes is the line by which the tag was placed."""

    def test_files_that_tell_the_tag(self) -> None:
        for place in PLACES:
            for form in ("flipper", "proxmark"):
                with self.subTest(place=place[:30], form=form):
                    script, report = self.given(place)
                    file = self.folder / "file"
                    called = call("dump", report, "--script", script, "--format", form, "-o", file)
                    self.assertEqual((called.status, called.output, called.error), (0, b"", ""))
                    self.assertEqual(call("place", file).text, place + "\n")

    def test_words_in_the_place_of_a_script(self) -> None:
        for place in PLACES:
            words = place.split(" ")
            told = ["--type", words[1], "--id", words[2], *(["--block-size", words[4]] if words[1] == "t5" else [])]
            for form in ("flipper", "proxmark"):
                with self.subTest(place=place[:30], form=form):
                    script, report = self.given(place)
                    by_words = call("dump", report, "--format", form, *told).output
                    self.assertEqual(by_words, call("dump", report, "--format", form, "--script", script).output)

    def test_raw_bytes(self) -> None:
        for place in (*PLACES, T4):
            words = place.split(" ")
            more = {"t2": [], "t4": ["--container", words[4]], "t5": ["--block-size", words[4]]}[words[1]]
            told = ["--type", words[1], "--id", words[2], *more]
            with self.subTest(place=place[:30]):
                file = self.folder / "file.bin"
                self.assertEqual(call("dump", self.given(place)[1], "-o", file).status, 0)
                self.assertEqual(call("place", file, *told).text, place + "\n")

    def test_what_the_bench_tells(self) -> None:
        program = bench.program()
        if program is None:
            self.skipTest("the program isn't built")
        for place in PLACES:
            script, report = self.given(place)
            ended = subprocess.run([program, "run"], input=script.read_bytes(), capture_output=True, check=True)
            self.assertEqual(ended.stdout, report.read_bytes())


class Choices(Files):
    REPORT = "1 ok\n2 store 01020304\n3 ok\n4 store 05060708\n"

    def test_one_of_several_lines_is_chosen(self) -> None:
        report = self.put("report", self.REPORT)
        self.assertEqual(call("dump", report, "--line", 2).output, bytes.fromhex("01020304"))
        self.assertEqual(call("dump", "--line", 4, given=self.REPORT.encode()).output, bytes.fromhex("05060708"))

    def test_a_tag_that_was_placed_again_is_the_last(self) -> None:
        lines = (PLACES[0], "remove 01020304", "place t2 01020304 4 -", "dump 01020304")
        report = self.put("report", "4 store " + "00" * 16 + "\n")
        called = call("dump", report, "--script", self.put("script", "\n".join(lines)), "--format", "proxmark")
        self.assertEqual(len(json.loads(called.text)["blocks"]), 4)

    def refuses(self, why: str, *words: object) -> None:
        called = call("dump", *words)
        self.assertEqual((called.status, called.output, called.error), (2, b"", f"nfc dump: {why}\n"))

    def test_bad_input_is_one_sentence_and_status_2(self) -> None:
        report = self.put("report", self.REPORT)
        one = self.put("one", "2 store 010203\n")
        choose = "choose a `store` line by --line: 2 or 4"
        self.refuses(choose, report)
        self.refuses(choose, report, "--line", 3)
        self.refuses("the report has no `store` line: only a `dump` of a script makes one", self.put("none", "1 ok\n"))
        self.refuses("/nowhere: No such file or directory", "/nowhere")
        self.refuses("this is no report of the bench: line 1 is no line of one", self.put("text", "hello\n"))
        self.refuses("the report is empty", self.put("empty", ""))
        told = "a flipper file tells kind and identifier: give --script, or --type and --id"
        self.refuses(told, one, "--format", "flipper")
        self.refuses(told, one, "--format", "flipper", "--id", "01020304")
        words = ("--format", "proxmark", "--type", "t2", "--id")
        self.refuses("3 bytes aren't whole blocks of 4", one, *words, "01020304")
        self.refuses("an identifier of NFC-A has 4, 7 or 10 bytes, not 1", one, *words, "01")
        self.refuses("--id: 'x' is no hexadecimal digit", one, *words, "0x01")
        other = self.put("other", "find\nfind\n")
        no_dump = "line 2 of the script is no `dump`, so the report isn't of this script"
        self.refuses(no_dump, one, "--format", "flipper", "--script", other)
        script, t4_report = self.given(T4)
        file_alone = "of a Type 4 tag there is the NDEF file alone, as raw bytes: --format raw"
        self.refuses(file_alone, t4_report, "--format", "flipper", "--script", script)


if __name__ == "__main__":
    unittest.main()
