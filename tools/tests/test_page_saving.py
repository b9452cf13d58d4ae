"""The one file of a script: what it holds, what it may not hold, and what is left out of it."""

from __future__ import annotations

import base64
import json
import os
import random
import re
import tempfile
import unittest
import zlib
from pathlib import Path
from typing import Any
from unittest import mock

import bench
from page.cache import Cache
from page.parts import SCRIPTS, STYLES, joined
from page.running import Runner
from page.saving import Room, saved_page, with_data
from page.sliding import Slider, coarse_to_fine
from tests.calling import ROOT, call
from tests.serving import WRITE, Serving, needs_program

ONE_TAG = ROOT / "examples" / "one-tag.script"
HELD = re.compile(r'<script type="application/json" id="saved">(.*?)</script>', re.DOTALL)


def file_of(script: bytes, room: Room = Room()) -> str:
    return saved_page(Slider(Runner(), Cache()), script, room)


def unpacked(part: dict[str, str]) -> Any:
    return json.loads(zlib.decompress(base64.b64decode(part["z"])))


def held(text: str) -> dict[str, Any]:
    return unpacked(json.loads(HELD.search(text)[1]))


@needs_program
class Held(unittest.TestCase):
    def test_the_script_its_report_and_the_run_of_each_place(self) -> None:
        data = held(file_of(WRITE))
        self.assertEqual((data["script"], data["left_out"]), (WRITE.decode(), None))
        shown = unpacked(data["shown"])
        self.assertEqual((shown["status"], shown["report"].splitlines()[-1]), (0, "2 written"))
        rows = data["slide"]["rows"]
        self.assertEqual([row["at"] for row in rows], list(range(1, 19)))
        self.assertEqual(data["slide"]["done"], {"old": 15, "empty": 2, "new": 1})
        runner = Runner()
        for row, part in zip(rows, data["slides"], strict=True):
            report = runner.whole("run", row["script"].encode()).output.decode()
            self.assertEqual(unpacked(part)["report"], report)

    def test_a_put_has_its_fates_in_order(self) -> None:
        data = held(file_of(b"place peer 08010203 3 128 1 1024\nlink 08010203 128 1\nput D1\n"))
        order = [(row["at"], row["fate"]) for row in data["slide"]["rows"]]
        self.assertEqual(order, [(at, fate) for at in range(1, 5) for fate in "DLB"])
        self.assertEqual(len(data["slides"]), 12)

    def test_a_script_without_a_slider(self) -> None:
        data = held(file_of(ONE_TAG.read_bytes()))
        self.assertEqual(data["slide"]["head"], {"none": "there is neither a write nor a put"})
        self.assertEqual((data["slides"], data["left_out"]), ([], None))
        self.assertEqual(unpacked(data["shown"])["report"], ONE_TAG.with_name("one-tag.script.stdout").read_text())

    def test_nothing_of_a_script_becomes_markup(self) -> None:
        empty = with_data("")
        for script in (b"# </script><script>alert(1)</script><!--\nfind\n", b"\0\x1b[31m\xff\xfe<b>&amp;\n", b""):
            text = file_of(script)
            self.assertEqual(text.count("<script"), empty.count("<script"))
            self.assertNotIn("alert(1)", text)
            self.assertEqual(held(text)["script"].encode("utf-8", "surrogateescape"), script)

    def test_random_bytes(self) -> None:
        script = random.Random(69).randbytes(900_000)
        data = held(file_of(script))
        self.assertEqual(data["script"].encode("utf-8", "surrogateescape"), script)
        self.assertEqual(unpacked(data["shown"])["status"], 2)


@needs_program
class LeftOut(unittest.TestCase):
    def test_runs_that_have_no_room(self) -> None:
        whole = len(file_of(WRITE))
        size = whole - 6000
        text = file_of(WRITE, Room(size=size))
        data = held(text)
        self.assertLessEqual(len(text), size)
        missing = data["slides"].count(None)
        self.assertIn(missing, range(1, 17))
        why = f"the file would have more than {size:,} bytes, or its runs take longer than 90 seconds"
        self.assertEqual(data["left_out"], f"Left out, as {why}: the runs of {missing} of 18 places.")
        self.assertIsNotNone(data["slides"][0])
        self.assertIsNotNone(data["slides"][-1])

    def test_runs_for_which_no_time_is_left(self) -> None:
        data = held(file_of(WRITE, Room(seconds=0)))
        self.assertEqual((data["slide"]["rows"], data["slides"]), ([], []))
        self.assertIn("18 places of the slider", data["left_out"])

    def test_no_room_at_all(self) -> None:
        data = held(file_of(WRITE, Room(size=len(with_data("")))))
        self.assertIsNone(data["shown"])
        self.assertIsNone(data["slide"])
        self.assertIn("the script's own report, the slider.", data["left_out"])

    def test_what_is_inside_is_spread_evenly(self) -> None:
        for count in range(70):
            self.assertEqual(sorted(coarse_to_fine(count)), list(range(count)))
        self.assertEqual(coarse_to_fine(9), [0, 8, 4, 2, 6, 1, 3, 5, 7])


class File(unittest.TestCase):
    def test_it_has_no_outside_parts(self) -> None:
        text = with_data("{}")
        self.assertIsNone(re.search(r"<(?:script|img|iframe)[^>]*\bsrc\s*=|<link[^>]*stylesheet|@import|\burl\(", text))
        self.assertEqual(set(re.findall(r"https?://[a-z][^\"' )`\\]*", text)), {"http://www.w3.org/2000/svg"})
        self.assertIn("default-src 'none'", text)

    def test_no_part_ends_its_element(self) -> None:
        self.assertNotIn("</script", joined(SCRIPTS).lower())
        self.assertNotIn("</style", joined(STYLES).lower())


class Word(unittest.TestCase):
    def setUp(self) -> None:
        folder = tempfile.TemporaryDirectory()
        self.addCleanup(folder.cleanup)
        self.target = Path(folder.name) / "one.html"

    @needs_program
    def test_it_writes_the_file(self) -> None:
        called = call("page", ONE_TAG, "-o", self.target)
        self.assertEqual((called.status, called.text, called.error), (0, "", ""))
        self.assertEqual(held(self.target.read_text())["script"], ONE_TAG.read_text())

    def test_bad_input_is_one_sentence(self) -> None:
        large = self.target.with_name("large")
        large.write_bytes(b"x" * 1_000_001)
        for words, sentence in (
            ((ONE_TAG,), "name the file with -o"),
            (("-o", self.target), "name the script of which the file is made"),
            (("/nowhere/script", "-o", self.target), "/nowhere/script: No such file or directory"),
            ((large, "-o", self.target), "the script has 1000001 bytes, and the page takes at most 1000000"),
            (("--port", "65536"), "65536 is no port"),
            (("--port", "x"), "argument --port: invalid int value: 'x' (nfc.py page --help tells more)"),
        ):
            with self.subTest(sentence):
                called = call("page", *words)
                self.assertEqual((called.status, called.text, called.error), (2, "", f"nfc page: {sentence}\n"))
        self.assertFalse(self.target.exists())

    def test_without_a_program(self) -> None:
        with mock.patch.dict(os.environ, {bench.VARIABLE: "/nowhere", "PATH": "/nowhere"}):
            called = call("page", ONE_TAG, "-o", self.target)
        self.assertEqual((called.status, called.text), (1, ""))
        self.assertTrue(called.error.startswith("nfc page: The built program isn't there: `rt run`"))
        self.assertFalse(self.target.exists())


@needs_program
class Served(Serving):
    def test_the_page_gets_the_same_file(self) -> None:
        answer = self.post("save", script=WRITE.decode())
        self.assertEqual((answer.status, answer.headers["Content-Type"]), (200, "text/html; charset=utf-8"))
        self.assertEqual(answer.headers["Content-Disposition"], 'attachment; filename="nfc-page.html"')
        self.assertEqual(held(answer.text), held(file_of(WRITE)))


if __name__ == "__main__":
    unittest.main()
