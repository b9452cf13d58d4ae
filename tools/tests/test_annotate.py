"""What tools/annotate.py makes of a report.

    python3 -m unittest discover -s tools/tests -t tools
"""

from __future__ import annotations

import io
import random
import subprocess
import sys
import unittest
from pathlib import Path

from annotate import annotate, annotated, annotated_line
from frames.line import frame_line, is_reset
from frames.session import Session
from tests.telling import ACTIVATE, NFCID3, SELECT_TYPE_4, dep_frame, last_told, told

ROOT = Path(__file__).resolve().parents[2]
PROGRAM = ROOT / "tools" / "annotate.py"


def lines_of_frames(report: Path) -> set[str]:
    """The numbers of the lines whose frames are written by hand: no table has to know those."""
    script = report.with_suffix("")
    script = script if script.is_file() else report.with_suffix(".script")
    lines = script.read_bytes().split(b"\n") if script.is_file() else []
    return {str(number) for number, line in enumerate(lines, 1) if line.startswith(b"raw ")}


class Reports(unittest.TestCase):
    """Whole reports, as the bench prints them."""

    def reports(self) -> list[Path]:
        found = sorted(ROOT.glob("examples/*.stdout")) + sorted(ROOT.glob("tests/cases/*/*.stdout"))
        self.assertTrue(found)
        return found

    def test_each_frame_of_the_stored_reports_is_told(self) -> None:
        for report in self.reports():
            session, by_hand = Session(), lines_of_frames(report)
            for line in report.read_text().splitlines():
                with self.subTest(report=report.name, line=line):
                    whole = annotated_line(session, line)
                    if frame_line(line) or is_reset(line):
                        told = r"^  +([A-Za-z]|\?$)" if line.split(" ")[0] in by_hand else r"^  +[A-Za-z]"
                        self.assertRegex(whole[len(line) :], told)

    def test_a_report_is_what_stands_in_front_of_its_annotations(self) -> None:
        for report in self.reports():
            lines = report.read_text().splitlines(keepends=True)
            for line, whole in zip(lines, annotated(lines), strict=True):
                with self.subTest(report=report.name, line=line):
                    self.assertTrue(whole.startswith(line.rstrip("\n")))

    def test_lines_that_show_no_frame_pass_unchanged(self) -> None:
        lines = (
            "1 ok",
            "2 message D00000 written",
            "3 found 1 01020304:t2",
            "fault 2 line 7",
            "",
            "4 > 26/7",
            "4 > 26/8 pass",
            "4 > 26 passed",
            "4 > 2 pass",
            "4 > ab pass",
            "4 ! set",
            " 4 > 26/7 pass",
            "> 26/7 pass",
        )
        self.assertEqual(list(annotated(lines)), list(lines))

    def test_the_example_of_the_page_on_reports(self) -> None:
        expected = (
            ("2 ! reset", "the field is dark, then lit"),
            ("2 > 26/7 pass", "SENS_REQ"),
            ("2 < 0400 pass", "SENS_RES: identifier of 4 bytes, bit-frame anticollision"),
            ("2 > 9320 pass", "SDD_REQ of level 1, no bits known"),
            ("2 < 0102030404 pass", "SDD_RES of level 1: identifier part 01020304, BCC 04h right"),
            ("2 > 93700102030404 pass", "SEL_REQ of level 1: identifier part 01020304, BCC 04h right"),
            ("2 < 00 pass", "SEL_RES: Type 2 tag, 01020304 is selected"),
            ("2 > 3000 pass", "READ of block 0"),
            ("2 < 000000000000000000000000E1100600 pass", "blocks 0 to 3"),
            ("2 > 3004 pass", "READ of block 4"),
            ("2 < 0303D00000FE00000000000000000000 pass", "blocks 4 to 7"),
        )
        page = (ROOT / "docs" / "report.md").read_text()
        session = Session()
        for line, text in expected:
            self.assertIn(f"\n    {line} ", page)
            self.assertEqual(annotated_line(session, line), f"{line:<48}{text}")

    def test_a_longer_line_has_its_annotation_two_spaces_behind(self) -> None:
        line = f"1 < 00{'11' * 32} pass"
        session = Session()
        annotated_line(session, "1 > 222006050403020104E000 pass")
        self.assertEqual(annotated_line(session, line), f"{line}  block 0, 32 bytes")


class Fates(unittest.TestCase):
    """Transmissions that didn't arrive."""

    def test_what_became_of_a_request(self) -> None:
        for fate, text in {
            "damage": "nobody heard it",
            "lose": "nobody heard it",
            "break": "nobody heard it, the field goes dark",
        }.items():
            self.assertEqual(last_told(f"> 3000 {fate}"), f"READ of block 0 ({text})")

    def test_what_became_of_an_answer(self) -> None:
        for fate, text in {
            "damage": "the reader heard damage",
            "lose": "the reader heard nothing",
            "break": "the reader heard nothing, the field goes dark",
        }.items():
            self.assertEqual(last_told("> 26/7 pass", f"< 4400 {fate}")[-len(text) - 2 :], f"({text})")
            clash = last_told("> 26/7 pass", f"* 04/6 {fate}")
            self.assertEqual(clash, f"SENS_RES, clash behind 6 common bits ({text})")

    def test_behind_a_request_that_nobody_heard_no_answer_fits(self) -> None:
        self.assertEqual(last_told("> 26/7 pass", "> 26/7 lose", "< 0400 pass"), "?")

    def test_a_break_ends_a_link(self) -> None:
        self.assertEqual(last_told(*ACTIVATE, "> 0200B0000002 break", "> 0300B0000002 pass"), "?")
        self.assertEqual(last_told(*ACTIVATE, "> A2 pass", "< A2 break", "> 0300B0000002 pass"), "?")

    def test_an_answer_that_was_damaged_leads_nowhere(self) -> None:
        self.assertEqual(last_told(*SELECT_TYPE_4, "> E080 pass", "< 0200 damage", "> 0300B0000002 pass"), "?")


class WhatFitsNothing(unittest.TestCase):
    """Frames that are none of any protocol."""

    def test_a_tail_needs_a_byte_and_unused_bits_are_0(self) -> None:
        for frame in ("-/3", "FF/4", "A6/7"):
            self.assertEqual(last_told(f"> {frame} pass"), "?")
            self.assertEqual(last_told("> 26/7 pass", f"* {frame} pass"), "?")

    def test_an_answer_or_a_clash_without_a_request(self) -> None:
        for line in ("< 0400 pass", "* 04/6 pass", "< - lose", "* - break"):
            self.assertEqual(last_told(line), "?")
            self.assertEqual(last_told("> FFFF pass", line), "?")
            self.assertEqual(last_told("> 5000 pass", line), "?")

    def test_fates_add_nothing_to_it(self) -> None:
        self.assertEqual(last_told("> FFFF break"), "?")

    def test_random_frames_never_stop_it(self) -> None:
        chosen = random.Random(7)
        begins = ("", "26", "52", "93", "9370", "3000", "A2", "E0", "02", "12", "A2", "2220", "2223", "260140", "0220")
        for _ in range(400):
            lines = list(ACTIVATE) if chosen.random() < 0.5 else []
            for _ in range(20):
                frame = chosen.choice(begins) + chosen.randbytes(chosen.randrange(14)).hex().upper()
                tail = f"/{chosen.randrange(1, 8)}" if chosen.random() < 0.2 else ""
                fate = chosen.choice(("pass", "pass", "pass", "damage", "lose", "break"))
                lines.append(f"{chosen.choice('><*')} {frame or '-'}{tail} {fate}")
            self.assertTrue(all(told(*lines)))

    def test_random_payloads_between_peers_never_stop_it(self) -> None:
        chosen = random.Random(8)
        begins = ("", "1120", "0520", "8184", "0641", "0080", "00800003", "132000", "13200010020000", "8204", "46666D")
        for _ in range(400):
            lines = [f"> F0{17 + 12:02X}D400{NFCID3}00000032{chosen.randbytes(12).hex().upper()} pass"]
            for number in range(20):
                payload = chosen.choice(begins) + chosen.randbytes(chosen.randrange(14)).hex().upper()
                lines.append(dep_frame(payload, chosen.choice((0, 16)) + number % 4, up=chosen.random() < 0.5))
            self.assertTrue(all(told(*lines)))

    def test_random_bytes_pass_unchanged(self) -> None:
        chosen = random.Random(9)
        for _ in range(200):
            report = chosen.randbytes(200)
            output = io.BytesIO()
            annotate(io.BytesIO(report), output)
            self.assertEqual(output.getvalue(), report)


class Program(unittest.TestCase):
    """The program as it is called."""

    def run_program(self, *arguments: str, report: bytes = b"") -> subprocess.CompletedProcess[bytes]:
        return subprocess.run([sys.executable, PROGRAM, *arguments], input=report, capture_output=True, check=False)

    def test_a_file_and_standard_input_give_the_same(self) -> None:
        path = ROOT / "examples" / "one-tag.script.stdout"
        named = self.run_program(str(path))
        piped = self.run_program(report=path.read_bytes())
        self.assertEqual((named.returncode, named.stderr), (0, b""))
        self.assertEqual(named.stdout, piped.stdout)
        self.assertIn(b"SEL_RES: Type 2 tag, 01020304 is selected\n", named.stdout)

    def test_line_ends_stay(self) -> None:
        output = self.run_program(report=b"1 ok\r\n2 > 26/7 pass\r\n2 > 52/7 pass").stdout
        self.assertEqual(
            output.split(b"\n"),
            [
                b"1 ok\r",
                b"2 > 26/7 pass".ljust(48) + b"SENS_REQ\r",
                b"2 > 52/7 pass".ljust(48) + b"ALL_REQ, wakes devices that sleep too",
            ],
        )

    def test_no_report_at_all(self) -> None:
        self.assertEqual(self.run_program().stdout, b"")

    def test_a_reader_that_stops_early_is_no_fault(self) -> None:
        report = ROOT / "examples" / "three-tags-collide.script.stdout"
        pipe = subprocess.PIPE
        with subprocess.Popen([sys.executable, PROGRAM, report], stdout=pipe, stderr=pipe) as program:
            assert program.stdout and program.stderr
            program.stdout.close()
            self.assertEqual((program.stderr.read(), program.wait()), (b"", 0))

    def test_a_file_that_is_not_there_is_told(self) -> None:
        result = self.run_program("no such report")
        self.assertEqual((result.returncode, result.stdout), (2, b""))
        self.assertIn(b"no such report", result.stderr)
