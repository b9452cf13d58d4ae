"""The page in headless Chromium: what it shows is what the program says, and nothing of a script becomes markup."""

from __future__ import annotations

import json
import os
import pathlib
import random
import shutil
import subprocess
import sys
import tempfile
import time
import unittest

import bench
from tests.chromium import Chromium

ROOT = bench.ROOT
NFC = ROOT / "tools/nfc.py"
TAG = "place t2 01020304 16 000000000000000000000000E11006000303D00000FE0000\n"
WRITE = f"{TAG}write 01020304 D101015401\n"
PUT = "place peer 08010203 3 128 1 1024\nlink 08010203 128 1\nput D00000\n"


def report_of(script: str) -> str:
    """What the program says, asked without the page."""
    ended = subprocess.run([bench.program(), "run"], input=script.encode(), capture_output=True, timeout=60)
    return ended.stdout.decode()


def served(**environment: str) -> tuple[subprocess.Popen, str]:
    """The page's server, and its address."""
    words = [sys.executable, str(NFC), "page", "--no-open"]
    pipes = {"stdout": subprocess.PIPE, "stderr": subprocess.DEVNULL}
    server = subprocess.Popen(words, env={**os.environ, **environment}, text=True, **pipes)
    return server, server.stdout.readline().strip()


def end(server: subprocess.Popen) -> None:
    server.terminate()
    server.wait(20)
    server.stdout.close()


def text(one: str) -> str:
    return f"document.getElementById('{one}').textContent"


@unittest.skipUnless(shutil.which("chromium"), "chromium isn't installed")
@unittest.skipUnless(bench.program(), "the program isn't built")
class Page(unittest.TestCase):
    @classmethod
    def setUpClass(cls):
        server, cls.address = served()
        cls.addClassCleanup(end, server)
        cls.browser = Chromium()
        cls.addClassCleanup(cls.browser.close)

    def setUp(self):
        self.browser.problems.clear()
        self.addCleanup(self.no_problem)

    def no_problem(self):
        self.assertEqual(self.browser.problems, [])

    def opened(self, script: str) -> None:
        """The page with this script, which has run."""
        if not self.browser.value("location.href").startswith(self.address):
            self.browser.open(self.address)
            self.settled()
        self.type(script)
        self.run_it()

    def type(self, script: str) -> None:
        self.browser.value(
            f"(() => {{ const area = document.getElementById('script'); area.value = {json.dumps(script)}; "
            "area.dispatchEvent(new Event('input')); })()"
        )

    def run_it(self) -> None:
        self.browser.value("document.getElementById('run').click()")
        self.settled()

    def settled(self) -> None:
        self.browser.until("document.getElementById('result').textContent && !document.body.dataset.busy")
        self.browser.value("new Promise((done) => setTimeout(done, 100))")

    def slide_to(self, place: int) -> None:
        self.browser.value(
            f"(() => {{ const range = document.getElementById('place'); range.value = {place}; "
            "range.dispatchEvent(new Event('input')); })()"
        )

    def numbers(self) -> dict[str, int]:
        items = "[...document.querySelectorAll('#numbers li')]"
        told = f"{items}.map((one) => [one.dataset.kind, one.querySelector('b').textContent])"
        return {kind: int(count) for kind, count in self.browser.value(told)}

    def kinds(self, fate: str = "B") -> list[str]:
        cells = f"[...document.querySelectorAll('.cells[data-fate=\"{fate}\"] .cell')].map((one) => one.classList[1])"
        return [name.removeprefix("cell-") for name in self.browser.value(cells)]

    def test_an_example_is_run_and_its_report_is_the_stored_one(self):
        self.browser.open(self.address)
        self.settled()
        names = self.browser.value("[...document.getElementById('example').options].map((one) => one.value).slice(1)")
        self.assertEqual(names, sorted(path.stem for path in ROOT.glob("examples/*.script")))
        for name in ("one-tag", "put-through-noise", "three-tags-collide"):
            with self.subTest(name):
                self.browser.value(
                    f"(() => {{ const one = document.getElementById('example'); one.value = '{name}'; "
                    "one.dispatchEvent(new Event('change')); })()"
                )
                self.settled()
                stored = (ROOT / f"examples/{name}.script.stdout").read_text("ascii")
                self.assertEqual(self.browser.value(text("report")), stored)
                drawn = self.browser.value("document.querySelectorAll('#ladder .piece .frame').length")
                self.assertEqual(drawn, sum(line.split(" ")[1] in list("!<>*") for line in stored.splitlines()))
                self.assertEqual(self.browser.value("document.getElementById('about').children.length"), 2)

    def test_the_slider_tells_old_empty_and_new_as_the_program_does(self):
        self.opened(WRITE)
        kinds = self.kinds()
        self.assertEqual(sorted(set(kinds), key=("old", "empty", "new").index), ["old", "empty", "new"])
        self.assertEqual(self.numbers(), {kind: kinds.count(kind) for kind in ("old", "empty", "new", "other")})
        answers = {"old": "message D00000", "empty": "message -", "new": "message D101015401"}
        sentences = {"old": "finds the old message", "empty": "finds it empty", "new": "finds the new message"}
        for kind in answers:
            place = kinds.index(kind) + 1
            with self.subTest(kind):
                told = report_of(f"{TAG}fates {'P' * (place - 1)}B\nwrite 01020304 D101015401\nread 01020304\n")
                self.assertIn(answers[kind], told.splitlines()[-1])
                self.slide_to(place)
                self.browser.until(f"{text('report')} === {json.dumps(told)}")
                self.assertIn(sentences[kind], self.browser.value(text("told")))
                self.browser.until("document.querySelectorAll('#ladder .fate-break.here').length === 1")
        self.slide_to(0)
        self.browser.until(f"{text('report')} === {json.dumps(report_of(WRITE))}")

    def test_many_places_stand_in_stretches_and_are_chosen_by_a_click(self):
        tag = "place t2 01020304 40 000000000000000000000000E11012000303D00000FE"
        self.opened(f"{tag}\nwrite 01020304 gen:75:1\n")
        places = int(self.browser.value("document.getElementById('place').max"))
        self.assertGreater(places, 64)
        self.assertEqual(self.kinds(), ["old", "empty", "new"])
        self.browser.click("document.querySelector('.cell-new')")
        self.browser.until(f"{text('told')}.startsWith('Transmission {places} of {places} is broken off')")
        self.browser.until("document.querySelectorAll('#ladder .fate-break.here').length === 1")

    def test_a_put_tells_what_was_accepted_against_what_was_told(self):
        self.opened(PUT)
        names = ("told", "accepted", "not accepted")
        count = report_of(PUT).count("\n3 ") - 1
        for fate in "BDL":
            self.assertEqual(len(self.kinds(fate)), count)
        self.assertEqual(set(self.kinds("B")), {"not-accepted", "accepted"})
        self.assertEqual(set(self.kinds("L")), {"told"})
        self.assertEqual(sum(self.numbers()[name] for name in names), 3 * count)

    def test_a_refused_line_is_marked_with_its_reason(self):
        script = (ROOT / "examples/refused-line.script").read_text("utf-8")
        self.opened(script)
        reason = self.browser.value(text("reason"))
        self.assertTrue(reason.startswith("✗ Line 7: "), reason)
        why = subprocess.run([sys.executable, NFC, "why"], input=script, capture_output=True, text=True, timeout=60)
        self.assertIn(reason.split("\n")[0].removeprefix("✗ Line 7: ").strip(), why.stdout.replace("\n", " "))
        top = "(one) => document.getElementById(one).getBoundingClientRect().top"
        place = f"(({top})('band')) - (({top})('script')) + document.getElementById('script').scrollTop"
        self.assertAlmostEqual(self.browser.value(place), 6 + 6 * 20, delta=1)
        self.assertEqual(self.browser.value("document.getElementById('script').getAttribute('aria-invalid')"), "true")
        self.type(script)
        self.assertTrue(self.browser.value("document.getElementById('reason').hidden"))

    def test_a_frame_is_clicked_and_has_its_fate_in_the_next_report(self):
        self.opened(WRITE)
        self.browser.click("document.querySelectorAll('#ladder .piece .frame')[3]")
        self.browser.until("document.querySelectorAll('#menu button').length === 4")
        self.browser.click("document.querySelector('#menu [data-fate=\"lose\"]')")
        wanted = f"{TAG}fates PPL\nwrite 01020304 D101015401\n"
        self.browser.until(f"document.getElementById('script').value === {json.dumps(wanted)}")
        self.browser.until(f"{text('report')} === {json.dumps(report_of(wanted))}")
        self.assertIn("3 > 9320 lose\n", self.browser.value(text("report")))
        self.settled()

    def test_the_keyboard_alone_sets_a_fate(self):
        self.opened(WRITE)
        self.browser.value("document.querySelectorAll('#ladder .piece .frame')[3].focus()")
        self.browser.key("Enter", 13, "\r")
        self.browser.until("document.activeElement.dataset.fate === 'pass'")
        self.browser.key("Escape", 27)
        self.assertTrue(self.browser.value("document.activeElement.classList.contains('frame')"))
        self.browser.key("Enter", 13, "\r")
        self.browser.until("document.activeElement.dataset.fate === 'pass'")
        self.browser.key("ArrowDown", 40)
        self.browser.key("Enter", 13, "\r")
        wanted = f"{TAG}fates PPD\nwrite 01020304 D101015401\n"
        self.browser.until(f"{text('report')} === {json.dumps(report_of(wanted))}")
        self.settled()
        self.assertTrue(self.browser.value("document.activeElement.classList.contains('fate-damage')"))

    def test_a_frame_of_a_place_gives_that_place_s_script(self):
        self.opened(WRITE)
        self.slide_to(4)
        self.browser.until("document.querySelectorAll('#ladder .fate-break.here').length === 1")
        self.browser.click("document.querySelector('#ladder .fate-break.here')")
        self.browser.until("document.querySelectorAll('#menu button').length === 4")
        self.browser.click("document.querySelector('#menu [data-fate=\"damage\"]')")
        wanted = f"{TAG}fates PPPD\nwrite 01020304 D101015401\nread 01020304\n"
        self.browser.until(f"document.getElementById('script').value === {json.dumps(wanted)}")
        self.settled()
        self.assertEqual(self.browser.value(text("report")), report_of(wanted))

    def test_a_changed_script_is_run_before_its_frames_are_chosen(self):
        self.opened(WRITE)
        self.type(f"{WRITE}find\n")
        self.browser.click("document.querySelectorAll('#ladder .piece .frame')[3]")
        self.browser.until("document.querySelectorAll('#menu button').length === 4")
        self.browser.click("document.querySelector('#menu [data-fate=\"lose\"]')")
        self.browser.until(f"{text('said')}.startsWith('The script was changed since this run')")
        self.assertEqual(self.browser.value("document.getElementById('script').value"), f"{WRITE}find\n")

    def test_a_saved_file_opens_from_disk(self):
        with tempfile.TemporaryDirectory() as folder:
            script, target = pathlib.Path(folder) / "case.script", pathlib.Path(folder) / "case.html"
            script.write_text(WRITE, "ascii")
            subprocess.run([sys.executable, NFC, "page", script, "-o", target], check=True, timeout=60)
            self.check_saved(target)

    def check_saved(self, target: pathlib.Path) -> None:
        self.browser.open(target.as_uri())
        self.browser.until(f"{text('report')} === {json.dumps(report_of(WRITE))}")
        self.browser.until("document.querySelector('.cell') && !document.querySelector('.cell-waiting')")
        kinds = self.kinds()
        place = kinds.index("empty") + 1
        self.slide_to(place)
        told = report_of(f"{TAG}fates {'P' * (place - 1)}B\nwrite 01020304 D101015401\nread 01020304\n")
        self.browser.until(f"{text('report')} === {json.dumps(told)}")
        hit, slider = "document.querySelector('#ladder .here')", "document.getElementById('slider')"
        edges = (f"{hit}.getBoundingClientRect().bottom", f"{slider}.getBoundingClientRect().top")
        self.browser.until(f"{hit} && {' <= '.join(edges)}")
        self.assertEqual(self.browser.value("document.getElementById('script').value"), WRITE)
        self.assertTrue(self.browser.value("document.getElementById('script').readOnly"))
        self.assertTrue(self.browser.value("document.getElementById('run').hidden"))

    def test_save_in_the_page_makes_the_one_file(self):
        self.opened(WRITE)
        with tempfile.TemporaryDirectory() as folder:
            self.browser.call("Page.setDownloadBehavior", behavior="allow", downloadPath=folder)
            self.browser.value("document.getElementById('save').click()")
            target = pathlib.Path(folder) / "nfc-page.html"
            end = time.monotonic() + 20
            while not target.exists() and time.monotonic() < end:
                self.browser.value("new Promise((done) => setTimeout(done, 50))")
            self.check_saved(target)

    def test_the_address_keeps_the_script(self):
        script = "# Grüße ✓\n" + WRITE
        self.opened(script)
        link = self.browser.value("location.href")
        self.assertRegex(link, r"#script=[A-Za-z0-9_-]+$")
        self.browser.open(link)
        self.browser.until(f"document.getElementById('script').value === {json.dumps(script)}")
        self.settled()
        self.opened(f"http://127.0.0.1:1/elsewhere/#{link.split('#')[1]}")
        self.assertEqual(self.browser.value("document.getElementById('script').value"), script)
        for broken in (link[:-9], f"{self.address}#script=%%%", f"{self.address}#nothing"):
            with self.subTest(broken):
                self.browser.open(broken)
                self.browser.until(f"{text('result')}.startsWith('This link holds no script that can be read')")

    def test_nothing_of_a_script_becomes_markup(self):
        markup = "<img src=x onerror=alert(1)></textarea><script>alert(2)</script>\x01\x1b[31m"
        before = "document.querySelectorAll('img, script').length"
        self.opened(WRITE)
        count = self.browser.value(before)
        for script in (f"# {markup}\n{WRITE}", f"{WRITE}{markup}\n", markup):
            self.opened(script)
            self.assertEqual(self.browser.value(before), count)
        self.assertIn("Line 1", self.browser.value(text("reason")))

    def test_bad_input_is_one_sentence(self):
        dice = random.Random(69)
        noise = "".join(chr(dice.randrange(256)) for _ in range(1_000_000))
        for script, sentence in (
            ("", "The script is empty"),
            (" \n\n", "The script is empty"),
            ("# one\n" * 1001, "Line 1001 is refused"),
            (noise, "The script is too long"),
            (noise[:1000], "is refused"),
        ):
            with self.subTest(sentence):
                self.opened(script)
                self.assertIn(sentence, self.browser.value(text("result")))
        self.opened("")
        self.assertTrue(self.browser.value("document.getElementById('ladder').hidden"))

    def test_a_large_report_is_drawn_as_far_as_it_is_looked_at(self):
        message = "03FF02BC" + "42" * 700 + "FE"
        reads = "read 01020304\n" * 60
        self.opened(f"place t2 01020304 231 000000000000000000000000E1106D00{message}\n{reads}")
        frames = self.browser.value(f"{text('report')}.split('\\n').length") - 62
        self.assertGreater(frames, 5000)
        folded = "document.querySelectorAll('#ladder [aria-expanded=\"false\"]').length"
        self.assertEqual(self.browser.value(folded), 60)
        self.browser.value("document.querySelector('#ladder .buttons .all').click()")
        self.browser.value("new Promise((done) => setTimeout(done, 300))")
        self.assertLess(self.browser.value("document.querySelectorAll('#ladder .piece .frame').length"), 2000)

    def test_a_server_that_is_gone_is_told(self):
        self.opened(WRITE)
        self.browser.call("Network.enable")
        offline = {"latency": 0, "downloadThroughput": -1, "uploadThroughput": -1}
        self.browser.call("Network.emulateNetworkConditions", offline=True, **offline)
        self.opened(f"{WRITE}find\n")
        self.browser.call("Network.emulateNetworkConditions", offline=False, **offline)
        self.assertIn("The server doesn't answer", self.browser.value(text("result")))
        self.browser.problems.clear()

    def test_a_program_that_is_not_built_is_told(self):
        server, address = served(NFC_BENCH="/nowhere/bench", PATH="/nowhere")
        self.addCleanup(end, server)
        self.browser.open(address)
        self.browser.until("!document.getElementById('program').hidden")
        self.assertIn("rt run", self.browser.value(text("program")))
        self.settled()
        self.assertIn("rt run", self.browser.value(text("result")))
        self.browser.problems.clear()

    def test_answers_alone(self):
        self.opened(WRITE)
        self.browser.value("document.getElementById('form').value = 'run quiet'")
        self.run_it()
        self.assertEqual(self.browser.value(text("report")), "1 ok\n2 written\n")
        self.browser.value("document.getElementById('form').value = 'run'")

    def test_every_control_has_a_name_and_a_phone_has_no_sideways_scroll(self):
        self.opened(PUT)
        unnamed = (
            "[...document.querySelectorAll('button, select, input, textarea')].filter((one) => !one.textContent.trim() "
            "&& !(one.labels && one.labels.length) && !one.getAttribute('aria-label')).length"
        )
        self.assertEqual(self.browser.value(unnamed), 0)
        self.addCleanup(self.browser.call, "Emulation.clearDeviceMetricsOverride")
        for width in (400, 1024):
            self.browser.resize(width, 800)
            self.browser.value("new Promise((done) => setTimeout(done, 200))")
            self.assertLessEqual(self.browser.value("document.documentElement.scrollWidth"), width)


FATES = """
const page = require(process.argv[1]);
const frame = (fate) => ({ mark: ">", fate });
const frames = (count) => [{ mark: "!" }, ...Array.from({ length: count }, frame)];
const entry = (line, count) => ({ line: String(line), frames: frames(count) });
for (const [script, counts, line, place, fate] of JSON.parse(require("fs").readFileSync(0, "utf8"))) {
  const entries = counts.map(([line, count]) => entry(line, count));
  const one = entries.find((entry) => entry.line === String(line));
  console.log(JSON.stringify(page.withFate(script, entries, one, one.frames[place], fate)));
}
"""


@unittest.skipUnless(shutil.which("node"), "node isn't installed")
class Fates(unittest.TestCase):
    """Which letter a frame's fate is."""

    def test_the_letter_of_a_frame(self):
        rows = [
            ("find", [[1, 4]], 1, 1, "lose", "fates L\nfind"),
            ("find", [[1, 4]], 1, 3, "pass", "find"),
            ("fates PP\nfind", [[2, 4]], 2, 2, "damage", "fates PD\nfind"),
            ("fates PP\nfind", [[2, 4]], 2, 4, "damage", "fates PPPD\nfind"),
            ("fates PPLP\nfind", [[2, 9]], 2, 1, "break", "fates B\nfind"),
            ("fates PPPPLL\nfind\nfind", [[2, 2], [3, 4]], 3, 3, "pass", "fates PPPPPL\nfind\nfind"),
            ("fates PPPP\nfind\nfates L\nfind", [[2, 3], [4, 4]], 4, 1, "damage", "fates PPPD\nfind\nfates L\nfind"),
            ("fates PPPP\nfind\nfates L\nfind", [[2, 3], [4, 4]], 4, 1, "break", "fates PPPB\nfind\n\nfind"),
            ("find\nfind", [[1, 2], [2, 4100]], 2, 4002, "lose", f"find\nfates {'P' * 4000}\nfates PL\nfind"),
        ]
        given = json.dumps([row[:5] for row in rows])
        words = ["node", "-e", FATES, str(ROOT / "tools/page/fates.js")]
        done = subprocess.run(words, input=given, capture_output=True, text=True, timeout=60)
        self.assertEqual(done.stderr, "")
        self.assertEqual([json.loads(line) for line in done.stdout.splitlines()], [row[5] for row in rows])


if __name__ == "__main__":
    unittest.main()
