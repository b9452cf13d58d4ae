"""Tests of `nfc.py ladder`: the data, the file, and what a browser draws of it, where Chromium or node is installed."""

from __future__ import annotations

import collections
import contextlib
import io
import pathlib
import random
import re
import shutil
import subprocess
import tempfile
import unittest

import nfc
import to_pcap
from commands.given import report_lines
from page.data import ladder_data
from page.file import HERE, as_json, page

ROOT = pathlib.Path(__file__).resolve().parents[2]
NOISE = ROOT / "tests/cases/written-by-hand/a-put-through-noise.stdout"
BROKEN_OFF = ROOT / "examples/write-broken-off.script.stdout"
COLLIDE = ROOT / "examples/three-tags-collide.script.stdout"
WRITES = ("examples/*.stdout", "tests/cases/writes/*[05].stdout")


def data_of(report: pathlib.Path) -> dict:
    with report.open("rb") as lines:
        return ladder_data(report_lines(lines), report.name)


def frames(data: dict) -> list[dict]:
    return [frame for entry in data["entries"] for frame in entry["frames"]]


def run(*words: str) -> tuple[int, str, str]:
    """Exit status, standard output and standard error of nfc.py."""
    output, errors = io.StringIO(), io.StringIO()
    with contextlib.redirect_stdout(output), contextlib.redirect_stderr(errors):
        status = nfc.main(["ladder", *words])
    return status, output.getvalue(), errors.getvalue()


class Data(unittest.TestCase):
    def test_each_line_of_a_report_is_in_it(self):
        for report in sorted(ROOT.glob("examples/*.stdout")):
            with self.subTest(report.name):
                lines = []
                for entry in data_of(report)["entries"]:
                    for frame in entry["frames"]:
                        words = [entry["line"], frame["mark"], frame.get("frame", "reset"), frame.get("fate", "")]
                        lines.append(" ".join(words).strip())
                    lines.append(f"{entry['line']} {entry['answer']}")
                text = report.read_text("ascii").splitlines()
                self.assertEqual(lines, [line for line in text if not line.startswith("fault")])

    def test_who_answers_is_told_where_the_report_tells_it(self):
        data = data_of(COLLIDE)
        self.assertEqual([device["name"] for device in data["devices"]], ["01020304", "01020308", "04112233445566"])
        self.assertEqual({device["kind"] for device in data["devices"]}, {"Type 2 tag"})
        columns = [(frame["words"].partition(":")[0], frame["column"]) for frame in frames(data)]
        self.assertIn(("SENS_RES, clash behind 6 common bits", 0), columns)
        self.assertIn(("SEL_RES", 3), columns)
        self.assertIn(("SEL_RES", 0), columns, "an identifier that goes on may be several devices'")
        self.assertIn(("SLP_REQ, puts the device to sleep", 2), columns)

    def test_type_5_tags_answer_by_their_identifier(self):
        data = data_of(ROOT / "examples/large-type5.script.stdout")
        self.assertEqual(data["devices"][0], {"name": "E004010203040506", "kind": "Type 5 tag"})
        self.assertEqual({frame["column"] for frame in frames(data) if "READ" in frame.get("words", "")}, {1, 2})

    def test_the_state_of_a_written_tag(self):
        told = {
            "5": ["old", "empty", "empty", "new"],
            "8": ["old", "empty", "empty"],
            "11": ["empty", "empty", "new"],
        }
        for entry in data_of(BROKEN_OFF)["entries"]:
            states = [frame["state"] for frame in entry["frames"] if "state" in frame]
            self.assertEqual(states, told.get(entry["line"], []))

    def test_a_write_that_does_not_arrive_leaves_the_old_message(self):
        lines = BROKEN_OFF.read_text("ascii").splitlines()
        cut = lines.index("8 > A2040300D101 pass")
        data = ladder_data([*lines[:cut], "8 > A2040300D101 break", "8 field lost"], "")
        self.assertEqual([frame["state"] for frame in frames(data) if "state" in frame][-1], "old")

    def test_states_come_in_order_and_agree_with_the_next_read(self):
        order, agreed = ["old", "empty", "new"], collections.Counter()
        for report in (report for pattern in WRITES for report in sorted(ROOT.glob(pattern))):
            script = report.with_name(report.stem).read_text("latin-1").split("\n")
            last = {}
            for entry in data_of(report)["entries"]:
                words = script[int(entry["line"]) - 1].upper().split(" ")
                states = [frame["state"] for frame in entry["frames"] if "state" in frame]
                self.assertEqual(states, sorted(states, key=order.index), f"{report.name} {entry['line']}")
                if words[0] in ("PLACE", "REMOVE"):
                    last.clear()
                elif words[0] == "WRITE" and states:
                    last[words[1]] = states[-1]
                elif words[0] == "READ" and entry["answer"].startswith("message ") and words[1] in last:
                    self.assertEqual(last[words[1]] == "empty", entry["answer"].startswith("message - "), report.name)
                    agreed[last[words[1]]] += 1
        self.assertGreater(agreed["empty"], 0)
        self.assertGreater(agreed["new"], 5)

    def test_numbers_and_windows_of_a_link(self):
        notes = [note for frame in frames(data_of(NOISE)) for note in frame.get("windows", [])]
        numbers = ["N(S) 0, N(R) 0", "N(S) 0, N(R) 1", "N(S) 0, N(R) 1"]
        self.assertEqual([note["numbers"] for note in notes], numbers)
        self.assertEqual({(note["open"], note["window"], note["own"]) for note in notes}, {(1, 1, True)})

    def test_the_script_tells_the_commands(self):
        script = ["# a comment", "find", f"write 01020304 {'00' * 100}"]
        told = ladder_data(["2 found 0", "3 not found", "4 ok"], "", script)["entries"]
        commands = ["find", f"write 01020304 {'0' * 85} .."]
        self.assertEqual([entry.get("command", "") for entry in told], [*commands, ""])

    def test_lines_in_any_order_are_read(self):
        lines = [line for report in (NOISE, BROKEN_OFF, COLLIDE) for line in report.read_text("ascii").splitlines()]
        dice = random.Random(52)
        for _ in range(40):
            shuffled = dice.sample(lines, 60)
            data = ladder_data(shuffled, "")
            self.assertEqual(len(frames(data)), sum(line.split(" ")[1] in list("!<>*") for line in shuffled))
            self.assertGreaterEqual(len(to_pcap.convert(shuffled)), len(frames(data)))

    def test_an_entry_that_is_cut_off_has_no_answer(self):
        (entry,) = ladder_data(["3 ! reset", "3 > 26/7 pass"], "")["entries"]
        self.assertEqual((entry["answer"], len(entry["frames"])), ("", 2))


class File(unittest.TestCase):
    def test_nothing_of_the_data_becomes_markup(self):
        title = "</script><script>alert(1)</script>&amp;<!--"
        text = page({"title": title, "devices": [], "entries": []})
        self.assertNotIn("alert(1)</script>", text)
        self.assertEqual(text.count("<script"), 2)
        self.assertEqual(set("<>&") & set(as_json({"title": title})), set())

    def test_it_has_no_outside_parts(self):
        text = page(data_of(NOISE))
        self.assertEqual(set(re.findall(r"https?://[^\"' ]*", text)), {"http://www.w3.org/2000/svg"})
        self.assertIsNone(re.search(r"\b(src|href|@import|url)\s*[=(]", text))

    def test_a_word_writes_it(self):
        with tempfile.TemporaryDirectory() as folder:
            target = pathlib.Path(folder) / "picture.html"
            self.assertEqual(run(str(NOISE), "-o", str(target), "--title", "A put"), (0, "", ""))
            self.assertIn("<title>A put</title>", target.read_text("utf-8"))

    def test_bad_input_is_one_sentence(self):
        with tempfile.TemporaryDirectory() as folder:
            empty, script = pathlib.Path(folder) / "empty", NOISE.with_suffix("")
            empty.touch()
            for words, sentence in (
                ((str(empty),), "the report is empty"),
                ((str(script),), "this is no report of the bench: line 1 is no line of one"),
                (("/nowhere/report",), "/nowhere/report: No such file or directory"),
                ((str(NOISE), "--script", "/nowhere/script"), "/nowhere/script: No such file or directory"),
                ((str(NOISE), "-o", "/nowhere/x.html"), "/nowhere/x.html: No such file or directory"),
            ):
                with self.subTest(sentence):
                    self.assertEqual(run(*words), (2, "", f"nfc ladder: {sentence}\n"))


@unittest.skipUnless(shutil.which("chromium"), "chromium isn't installed")
class Browser(unittest.TestCase):
    """What headless Chromium makes of the file."""

    def dom(self, text: str, behind: str = "", width: int = 1024) -> str:
        """The page behind its scripts; an error of a script fails the test."""
        with tempfile.TemporaryDirectory() as folder:
            target = pathlib.Path(folder) / "picture.html"
            target.write_text(text, "utf-8")
            words = ["chromium", "--headless=new", "--no-sandbox", "--disable-gpu", f"--user-data-dir={folder}/profile"]
            words += [f"--window-size={width},900", "--virtual-time-budget=2000", "--enable-logging=stderr"]
            done = subprocess.run(
                [*words, "--dump-dom", f"file://{target}{behind}"], capture_output=True, text=True, timeout=120
            )
        self.assertEqual(re.findall(r".*CONSOLE.*", done.stderr), [])
        return done.stdout

    def classes(self, dom: str) -> collections.Counter:
        """How often each class stands in the entries, which are behind the legend."""
        found = re.findall(r'class="([^"]*)"', dom[dom.index('class="entry"') :])
        return collections.Counter(name for names in found for name in names.split(" "))

    def test_each_frame_is_drawn_by_its_fate(self):
        lines = [line for report in (NOISE, BROKEN_OFF, COLLIDE) for line in report.read_text("ascii").splitlines()]
        data = ladder_data(lines, "")
        drawn = self.classes(self.dom(page(data), "#all"))
        fates = collections.Counter(frame.get("fate", "reset") for frame in frames(data))
        for name, count in {
            "frame": len(frames(data)),
            "picture": len(frames(data)),
            "zigzag": fates["damage"],
            "cross": fates["lose"],
            "mark": fates["break"],
            "band": fates["break"] + fates["reset"],
            "burst": sum(frame["mark"] == "*" for frame in frames(data)),
            "state": sum("state" in frame for frame in frames(data)),
            "window": sum(len(frame.get("windows", [])) for frame in frames(data)),
        }.items():
            with self.subTest(name):
                self.assertGreater(count, 0)
                self.assertEqual(drawn[name], count)

    def test_a_large_report_is_drawn_as_far_as_it_is_looked_at(self):
        lines = ["1 ! reset", *["1 > 3000 pass", "1 < 00000000000000000000000000000000 pass"] * 4000, "1 not found"]
        dom = self.dom(page(ladder_data(lines, "")))
        self.assertLess(self.classes(dom)["frame"], 1000)
        self.assertIn("8000 frames", dom)
        self.assertIn('class="fold" type="button" aria-expanded="false"', dom)

    def test_an_entry_folds_by_its_button_and_a_phone_is_narrow(self):
        click = "<script>document.querySelector('.fold').click()</script></body>"
        dom = self.dom(page(data_of(NOISE)).replace("</body>", click), width=500)
        self.assertEqual(re.findall(r'class="fold" type="button" aria-expanded="(\w+)"', dom), ["false", "true"])
        self.assertEqual(dom.count('class="body" hidden'), 1)
        self.assertIn('class="ladder narrow"', dom)


    def test_a_picture_is_drawn_anew_in_the_same_element(self):
        other = as_json(ladder_data(["9 ! reset", "9 > 26/7 lose", "9 not found"], "another"))
        script = f"""<script>
        const element = document.getElementById("ladder");
        drawLadder(element, {other}, {{ all: true }});
        element.style.width = "400px";
        window.dispatchEvent(new Event("resize"));
        </script></body>"""
        dom = self.dom(page(data_of(NOISE)).replace("</body>", script))
        self.assertEqual(re.findall(r"<h1>(.*?)</h1>", dom), ["another"])
        self.assertEqual(self.classes(dom)["frame"], 2)
        self.assertIn('class="ladder narrow"', dom)


DOCUMENT = """
class Element {
  constructor(name) { this.name = name; this.children = []; this.style = { setProperty() {} }; this.text = ""; }
  set textContent(text) { this.text = text; this.children = []; }
  setAttribute(key, value) { this[key] = value; }
  append(...children) { this.children.push(...children); }
  replaceChildren(...children) { this.children = children; }
  addEventListener(name, run) { this[name] = run; }
  all() { return [this, ...this.children.flatMap((child) => (child.all ? child.all() : []))]; }
}
globalThis.document = { createElement: (name) => new Element(name), createElementNS: (_, name) => new Element(name) };
const drawLadder = require(process.argv[1]);
const given = JSON.parse(require("fs").readFileSync(0, "utf8"));
const element = new Element("main");
const picked = [];
drawLadder(element, given, { onFrame: (frame) => picked.push(frame.words) });
const rows = element.all().filter((one) => one.name === "li" && one.tabIndex === 0);
rows[1].click();
console.log(rows.length, element.all().filter((one) => one.name === "button").length, picked.join());
console.log(Object.keys(globalThis).filter((name) => name === "drawLadder").length);
"""


@unittest.skipUnless(shutil.which("node"), "node isn't installed")
class Script(unittest.TestCase):
    def test_it_is_drawn_over_any_document(self):
        words = ["node", "-e", DOCUMENT, str(HERE / "ladder.js")]
        data = data_of(NOISE)
        done = subprocess.run(words, input=as_json(data), capture_output=True, text=True, timeout=60)
        self.assertEqual(done.stderr, "")
        shown = sum(frame["mark"] != "!" for frame in frames(data))
        second = [frame["words"] for frame in frames(data) if frame["mark"] != "!"][1]
        self.assertEqual(done.stdout, f"{shown} 4 {second}\n0\n")


if __name__ == "__main__":
    unittest.main()
