"""Tests of tools/wireshark/nfc_forum.lua by tshark, where it is installed: what it shows is compared with the comments.

A packet's comment is what annotate.py tells, which reads frames by code of its own.
"""

from __future__ import annotations

import pathlib
import re
import shutil
import subprocess
import tempfile
import unittest

import to_pcap
from frames import llcp, snep

ROOT = pathlib.Path(__file__).resolve().parents[2]
SCRIPT = ROOT / "tools" / "wireshark" / "nfc_forum.lua"
NOISE = ROOT / "tests/cases/written-by-hand/a-put-through-noise.stdout"
REPORTS = ("examples/*.stdout", "tests/cases/written-by-hand/*.stdout", "tests/cases/links/*[037].stdout")
FIELDS = (
    "frame.comment _ws.col.Info nfc_forum.line nfc_forum.fate nfc_forum.sdd.known_bits nfc_forum.common_bits "
    "nfc_dep.pni nfc_dep.again llcp.ptype llcp.ssap llcp.dsap llcp.ns llcp.nr llcp.miu llcp.sn snep.code snep.length "
    "snep.missing _ws.expert.message t2t.command t2t.block t2t.answer t5t.command t5t.block t5t.uid t5t.error"
).split()

PDU = re.compile(r"\b(SYMM|SNL|AGF)\b|\b(UI|CONNECT|DISC|CC|DM|FRMR|I|RR|RNR) from (\d+) to (\d+)")
FIXED = {"SYMM": (llcp.SYMM, 0, 0), "SNL": (llcp.SNL, 1, 1), "AGF": (llcp.AGF, 0, 0)}
TYPES = {name: kind for kind, name in llcp.NAMES.items()}
MESSAGE = re.compile(
    r"SNEP \d\.\d ([A-Z ]+), (\d+) bytes?(?:, (\d+) of them here)?|SNEP, .*? more, (\d+) bytes? to come"
)


def is_installed() -> bool:
    return shutil.which("tshark") is not None


def shown(packets, *words: str, filter: str = "") -> list[dict[str, list[str]]]:
    """The fields of each packet that tshark shows, each with its values."""
    with tempfile.TemporaryDirectory() as folder:
        capture = pathlib.Path(folder) / "report.pcapng"
        capture.write_bytes(to_pcap.capture(packets))
        command = ["tshark", "-X", f"lua_script:{SCRIPT}", "-r", str(capture), "-T", "fields", "-E", "aggregator=|"]
        asked = [word for name in FIELDS for word in ("-e", name)]
        chosen = ["-Y", filter] if filter else []
        run = subprocess.run([*command, *asked, *chosen, *words], capture_output=True, text=True, check=True)
    if "Lua Error" in run.stdout + run.stderr:
        raise AssertionError(run.stdout + run.stderr)
    split = (dict(zip(FIELDS, line.split("\t"))) for line in run.stdout.splitlines())
    return [{name: value.split("|") if value else [] for name, value in each.items()} for each in split]


def numbers(values: list[str]) -> list[int]:
    return [int(value, 0) for value in values]


def told_pdus(comment: str) -> list[tuple[int, int, int]]:
    """Of each PDU that a comment tells its type, SSAP and DSAP."""
    found = PDU.findall(comment)
    return [FIXED[alone] if alone else (TYPES[name], int(source), int(target)) for alone, name, source, target in found]


def told_missing(comment: str) -> list[int]:
    """How many bytes are still to come behind each unit of SNEP, where some are."""
    found = MESSAGE.findall(comment)
    left = [int(more) if more else int(length) - int(here) if here else 0 for _, length, here, more in found]
    return [number for number in left if number]


@unittest.skipUnless(is_installed(), "tshark isn't installed")
class Reports(unittest.TestCase):
    """All packets of many reports: what the fields say is what the comment tells."""

    @classmethod
    def setUpClass(cls) -> None:
        files = [file for pattern in REPORTS for file in sorted(ROOT.glob(pattern))]
        lines = (line for file in files for line in file.read_text("ascii").splitlines())
        cls.packets = shown(to_pcap.convert(lines))

    def compared(self, field: str, told, least: int) -> None:
        """Each packet's numbers of the field are those that its comment tells; in all there are at least so many."""
        count = 0
        for packet in self.packets:
            comment = packet["frame.comment"][0]
            found = numbers(packet[field])
            self.assertEqual(found, told(comment), f"{field} of {comment}")
            count += len(found)
        self.assertGreaterEqual(count, least, field)

    def test_each_number_is_the_one_that_annotate_tells(self):
        for field, pattern, least in (
            ("nfc_forum.line", r"^line (\d+), ", 13_000),
            ("nfc_forum.sdd.known_bits", r"SDD_REQ of level \d, (\d+) bits? known", 100),
            ("nfc_dep.pni", r"PNI (\d)", 800),
            ("llcp.ns", r"N\(S\) (\d+)", 300),
            ("llcp.nr", r"N\(R\) (\d+)", 300),
            ("snep.length", r"SNEP \d\.\d [A-Z ]+, (\d+) bytes?", 200),
            ("t2t.block", r"(?:READ|WRITE) of block (\d+)", 500),
            ("t5t.block", r"(?:SINGLE BLOCK|MULTIPLE BLOCKS) (\d+)", 10),
        ):
            with self.subTest(field):
                self.compared(field, lambda comment: [int(number) for number in re.findall(pattern, comment)], least)

    def test_each_clash_has_its_common_bits(self):
        counts = lambda comment: re.findall(r"clash (?:behind (\d+)|at the first)", comment)
        self.compared("nfc_forum.common_bits", lambda comment: [int(count or 0) for count in counts(comment)], 20)

    def test_each_pdu_has_its_type_and_access_points(self):
        for place, field in enumerate(("llcp.ptype", "llcp.ssap", "llcp.dsap")):
            with self.subTest(field):
                self.compared(field, lambda comment: [pdu[place] for pdu in told_pdus(comment)], 500)

    def test_each_message_of_snep_has_its_code_and_what_is_to_come(self):
        codes = lambda packet: [snep.CODES[code] for code in numbers(packet["snep.code"])]
        for packet in self.packets:
            comment = packet["frame.comment"][0]
            self.assertEqual(codes(packet), re.findall(r"SNEP \d\.\d ([A-Z ]+),", comment), comment)
        self.compared("snep.missing", told_missing, 50)

    def test_what_did_not_arrive_is_found_by_its_fate(self):
        for fate in ("damage", "lose", "break"):
            with self.subTest(fate):
                told = [packet for packet in self.packets if f", {fate}: " in packet["frame.comment"][0]]
                found = [packet for packet in self.packets if packet["nfc_forum.fate"] == [fate]]
                self.assertEqual(found, told)
                self.assertGreater(len(found), 10)

    def test_answers_of_tags(self):
        answers = [packet for packet in self.packets if packet["t2t.answer"]]
        self.assertGreater(len(answers), 100)
        for packet in answers:
            is_done = packet["t2t.answer"] == ["0x0a"]
            self.assertIn("ACK: written" if is_done else "NAK 0h", packet["frame.comment"][0])

    def test_nothing_is_malformed_or_unknown(self):
        wrong = [packet for packet in self.packets if re.search("Malformed|Unknown", "".join(packet["_ws.col.Info"]))]
        self.assertEqual(wrong, [])


def dep(*payloads: str) -> list[str]:
    """A report of requests that carry these payloads, each with the next PNI."""
    frames = (f"D406{place % 4:02X}{payload}" for place, payload in enumerate(payloads))
    return [f"1 > F0{len(frame) // 2 + 1:02X}{frame} pass" for frame in frames]


@unittest.skipUnless(is_installed(), "tshark isn't installed")
class Readme(unittest.TestCase):
    def test_what_it_shows_is_what_comes_out(self):
        page = (ROOT / "tools" / "README.md").read_text("utf-8")
        command, told = re.search(r"    (tshark -X .*\n        .*)\n\n((?:    .*\n)+)", page).groups()
        with tempfile.TemporaryDirectory() as folder:
            lines = NOISE.read_text("ascii").splitlines()
            (pathlib.Path(folder) / "noise.pcapng").write_bytes(to_pcap.capture(to_pcap.convert(lines)))
            (pathlib.Path(folder) / "tools").symlink_to(ROOT / "tools")
            run = subprocess.run(command, shell=True, cwd=folder, capture_output=True, text=True)
        self.assertEqual([f"    {line}" for line in run.stdout.splitlines()], told.splitlines())


@unittest.skipUnless(is_installed(), "tshark isn't installed")
class Frames(unittest.TestCase):
    """Packets of each kind that the reports don't have."""

    def test_pdus_that_the_bench_does_not_send(self):
        payloads = {
            "10E04142": (["3"], []),
            "0080": (["2"], []),
            "00800002000000020641": (["2", "0", "9"], []),
            "1220810102030405": (["8"], []),
            "12208101": (["8"], ["No well-formed PDU"]),
            "008000FF00": (["2"], ["An AGF with a length that passes its end"]),
            "9244": (["9"], []),
            "05200201": (["4"], ["A parameter without its length or its value"]),
            "13A0": (["14"], ["No well-formed PDU"]),
            "13A003": (["14"], []),
        }
        packets = shown(to_pcap.convert(dep(*payloads)))
        for (payload, (types, experts)), packet in zip(payloads.items(), packets, strict=True):
            with self.subTest(payload):
                self.assertEqual(packet["llcp.ptype"], types)
                self.assertEqual(packet["_ws.expert.message"][1:], experts)

    def test_a_parameter_is_told_by_its_value(self):
        name = b"urn:nfc:sn:snep"
        (packet,) = shown(to_pcap.convert(dep(f"0520020203FF05010F06{len(name):02X}{name.hex().upper()}")))
        self.assertEqual((packet["llcp.miu"], packet["llcp.sn"]), (["1151"], [name.decode()]))

    def test_information_of_no_bytes_is_no_pdu(self):
        report = ("1 > F004D40600 pass", "1 > F004D40611 pass", "1 > F006D406120000 pass", "1 > F004D40603 pass")
        told = [packet["_ws.col.Info"] for packet in shown(to_pcap.convert(report))]
        expected = ["PNI 0", "PNI 1, chained", "PNI 2, chained", "PNI 3: SYMM"]
        self.assertEqual(told, [[f"DEP_REQ {text}"] for text in expected])

    def test_frames_that_are_broken_are_no_error_of_the_script(self):
        whole = ("F00DD507018304011081000000", "F00ED40600008000020000", "9320", "93700102030404", "260140060504030201")
        cut = [frame[:length] for frame in whole for length in range(2, len(frame), 2)]
        report = [f"1 {mark} {frame} pass" for frame in cut for mark in "><*"]
        self.assertEqual(len(shown(to_pcap.convert(report))), len(report))

    def test_frames_of_type_5(self):
        turns = ("> 222106050403020104E00711223344", "< 0110", "> 0230FF01", "< 0001020304")
        write, refused, read, _ = shown(to_pcap.convert(f"1 {turn} pass" for turn in turns))
        self.assertEqual((write["t5t.command"], write["t5t.block"]), (["0x21"], ["7"]))
        self.assertEqual((write["t5t.uid"], refused["t5t.error"]), (["E004010203040506"], ["0x10"]))
        self.assertEqual((read["t5t.command"], read["t5t.block"], read["t5t.uid"]), (["0x30"], ["511"], []))

    def test_check_bytes_are_left_aside(self):
        (packet,) = shown(to_pcap.convert(["1 > A20401020304 pass"], with_crc=True))
        self.assertEqual((packet["t2t.command"], packet["t2t.block"]), (["0xa2"], ["4"]))

    def test_a_filter_finds_a_layer(self):
        lines = NOISE.read_text("ascii").splitlines()
        filters = {"llcp.ptype == 12 && nfc_dep.pni == 1": 3, 'nfc_forum.fate == "lose" || nfc_dep.again == 1': 3}
        for filter, count in filters.items():
            with self.subTest(filter):
                self.assertEqual(len(shown(to_pcap.convert(lines), filter=filter)), count)

    def test_type_4_is_dissected_to_its_commands(self):
        lines = (ROOT / "examples/type4-over-iso-dep.script.stdout").read_text("ascii").splitlines()
        packets = shown(to_pcap.convert(lines), "-d", "iso14443.subdissector,iso7816")
        told = [packet["_ws.col.Info"][0] for packet in packets]
        self.assertEqual(told.count("Read binary, offset 0"), 4)
        self.assertIn("R-block, NAK, Block number 0", told)


if __name__ == "__main__":
    unittest.main()
