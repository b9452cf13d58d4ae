"""Tests of tools/to_pcap.py: what is written is parsed back."""

import contextlib
import io
import pathlib
import struct
import subprocess
import sys
import tempfile
import unittest
from unittest import mock

import to_pcap

EXAMPLES = pathlib.Path(__file__).resolve().parents[2] / "examples"
OPTION = struct.Struct("<HH")
PSEUDO_HEADER = struct.Struct(">BBH")

TO_CARD, TO_READER = 0xFE, 0xFF
TO_CARD_NO_CRC, TO_READER_NO_CRC = 0xFA, 0xFB
FIELD_OFF, FIELD_ON = 0xFD, 0xFC
RESET = [(FIELD_OFF, ""), (FIELD_ON, "")]

SELECTED = [
    (TO_CARD, "26"),
    (TO_READER, "0400"),
    (TO_CARD, "9320"),
    (TO_READER, "0102030404"),
    (TO_CARD_NO_CRC, "93700102030404"),
    (TO_READER_NO_CRC, "00"),
]


def blocks(content):
    """The kind and the body of each block of a pcapng file."""
    while content:
        kind, length = struct.unpack_from("<II", content)
        assert length % 4 == 0 and struct.unpack_from("<I", content, length - 4) == (length,)
        yield kind, content[8 : length - 4]
        content = content[length:]


def option(body):
    """The one option of a block, its code and its text."""
    code, length = OPTION.unpack_from(body)
    assert body[4 + length :].lstrip(b"\0") == b"" and len(body) == 4 + length + -length % 4 + 4
    return code, body[4 : 4 + length].decode("utf-8")


def parsed(content):
    """The interfaces of a capture, and of each packet its time in microseconds, interface, data and comment."""
    (kind, section), *others = blocks(content)
    assert (kind, section[:4]) == (0x0A0D0D0A, bytes.fromhex("4D3C2B1A"))
    interfaces = [(struct.unpack_from("<H", body)[0], *option(body[8:])) for kind, body in others if kind == 1]
    packets = []
    for kind, body in others[len(interfaces) :]:
        interface, high, low, captured, original = struct.unpack_from("<IIIII", body)
        assert (kind, captured) == (6, original)
        code, comment = option(body[20 + captured + -captured % 4 :])
        assert code == 1
        packets.append((high << 32 | low, interface, body[20 : 20 + captured], comment))
    return interfaces, packets


def shown(packet):
    """A packet of NFC-A as its event and data, another one as its data with the header."""
    _, interface, data, _ = packet
    if interface:
        return data.hex().upper()
    version, event, length = PSEUDO_HEADER.unpack_from(data)
    assert (version, length) == (0, len(data) - PSEUDO_HEADER.size)
    return event, data[PSEUDO_HEADER.size :].hex().upper()


def packets(report, with_crc=False):
    return parsed(to_pcap.capture(to_pcap.convert(report.splitlines(), with_crc)))[1]


def events(report, with_crc=False):
    return [shown(packet) for packet in packets(report, with_crc)]


def comments(report):
    return [comment for _, _, _, comment in packets(report)]


def run(*words, given=b""):
    """Exit status, standard output and standard error of a run."""
    output = io.TextIOWrapper(io.BytesIO())
    errors = io.StringIO()
    source = io.TextIOWrapper(io.BytesIO(given))
    with mock.patch("sys.stdin", source), mock.patch("sys.stdout", output), contextlib.redirect_stderr(errors):
        status = to_pcap.main([str(word) for word in words])
    return status, output.buffer.getvalue(), errors.getvalue()


class Examples(unittest.TestCase):
    def reports(self):
        found = sorted(EXAMPLES.glob("*.script.stdout"))
        self.assertTrue(found)
        return found

    def test_each_capture_has_its_interfaces_and_times(self):
        for report in self.reports():
            with self.subTest(report.name):
                status, content, errors = run(report)
                self.assertEqual((status, errors), (0, ""))
                interfaces, packets = parsed(content)
                self.assertEqual(interfaces, [(264, 2, "NFC-A"), (147, 2, "NFC-V and clashes")])
                self.assertEqual([packet[0] for packet in packets], [1000 * n for n in range(len(packets))])

    def test_each_frame_stands_in_its_place_with_its_line_and_fate(self):
        for report in self.reports():
            with self.subTest(report.name):
                expected = []
                for line in report.read_text("ascii").splitlines():
                    number, mark, *words = line.split(" ")
                    if mark == "!":
                        expected += [("", f"line {number}: reset, the field is ")] * 2
                    elif mark in (">", "<", "*"):
                        data = words[0].partition("/")[0].replace("-", "")
                        expected.append((data, f"line {number}, {words[1]}: "))
                        expected += [("", f"line {number}: the field is lost")] * (words[1] == "break")
                found = packets(report.read_text("ascii"))
                self.assertEqual([packet[2][4:].hex().upper() for packet in found], [data for data, _ in expected])
                for (_, begin), packet in zip(expected, found):
                    self.assertTrue(packet[3].startswith(begin), packet[3])
                    self.assertNotIn("?", packet[3])

    def test_one_tag_is_read(self):
        report = (EXAMPLES / "one-tag.script.stdout").read_text("ascii")
        self.assertEqual(
            events(report),
            RESET
            + SELECTED
            + [
                (TO_CARD_NO_CRC, "3000"),
                (TO_READER_NO_CRC, "000000000000000000000000E1100600"),
                (TO_CARD_NO_CRC, "3004"),
                (TO_READER_NO_CRC, "0303D00000FE00000000000000000000"),
            ],
        )

    def test_a_lost_field_is_a_field_off(self):
        report = (EXAMPLES / "field-lost-and-back.script.stdout").read_text("ascii")
        first = events(report)[: 2 + 6 + 4 + 1]
        self.assertEqual(
            first[-4:],
            [
                (TO_READER_NO_CRC, "000000000000000000000000E1100600"),
                (TO_CARD_NO_CRC, "3004"),
                (FIELD_OFF, ""),
                (FIELD_OFF, ""),
            ],
        )

    def test_blocks_of_iso_dep_have_a_crc_that_was_dropped(self):
        report = (EXAMPLES / "type4-over-iso-dep.script.stdout").read_text("ascii")
        found = events(report)
        self.assertIn((TO_CARD_NO_CRC, "E080"), found)
        self.assertIn((TO_READER_NO_CRC, "0200"), found)
        self.assertIn((TO_CARD_NO_CRC, "B2"), found)
        self.assertIn((TO_READER_NO_CRC, "0369656365739000"), found)

    def test_frames_of_type_5_stand_on_the_other_interface(self):
        found = events((EXAMPLES / "large-type5.script.stdout").read_text("ascii"))
        self.assertIn("0000010026014006050403020104E0", found)
        self.assertIn("00010100000006050403020104E0", found)


class Events(unittest.TestCase):
    def test_a_short_frame_and_its_answer_have_no_crc(self):
        self.assertEqual(events("1 > 52/7 pass\n1 < 4400 pass\n"), [(TO_CARD, "52"), (TO_READER, "4400")])

    def test_anticollision_has_no_crc_and_selection_has_one(self):
        for code in ("93", "95", "97"):
            with self.subTest(code):
                report = f"1 > {code}2101/1 pass\n1 < 00810100/1 pass\n1 > {code}700102030404 pass\n1 < 04 pass\n"
                self.assertEqual(
                    events(report),
                    [
                        (TO_CARD, f"{code}2101"),
                        (TO_READER, "00810100"),
                        (TO_CARD_NO_CRC, f"{code}700102030404"),
                        (TO_READER_NO_CRC, "04"),
                    ],
                )

    def test_answers_of_four_bits_have_no_crc(self):
        self.assertEqual(
            events("1 > A20401020304 pass\n1 < 0A/4 pass\n1 > 30FF pass\n1 < 00/4 pass\n"),
            [(TO_CARD_NO_CRC, "A20401020304"), (TO_READER, "0A"), (TO_CARD_NO_CRC, "30FF"), (TO_READER, "00")],
        )

    def test_frames_stand_as_sent_whatever_their_fate(self):
        self.assertEqual(
            events("1 > 3000 lose\n1 > 3000 damage\n1 > 3000 pass\n1 < 00112233 lose\n1 > 3000 pass\n1 < 00 damage\n"),
            [(TO_CARD_NO_CRC, "3000")] * 3
            + [(TO_READER_NO_CRC, "00112233"), (TO_CARD_NO_CRC, "3000"), (TO_READER_NO_CRC, "00")],
        )

    def test_the_field_of_a_broken_frame_goes_dark(self):
        self.assertEqual(events("1 > 260100 break\n"), ["00000100260100", (FIELD_OFF, "")])

    def test_a_clash_and_a_frame_of_no_bits_stand_on_the_other_interface(self):
        report = "1 > 9320 pass\n1 * 01/1 pass\n1 * - lose\n1 < - pass\n"
        self.assertEqual(events(report), [(TO_CARD, "9320"), "0002000101", "00020000", "00010000"])

    def test_sens_req_is_nfc_a_and_an_inventory_is_not(self):
        report = "1 > 26/7 pass\n1 > 260100 pass\n1 < 000006050403020104E0 pass\n1 > 22FF pass\n1 < 010F pass\n"
        inventory = ["00000100260100", "00010100000006050403020104E0"]
        self.assertEqual(events(report), [(TO_CARD, "26"), *inventory, "0000010022FF", "00010100010F"])

    def test_blocks_of_a_card_are_no_requests_of_type_5(self):
        report = (EXAMPLES / "type4-over-iso-dep.script.stdout").read_text("ascii")
        self.assertEqual({packet[1] for packet in packets(report)}, {0})

    def test_a_comment_tells_line_fate_and_words(self):
        self.assertEqual(
            comments("7 ! reset\n7 > 26/7 damage\n7 > 26/7 break\n9 > FF pass\n"),
            [
                "line 7: reset, the field is dark",
                "line 7: reset, the field is lit",
                "line 7, damage: SENS_REQ (nobody heard it)",
                "line 7, break: SENS_REQ (nobody heard it, the field goes dark)",
                "line 7: the field is lost",
                "line 9, pass: ?",
            ],
        )

    def test_check_bytes_are_those_of_the_standard(self):
        for data, crc in (("0000", "A01E"), ("1234", "26CF"), ("5000", "57CD")):
            with self.subTest(data):
                self.assertEqual(to_pcap.crc_a(bytes.fromhex(data)).hex().upper(), crc)

    def test_with_crc_the_events_are_plain_and_the_check_bytes_stand_behind(self):
        report = "1 > 26/7 pass\n1 > 9320 pass\n1 < 0102030404 pass\n1 > 5000 pass\n1 > 3000 pass\n1 < 00/4 pass\n"
        self.assertEqual(
            events(report, with_crc=True),
            [
                (TO_CARD, "26"),
                (TO_CARD, "9320"),
                (TO_READER, "0102030404"),
                (TO_CARD, "500057CD"),
                (TO_CARD, "300002A8"),
                (TO_READER, "00"),
            ],
        )


class Runs(unittest.TestCase):
    def test_standard_input_and_a_named_capture_give_the_same_bytes(self):
        report = EXAMPLES / "one-tag.script.stdout"
        status, content, errors = run(given=report.read_bytes())
        self.assertEqual((status, errors), (0, ""))
        with tempfile.TemporaryDirectory() as folder:
            target = pathlib.Path(folder) / "one-tag.pcapng"
            self.assertEqual(run(report, "-o", target), (0, b"", ""))
            self.assertEqual(target.read_bytes(), content)

    def test_it_runs_as_a_program_and_as_a_word(self):
        report = EXAMPLES / "one-tag.script.stdout"
        word = str(pathlib.Path(to_pcap.__file__).with_name("nfc.py"))
        for program in ([to_pcap.__file__], [word, "pcap"]):
            with self.subTest(program):
                run_of_it = subprocess.run([sys.executable, *program, str(report)], capture_output=True, check=True)
                self.assertEqual((run_of_it.stdout, run_of_it.stderr), (run(report)[1], b""))

    def test_a_quiet_report_gives_a_capture_without_packets(self):
        status, content, errors = run(given=b"1 ok\n2 message D00000 writable\nfault 2 line 3\n")
        self.assertEqual((status, errors, parsed(content)[1]), (0, "", []))

    def test_a_last_line_that_is_cut_off_is_left_out(self):
        status, content, _ = run(given=b"1 > 3000 pass\n1 < 0011")
        self.assertEqual((status, len(parsed(content)[1])), (0, 1))


class Refusals(unittest.TestCase):
    def refused(self, given, error):
        status, content, errors = run(given=given)
        self.assertEqual((status, content, errors), (2, b"", f"to_pcap: {error}\n"))

    def test_what_is_no_report_is_named_by_its_line(self):
        self.refused(b"place t2 01020304 16 -\n", "this is no report of the bench: line 1 is no line of one")
        for line in (b"2 > 300 pass", b"2 > 3000", b"2 > 3000 passed", b"2 > 26/8 pass", b"", b"2 ok\xff"):
            with self.subTest(line):
                self.refused(b"1 ok\n" + line + b"\n", "this is no report of the bench: line 2 is no line of one")

    def test_an_empty_report(self):
        self.refused(b"", "the report is empty")

    def test_a_report_that_is_not_there(self):
        self.assertEqual(run("/nowhere/report"), (2, b"", "to_pcap: /nowhere/report: No such file or directory\n"))

    def test_a_capture_that_cannot_be_written(self):
        report = EXAMPLES / "one-tag.script.stdout"
        error = "to_pcap: /nowhere/capture: No such file or directory\n"
        self.assertEqual(run(report, "-o", "/nowhere/capture"), (2, b"", error))

    def test_a_terminal_gets_no_capture(self):
        errors = io.StringIO()
        terminal = mock.Mock(**{"isatty.return_value": True})
        with mock.patch("sys.stdout", terminal), contextlib.redirect_stderr(errors):
            self.assertEqual(to_pcap.main([str(EXAMPLES / "one-tag.script.stdout")]), 2)
        self.assertEqual(errors.getvalue(), "to_pcap: a capture isn't text for a terminal: name a file with -o\n")


if __name__ == "__main__":
    unittest.main()
