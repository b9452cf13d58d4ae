"""Tests of tools/from_dump.py: each line is compared whole, and held against the limits of docs/script.md."""

import contextlib
import io
import json
import pathlib
import re
import subprocess
import sys
import tempfile
import unittest
from unittest import mock

import from_dump

EXAMPLES = pathlib.Path(__file__).resolve().parents[2] / "examples"

# An NTAG213: 45 pages, of which 4 to 39 are the area that page 3 names.
HEAD = "041122BF 33445566 44480000 E1101200"
MESSAGE = "0103A00C 34030DD1 01095402 656E6869 20746166 20FE0000"
AREA = "".join(MESSAGE.split()) + "00" * (144 - 24)
BEHIND = "000000BD 040000FF 00050000 FFFFFFFF 00000000"
NTAG213 = bytes.fromhex(HEAD + AREA + BEHIND)
NTAG213_LINE = (
    "place t2 04112233445566 40 "
    "041122BF3344556644480000E11012000103A00C34030DD101095402656E68692074616620FE"
)

# A Type 5 tag of 8 blocks of 4 bytes.
ICODE = bytes.fromhex("E1400400 0303D000 00FE0000" + "00" * 20)
ICODE_LINE = "place t5 E004010203040506 8 4 E14004000303D00000FE"

# The NDEF file of a Type 4 tag.
FILE = bytes.fromhex("0005 D101015500" + "00" * 9)
FILE_LINE = "place t4 02030405 8 000F20003B00340406E10400100000 0005D1010155"

LARGE_FILE = "too large for the bench: a file of 32768 bytes, and 32767 is the most"


def flipper(device, *fields):
    return "\n".join(["Filetype: Flipper NFC device", "Version: 4", f"Device type: {device}", *fields]) + "\n"


def flipper_pages(memory, first=0):
    return [f"Page {n}: {memory[4 * n : 4 * n + 4].hex(' ').upper()}" for n in range(first, len(memory) // 4)]


def flipper_t5(**changes):
    fields = {
        "# UID is common for all formats": "",
        "UID": "E0 04 01 02 03 04 05 06",
        "DSFID": "00",
        "Lock AFI": "false",
        "Block Count": "8",
        "Block Size": "04",
        "Data Content": ICODE.hex(" ").upper(),
        "Security Status": "00 00 00 00 00 00 00 00",
    }
    fields.update({key.replace("_", " "): value for key, value in changes.items()})
    return [f"{key}: {value}" for key, value in fields.items() if value is not None]


def proxmark(file_type, memory, size, card=None):
    blocks = {str(n): memory[size * n : size * n + size].hex().upper() for n in range(len(memory) // size)}
    record = {"Created": "proxmark3", "FileType": file_type, "blocks": blocks}
    return record if card is None else {**record, "Card": card}


def taginfo(memory, ident):
    """A full scan of NXP TagInfo: what stands around the pages, and a line for each page of four bytes."""
    shown = [f"ID: {ident}"] if ident else []
    title = "** TagInfo scan (version 4.24.5) 2021-03-04 10:11:12 **"
    head = [title, "Report Type: External", "", "# IC type:", "NTAG213"]
    pages = [
        f"[{n // 4:02X}] {'*x.+'[n % 4]}{' P'[n == 172]} {memory[n : n + 4].hex(':').upper()} |...,| (UID0-UID2, BCC0)"
        for n in range(0, len(memory), 4)
    ]
    foot = ["", "  *:locked & blocked, x:locked,", "  +:blocked, .:un(b)locked, ?:unknown", "-" * 38]
    return "\n".join(head + ["# Detailed protocol information:"] + shown + ["# Memory content:"] + pages + foot) + "\n"


def run(given, *words, name=None):
    """Exit status, standard output and standard error; the dump is given, or stands in a file of this name."""
    content = given if isinstance(given, bytes) else given.encode()
    output, errors = io.StringIO(), io.StringIO()
    with tempfile.TemporaryDirectory() as folder, contextlib.ExitStack() as stack:
        if name:
            path = pathlib.Path(folder) / name
            path.write_bytes(content)
            words = (*words, str(path))
        stack.enter_context(mock.patch("sys.stdin", io.TextIOWrapper(io.BytesIO(content))))
        stack.enter_context(contextlib.redirect_stdout(output))
        stack.enter_context(contextlib.redirect_stderr(errors))
        status = from_dump.main(list(words))
    return status, output.getvalue(), errors.getvalue()


def bytes_of(word):
    return b"" if word == "-" else bytes.fromhex(word)


def is_nfca(ident):
    return len(ident) == 10 or len(ident) == 4 and ident[0] != 0x88 or len(ident) == 7 and ident[3] != 0x88


def is_area_whole(memory, blocks):
    return memory[12] != 0xE1 or memory[14] > 0x7E or 8 * memory[14] <= 4 * (blocks - 4)


def is_accepted(line):
    """Whether a `place` line keeps all that docs/script.md asks of it, where nothing else is placed."""
    number, content = "(0|[1-9][0-9]*)", "(-|(?:[0-9A-Fa-f]{2})+)"
    if len(line) > 4096:
        return False
    if found := re.fullmatch(f"place t2 {content} {number} {content}", line):
        blocks, head = int(found[2]), bytes_of(found[3])
        is_memory = 4 <= blocks <= 256 and len(head) <= 4 * blocks
        return is_nfca(bytes_of(found[1])) and is_memory and is_area_whole(head.ljust(16, b"\0"), blocks)
    if found := re.fullmatch(f"place t3 {content} {number} {content}", line):
        blocks, head = int(found[2]), bytes_of(found[3])
        return len(bytes_of(found[1])) == 8 and 1 <= blocks <= 256 and len(head) <= 16 * blocks
    if found := re.fullmatch(f"place t4 {content} {number} {content} {content}", line):
        container, head = bytes_of(found[3]), bytes_of(found[4])
        is_container = 15 <= len(container) <= 64 and container[9:11] != b"\xe1\x03" and container[11] < 0x80
        is_file = len(head) <= int.from_bytes(container[11:13], "big")
        return is_nfca(bytes_of(found[1])) and int(found[2]) <= 8 and is_container and is_file
    if found := re.fullmatch(f"place t5 {content} {number} {number} {content}", line):
        blocks, size = int(found[2]), int(found[3])
        is_memory = 1 <= blocks <= 16384 and size in (4, 8, 16, 32) and len(bytes_of(found[4])) <= blocks * size <= 65536
        return len(bytes_of(found[1])) == 8 and is_memory
    if found := re.fullmatch(f"place peer {content} {number} {number} {number} {number}", line):
        reduction, miu, window, limit = (int(found[n]) for n in range(2, 6))
        is_link = reduction <= 3 and 128 <= miu <= 2175 and 1 <= window <= 15
        return is_nfca(bytes_of(found[1])) and is_link and 1024 <= limit <= 65536
    return False


class DumpCase(unittest.TestCase):
    def places(self, line, given, *words, name=None):
        self.assertEqual(run(given, *words, name=name), (0, line + "\n", ""))
        self.assertTrue(is_accepted(line))

    def refuses(self, error, given, *words, name=None):
        self.assertEqual(run(given, *words, name=name), (1, "", f"from_dump: {error}\n"))


class Limits(unittest.TestCase):
    """The check of this file accepts what the bench accepts."""

    def test_the_places_of_the_examples_are_accepted(self):
        lines = [line for script in EXAMPLES.glob("*.script") for line in script.read_text("ascii").splitlines()]
        places = [line for line in lines if line.startswith("place ")]
        self.assertTrue(places)
        for line in places:
            with self.subTest(line[:40]):
                self.assertTrue(is_accepted(line))

    def test_what_the_page_of_the_script_refuses_is_not_accepted(self):
        for line in (
            "place t2 01020304 016 -",
            "place t2 88020304 16 -",
            "place t2 04112288445566 16 -",
            "place t2 01020304 3 -",
            "place t2 01020304 257 -",
            "place t2 01020304 16 " + "00" * 65,
            "place t2 01020304 16 000000000000000000000000E1100700",
            "place t5 E004010203040506 4 5 -",
            "place t5 E0040102030405 4 4 -",
            "place t5 E004010203040506 0 4 -",
            "place t5 E004010203040506 256 32 " + "00" * 2032,
            "place t4 02030405 9 000F20003B000D0406E10402000000 -",
            "place t4 02030405 8 000F20 -",
            "place t4 02030405 8 000F20003B000D0406E10302000000 -",
            "place t4 02030405 8 000F20003B000D0406E10480000000 -",
            "place peer 88010203 3 128 1 1024",
            "place peer 08010203 4 128 1 1024",
            "place peer 08010203 3 127 1 1024",
            "place peer 08010203 3 2176 1 1024",
            "place peer 08010203 3 128 0 1024",
            "place peer 08010203 3 128 16 1024",
            "place peer 08010203 3 128 1 1023",
            "place peer 08010203 3 128 1 65537",
        ):
            with self.subTest(line[:60]):
                self.assertFalse(is_accepted(line))


class Type2(DumpCase):
    def test_raw_bytes(self):
        self.places(NTAG213_LINE, NTAG213, "--type", "t2", name="tag.bin")
        self.places(NTAG213_LINE, NTAG213, "--type", "t2")

    def test_raw_bytes_behind_a_header_of_proxmark(self):
        header = bytes.fromhex("0004040201000F03 0000 00 2C") + bytes(44)
        for given in (header + NTAG213, (header + NTAG213).hex()):
            self.places(NTAG213_LINE, given, "--type", "t2")
            self.places(NTAG213_LINE, given)
        words = ("--type", "t5", "--id", "E004010203040506")
        self.places(f"place t5 E004010203040506 3 4 {header[:12].hex().upper()}", header[:12], *words)

    def test_raw_bytes_that_look_like_text_need_the_name(self):
        memory = b"0123456789ABCDEF"
        line = "place t2 01020304 4 30313233343536373839414243444546"
        self.places(line, memory, "--type", "t2", "--id", "01020304", name="text.BIN")

    def test_hexadecimal_text_with_any_space(self):
        digits = NTAG213.hex()
        pages = "\r\n".join(digits[n : n + 8].upper() for n in range(0, len(digits), 8))
        for text in (digits, pages, NTAG213.hex(" "), "\ufeff\n  " + digits + "\n\n", "\t".join(digits)):
            with self.subTest(text[:12]):
                self.places(NTAG213_LINE, text, "--type", "t2")

    def test_a_flipper_file(self):
        fields = ["UID: 04 11 22 33 44 55 66", "ATQA: 00 44", "Pages total: 45", "Pages read: 45"]
        text = flipper("NTAG/Ultralight", *fields, *flipper_pages(NTAG213), "Failed authentication attempts: 0")
        self.places(NTAG213_LINE, text, name="tag.nfc")
        self.places(NTAG213_LINE, text.replace("\n", "\r\n"), "--type", "t2")

    def test_an_older_flipper_file_names_the_tag(self):
        for device in ("NTAG213", "NTAG I2C 1K", "Mifare Ultralight 11"):
            with self.subTest(device):
                self.places(NTAG213_LINE, flipper(device, "UID: 04112233445566", *flipper_pages(NTAG213)))

    def test_a_flipper_file_of_which_the_password_pages_were_not_read(self):
        text = flipper("NTAG/Ultralight", "Pages total: 45", "Pages read: 43", *flipper_pages(NTAG213))
        self.places(NTAG213_LINE, text)

    def test_a_proxmark_file(self):
        for card in ({"UID": "04112233445566", "Version": "0004040201000F03"}, {}, None):
            with self.subTest(card):
                self.places(NTAG213_LINE, json.dumps(proxmark("mfu", NTAG213, 4, card), indent=2), name="tag.json")

    def test_another_identifier_is_given(self):
        line = NTAG213_LINE.replace("04112233445566", "01020304", 1)
        self.places(line, NTAG213, "--type", "t2", "--id", "01:02:03:04")
        self.places(line, json.dumps(proxmark("mfu", NTAG213, 4, {"UID": "04112233445566"})), "--id", "01020304")

    def test_what_stands_behind_the_area_is_cut_off(self):
        self.places(NTAG213_LINE, NTAG213[:160], "--type", "t2")
        self.places(NTAG213_LINE, NTAG213 + bytes(4 * 300), "--type", "t2")

    def test_the_largest_area_of_one_sector(self):
        memory = bytes.fromhex("041122BF 33445566 44480000 E1107E00") + b"\xaa" * 1008
        line = "place t2 04112233445566 256 041122BF3344556644480000E1107E00" + "AA" * 1008
        self.places(line, memory + b"\xbb" * 16, "--type", "t2")

    def test_a_tag_without_an_area_is_taken_whole(self):
        memory = bytes.fromhex("041122BF 33445566 44480000 00000000 00000000 DEADBEEF")
        line = "place t2 04112233445566 6 041122BF334455664448000000000000" + "00000000DEADBEEF"
        self.places(line, memory, "--type", "t2")

    def test_a_tag_of_more_sectors_is_taken_whole(self):
        memory = bytes.fromhex("041122BF 33445566 44480000 E110EA00 0300FE00")
        self.places("place t2 04112233445566 5 041122BF3344556644480000E110EA000300FE", memory, "--type", "t2")

    def test_a_memory_of_zeros(self):
        self.places("place t2 01020304 4 -", bytes(16), "--type", "t2", "--id", "01020304")


class Type4(DumpCase):
    def test_a_file_gets_a_container_of_its_length(self):
        self.places(FILE_LINE, FILE, "--type", "t4", "--id", "02030405")
        self.places(FILE_LINE, FILE.hex(" "), "--type", "t4", "--id", "02030405")

    def test_code_and_container_are_given(self):
        container = "000F20000F00340406E10400800000"
        self.places(
            f"place t4 02030405 0 {container} 0005D1010155",
            FILE, "--type", "t4", "--id", "02030405", "--code", "0", "--container", container,
        )

    def test_a_file_of_zeros(self):
        line = "place t4 02030405 8 000F20003B00340406E10470000000 -"
        self.places(line, bytes(0x7000), "--type", "t4", "--id", "02030405")


class Type5(DumpCase):
    def test_raw_bytes_and_hexadecimal_text(self):
        for given in (ICODE, ICODE.hex(), ICODE.hex("\n", 4)):
            with self.subTest(given[:12]):
                self.places(ICODE_LINE, given, "--type", "t5", "--id", "E004010203040506")

    def test_the_size_of_a_block_is_given(self):
        line = ICODE_LINE.replace("8 4", "1 32")
        self.places(line, ICODE, "--type", "t5", "--id", "e004010203040506", "--block-size", "32")

    def test_a_flipper_file(self):
        for device in ("ISO15693-3", "SLIX"):
            with self.subTest(device):
                self.places(ICODE_LINE, flipper(device, *flipper_t5()))

    def test_the_block_size_of_a_flipper_file_is_hexadecimal(self):
        fields = flipper_t5(Block_Count="2", Block_Size="10")
        self.places(ICODE_LINE.replace("8 4", "2 16"), flipper("ISO15693-3", *fields))

    def test_a_proxmark_file_of_either_order_of_the_identifier(self):
        for file_type in ("15693", "15693 v3"):
            for uid in ("E004010203040506", "06050403020104e0"):
                for key in ("UID", "uid"):
                    with self.subTest(file_type=file_type, uid=uid, key=key):
                        self.places(ICODE_LINE, json.dumps(proxmark(file_type, ICODE, 4, {key: uid})))

    def test_a_given_identifier_is_taken_as_it_stands(self):
        line = ICODE_LINE.replace("E004010203040506", "06050403020104E0")
        self.places(line, ICODE, "--type", "t5", "--id", "06050403020104E0")

    def test_the_largest_memory_whose_content_fits_into_the_line(self):
        memory = (b"\xe1\x40\xff\x00" + b"\xaa" * 2026).ljust(8192, b"\0")
        line = "place t5 E004010203040506 256 32 E140FF00" + "AA" * 2026
        self.places(line, memory, "--type", "t5", "--id", "E004010203040506", "--block-size", "32")


class TagInfo(DumpCase):
    """Texts of NXP TagInfo."""

    def test_a_type_2_tag(self):
        self.places(NTAG213_LINE, taginfo(NTAG213, "04:11:22:33:44:55:66"), name="scan.txt")
        self.places(NTAG213_LINE, taginfo(NTAG213, "04:11:22:33:44:55:66").replace("\n", "\r\n"), "--type", "t2")
        self.places(NTAG213_LINE, taginfo(NTAG213, None))
        self.places(NTAG213_LINE, re.sub(r"(?m)(?<=]) \S+", "", taginfo(NTAG213, None)))

    def test_pages_from_the_first_that_was_not_read_are_left_out(self):
        text = taginfo(NTAG213, None)
        for shown in ("FF:FF:FF:FF", "00:05 -- --"):
            self.assertIn(shown.replace(" -- --", ":00:00"), text)
            self.places(NTAG213_LINE, text.replace(shown.replace(" -- --", ":00:00"), shown.replace("FF", "XX")))

    def test_a_type_5_tag(self):
        for ident in ("E0:04:01:02:03:04:05:06", "06:05:04:03:02:01:04:E0"):
            self.places(ICODE_LINE, taginfo(ICODE, ident))
        self.places(ICODE_LINE, taginfo(ICODE, None), "--type", "t5", "--id", "E004010203040506")

    def test_texts_that_are_not_whole(self):
        text = taginfo(NTAG213, "04:11:22:33:44:55:66")
        self.refuses("page 7 is missing", "\n".join(line for line in text.splitlines() if "[07]" not in line))
        self.refuses("blocks are missing: the dump has 7, and the tag needs 40", text[: text.index("[07]")])
        self.refuses("the dump has no pages", text.replace("04:11:22", "XX:XX:XX", 2))
        self.refuses("page 1 has 3 bytes, not 4", text.replace("33:44:55:66", "33:44:55"))
        self.refuses("the dump doesn't say what it is of: give --type", taginfo(ICODE, None))
        self.refuses("unknown format", text[: text.index("[00]")])


class Programs(unittest.TestCase):
    def test_it_runs_as_a_program(self):
        program = [sys.executable, from_dump.__file__, "--type", "t2"]
        run_of_it = subprocess.run(program, input=NTAG213, capture_output=True, check=True)
        self.assertEqual((run_of_it.stdout, run_of_it.stderr), (NTAG213_LINE.encode() + b"\n", b""))


class UnreadableDumps(DumpCase):
    def test_a_file_that_is_not_there(self):
        self.refuses("/nowhere/tag.bin: No such file or directory", "", "/nowhere/tag.bin")

    def test_an_empty_dump(self):
        self.refuses("the dump is empty", b"", "--type", "t2", name="tag.bin")

    def test_an_unknown_format(self):
        for text in ("0x04 0x11", "Page 0: 04 11 22 BF", "<xml/>", " \n"):
            with self.subTest(text):
                self.refuses("unknown format", text, "--type", "t2")

    def test_an_odd_number_of_digits(self):
        self.refuses("the dump: an odd number of hexadecimal digits", NTAG213.hex()[:-1], "--type", "t2")

    def test_a_dump_without_a_type(self):
        self.refuses("the dump doesn't say what it is of: give --type", NTAG213)

    def test_a_flipper_file_of_another_kind(self):
        self.refuses("unknown format: a Flipper file of another kind", "Filetype: Flipper RFID key\nVersion: 1\n")

    def test_a_flipper_file_of_another_tag(self):
        self.refuses("Mifare Classic is no Type 2 or Type 5 tag", flipper("Mifare Classic", "UID: 01 02 03 04"))

    def test_a_flipper_file_of_another_type_than_the_given_one(self):
        self.refuses("the dump is of a t5 tag, not of a t2", flipper("SLIX", *flipper_t5()), "--type", "t2")

    def test_a_flipper_file_without_a_device_type(self):
        self.refuses("the dump has no Device type", "Filetype: Flipper NFC device\nVersion: 4\n")

    def test_a_flipper_file_without_pages(self):
        self.refuses("the dump has no pages", flipper("NTAG/Ultralight", "UID: 04 11 22 33 44 55 66"))

    def test_a_flipper_file_with_a_gap(self):
        pages = flipper_pages(NTAG213)
        self.refuses("page 7 is missing", flipper("NTAG213", *pages[:7], *pages[8:]))

    def test_a_flipper_file_with_a_short_page(self):
        self.refuses("Page 0 has 3 bytes, not 4", flipper("NTAG213", "Page 0: 04 11 22"))

    def test_a_flipper_file_with_a_page_that_is_no_hexadecimal(self):
        self.refuses("Page 0: '?' is no hexadecimal digit", flipper("NTAG213", "Page 0: ?? ?? ?? ??"))
        self.refuses("Page 0: an odd number of hexadecimal digits", flipper("NTAG213", "Page 0: 04 11 22 9"))

    def test_a_flipper_file_with_a_count_that_is_no_number(self):
        self.refuses("Block Count: 'many' is no number", flipper("SLIX", *flipper_t5(Block_Count="many")))

    def test_a_flipper_file_with_too_little_content(self):
        fields = flipper_t5(Data_Content="E1 40 04 00")
        self.refuses("Data Content has 4 bytes, and 8 blocks of 4 have 32", flipper("SLIX", *fields))

    def test_a_flipper_file_without_content(self):
        self.refuses("the dump has no Data Content", flipper("SLIX", *flipper_t5(Data_Content=None)))

    def test_text_that_only_begins_like_json(self):
        for text in ('{"FileType": "mfu"', '{"a":' * 100_000):
            with self.subTest(text[:12]):
                self.refuses("unknown format: it begins like JSON and isn't", text)

    def test_json_without_a_file_type(self):
        self.refuses("unknown format: JSON without FileType", '{"blocks": {}}')

    def test_a_proxmark_file_of_another_tag(self):
        self.refuses("FileType 'mfc v2' is no Type 2 or Type 5 tag", json.dumps(proxmark("mfc v2", bytes(64), 16)))

    def test_a_proxmark_file_without_blocks(self):
        self.refuses("the dump has no blocks", '{"FileType": "mfu"}')
        self.refuses("the dump has no blocks", '{"FileType": "mfu", "blocks": {}}')

    def test_a_proxmark_file_with_a_gap(self):
        record = proxmark("mfu", NTAG213, 4)
        del record["blocks"]["0"]
        self.refuses("block 0 is missing", json.dumps(record))

    def test_a_proxmark_file_with_blocks_of_different_lengths(self):
        record = proxmark("15693", ICODE, 4, {"UID": "E004010203040506"})
        record["blocks"]["7"] = "00"
        self.refuses("block 7 has 1 bytes, not 4", json.dumps(record))

    def test_a_proxmark_file_with_other_blocks(self):
        for key, value in (("x", "00"), ("9" * 5000, "00"), ("0", {"data": "00"})):
            with self.subTest(key[:5]):
                text = json.dumps({"FileType": "15693", "blocks": {key: value}})
                self.refuses(f"unknown format: block {key!r} isn't hexadecimal text under a number", text)


class UnplaceableTags(DumpCase):
    def test_an_identifier_that_nothing_says(self):
        self.refuses("the dump doesn't say the identifier: give --id", ICODE, "--type", "t5")
        self.refuses("the dump doesn't say the identifier: give --id", FILE, "--type", "t4")

    def test_check_bytes_that_do_not_fit(self):
        error = "bytes 3 and 8 aren't the check bytes of an identifier: give --id"
        self.refuses(error, b"\x04" + bytes(15), "--type", "t2")
        self.refuses(error, bytes(52) + NTAG213, "--type", "t2")

    def test_an_identifier_of_a_wrong_length(self):
        self.refuses("an identifier of NFC-A has 4, 7 or 10 bytes, not 8", NTAG213, "--type", "t2", "--id", "00" * 8)
        self.refuses("an identifier of Type 5 has 8 bytes, not 7", ICODE, "--type", "t5", "--id", "00" * 7)

    def test_an_identifier_that_the_bench_refuses(self):
        for ident in ("88020304", "04112288445566"):
            with self.subTest(ident):
                error = f"{ident} is no identifier: its last four bytes begin with 88"
                self.refuses(error, NTAG213, "--type", "t2", "--id", ident)

    def test_an_identifier_that_is_no_hexadecimal(self):
        self.refuses("--id: 'x' is no hexadecimal digit", NTAG213, "--type", "t2", "--id", "0x04")
        self.refuses("--id: an odd number of hexadecimal digits", NTAG213, "--type", "t2", "--id", "041")

    def test_a_type_2_dump_with_too_few_pages(self):
        self.refuses("blocks are missing: the dump has 3, and the tag needs 4", NTAG213[:12], "--type", "t2")
        self.refuses("blocks are missing: the dump has 39, and the tag needs 40", NTAG213[:156], "--type", "t2")

    def test_a_flipper_file_whose_area_was_not_read_whole(self):
        text = flipper("NTAG/Ultralight", "Pages total: 45", "Pages read: 20", *flipper_pages(NTAG213))
        self.refuses("blocks are missing: the dump has 20, and the tag needs 40", text)

    def test_bytes_that_are_no_whole_blocks(self):
        self.refuses("178 bytes aren't whole blocks of 4", NTAG213[:178], "--type", "t2")
        words = ("--type", "t5", "--id", "E004010203040506", "--block-size", "8")
        self.refuses("28 bytes aren't whole blocks of 8", ICODE[:28], *words)

    def test_a_type_2_tag_without_an_area_that_is_too_large(self):
        self.refuses("too large for the bench: 257 blocks, and 256 is the most", bytes(4 * 257), "--type", "t2")

    def test_a_type_5_tag_with_too_many_blocks(self):
        words = ("--type", "t5", "--id", "E004010203040506")
        self.refuses("too large for the bench: 16385 blocks, and 16384 is the most", bytes(65540), *words)

    def test_a_type_5_tag_without_blocks(self):
        fields = flipper_t5(Block_Count="0", Data_Content="")
        self.refuses("blocks are missing: the dump has 0, and the tag needs 1", flipper("SLIX", *fields))

    def test_a_size_of_a_block_that_the_bench_does_not_have(self):
        words = ("--type", "t5", "--id", "E004010203040506", "--block-size")
        for size in ("0", "5", "64"):
            with self.subTest(size):
                self.refuses(f"the bench has blocks of 4, 8, 16 or 32 bytes, not of {size}", ICODE, *words, size)

    def test_a_given_size_of_a_block_that_is_not_that_of_the_dump(self):
        text = flipper("SLIX", *flipper_t5())
        self.refuses("the dump has blocks of 4 bytes, not of 8", text, "--block-size", "8")

    def test_a_line_that_would_be_too_long(self):
        error = "too large for the bench: the line has 4097 bytes, and 4096 is the most"
        words = ("--type", "t5", "--id", "E004010203040506", "--block-size", "32")
        self.refuses(error, (b"\xaa" * 2032).ljust(8192, b"\0"), *words)

    def test_a_size_code_that_is_none(self):
        words = ("--type", "t4", "--id", "02030405", "--code")
        self.refuses("a size code is 0 to 8, not 9", FILE, *words, "9")

    def test_a_type_4_file_that_is_too_large(self):
        words = ("--type", "t4", "--id", "02030405")
        self.refuses(LARGE_FILE, bytes(0x8000), *words)

    def test_a_container_that_the_bench_refuses(self):
        words = ("--type", "t4", "--id", "02030405", "--container")
        for container, error in (
            ("000F20", "a container has 15 to 64 bytes, not 3"),
            ("00" * 65, "a container has 15 to 64 bytes, not 65"),
            ("000F20003B00340406E10300100000", "the container names itself, E103, as the file"),
            ("000F20003B00340406E10480000000", LARGE_FILE),
            ("000F20003B00340406E104000F0000", "the file has 16 bytes, and the container says 15"),
            ("000F2", "--container: an odd number of hexadecimal digits"),
        ):
            with self.subTest(container):
                self.refuses(error, FILE, *words, container)


if __name__ == "__main__":
    unittest.main()
