"""What is told of frames between a reader and tags."""

from __future__ import annotations

import unittest

from tests.telling import ACTIVATE, SELECT_TYPE_4, last_told, told


class PollingFrames(unittest.TestCase):
    """NFC-A devices are found and selected."""

    def test_an_identifier_of_two_levels(self) -> None:
        self.assertEqual(
            told(
                "> 52/7 pass",
                "< 4403 pass",
                "> 9320 pass",
                "< 88046226C8 pass",
                "> 937088046226C8 pass",
                "< 04 pass",
                "> 9520 pass",
                "< 11801D800C pass",
                "> 957011801D800C pass",
                "< 20 pass",
                "> 5000 pass",
            ),
            [
                "ALL_REQ, wakes devices that sleep too",
                "SENS_RES: identifier of 7 bytes, bit-frame anticollision",
                "SDD_REQ of level 1, no bits known",
                "SDD_RES of level 1: cascade tag 88h, identifier part 046226, BCC C8h right",
                "SEL_REQ of level 1: cascade tag 88h, identifier part 046226, BCC C8h right",
                "SEL_RES: identifier not complete",
                "SDD_REQ of level 2, no bits known",
                "SDD_RES of level 2: identifier part 11801D80, BCC 0Ch right",
                "SEL_REQ of level 2: identifier part 11801D80, BCC 0Ch right",
                "SEL_RES: Type 4 tag, 04622611801D80 is selected",
                "SLP_REQ, puts the device to sleep",
            ],
        )

    def test_clashes_by_their_bits(self) -> None:
        self.assertEqual(
            told("> 26/7 pass", "* 04/6 pass", "> 9320 pass", "* - pass", "> 932101/1 pass", "* 00810100/1 pass"),
            [
                "SENS_REQ",
                "SENS_RES, clash behind 6 common bits",
                "SDD_REQ of level 1, no bits known",
                "SDD_RES of level 1, clash at the first bit",
                "SDD_REQ of level 1, 1 bit known",
                "SDD_RES of level 1, clash behind 25 common bits",
            ],
        )

    def test_known_bits_and_the_others_make_a_level(self) -> None:
        self.assertEqual(
            told("> 935301020304/3 pass", "< 8000/5 pass"),
            [
                "SDD_REQ of level 1, 27 bits known",
                "SDD_RES of level 1: the other 13 bits, identifier part 01020304, BCC 04h right",
            ],
        )

    def test_a_check_byte_that_is_wrong(self) -> None:
        text = "identifier part 01020304, BCC 05h wrong, 04h is right"
        self.assertEqual(last_told("> 9320 pass", "< 0102030405 pass"), f"SDD_RES of level 1: {text}")
        self.assertEqual(last_told("> 93700102030405 pass"), f"SEL_REQ of level 1: {text}")

    def test_what_sel_res_tells(self) -> None:
        kinds = {"00": "Type 2 tag", "20": "Type 4 tag", "40": "peer", "60": "Type 4 tag and peer", "08": "Type 2 tag"}
        for kind, name in kinds.items():
            text = last_told("> 93700102030404 pass", f"< {kind} pass")
            self.assertEqual(text, f"SEL_RES: {name}, 01020304 is selected")

    def test_sizes_of_sens_res(self) -> None:
        self.assertIn("identifier of 10 bytes", last_told("> 26/7 pass", "< 8400 pass"))
        self.assertIn("identifier of a reserved size", last_told("> 26/7 pass", "< C400 pass"))
        self.assertIn("no bit-frame anticollision", last_told("> 26/7 pass", "< 000C pass"))

    def test_a_selection_without_its_first_level_names_no_identifier(self) -> None:
        text = last_told("> 95703344556644 pass", "< 00 pass")
        self.assertEqual(text, "SEL_RES: Type 2 tag, the device is selected")

    def test_malformed_requests(self) -> None:
        frames = (
            "26 52 26/6 93 9310 9328 932801 932101 9321 9370 937001020304 9370010203040405 50 500000 5001 9770/7"
        )
        for frame in frames.split():
            self.assertEqual(last_told(f"> {frame} pass"), "?", frame)

    def test_malformed_answers(self) -> None:
        for request, answers in {
            "26/7": ("04", "040000", "0400/3", "-"),
            "9320": ("01020304", "010203040400", "01020304/7", "-"),
            "93700102030404": ("0000", "00/4", "-"),
            "5000": ("00", "0A/4"),
        }.items():
            for answer in answers:
                self.assertEqual(last_told(f"> {request} pass", f"< {answer} pass"), "?", (request, answer))


class Type2Frames(unittest.TestCase):
    """Commands of Type 2 tags."""

    def test_read_and_write(self) -> None:
        self.assertEqual(
            told(
                "> 3003 pass",
                f"< {'00' * 16} pass",
                "> A204030CD101 pass",
                "< 0A/4 pass",
                "> A203E1100600 pass",
                "< 00/4 pass",
            ),
            [
                "READ of block 3",
                "blocks 3 to 6",
                "WRITE of block 4: 030CD101",
                "ACK: written",
                "WRITE of block 3: E1100600",
                "NAK 0h: refused",
            ],
        )

    def test_a_refusal_has_its_code(self) -> None:
        self.assertEqual(last_told("> 30FF pass", "< 05/4 pass"), "NAK 5h: refused")

    def test_answers_that_clash(self) -> None:
        self.assertEqual(last_told("> 3000 pass", "* 00/1 pass"), "answer to READ, clash behind 1 common bit")
        self.assertEqual(last_told("> A20401020304 pass", "* - pass"), "answer to WRITE, clash at the first bit")

    def test_a_read_that_may_pass_the_last_block(self) -> None:
        self.assertEqual(last_told("> 30FC pass", f"< {'00' * 16} pass"), "blocks 252 to 255")
        text = last_told("> 30FD pass", f"< {'00' * 16} pass")
        self.assertEqual(text, "four blocks from 253 on, with block 0 behind the last one")
        text = last_told("> 30FE pass", f"< {'00' * 16} pass")
        self.assertEqual(text, "four blocks from 254 on, with block 0 behind the last one")

    def test_malformed_frames(self) -> None:
        for frame in ("30", "300000", "3000/4", "A204", "A204010203", "A20401020304FF"):
            self.assertEqual(last_told(f"> {frame} pass"), "?", frame)
        for answer in ("0A/4", "00", "00/3", f"{'00' * 15}", f"{'00' * 17}", "-"):
            self.assertEqual(last_told("> 3000 pass", f"< {answer} pass"), "?", answer)
        self.assertEqual(last_told("> A20401020304 pass", f"< {'00' * 16} pass"), "?")


class IsoDepFrames(unittest.TestCase):
    """Activation, blocks and commands of Type 4 tags."""

    def blocks_told(self, *lines: str) -> list[str]:
        return told(*ACTIVATE, *lines)[len(ACTIVATE) :]

    def test_activation(self) -> None:
        self.assertEqual(
            told(*SELECT_TYPE_4, "> E050 pass", "< 067577810280 pass")[-2:],
            ["RATS: FSDI 5, blocks of up to 64 bytes", "ATS: FSCI 5, blocks of up to 64 bytes, 4 bytes behind"],
        )

    def test_each_size_code(self) -> None:
        for code, size in enumerate((16, 24, 32, 40, 48, 64, 96, 128) + 8 * (256,)):
            texts = told(f"> E0{code:X}0 pass", f"< 02{code:02X} pass")
            self.assertEqual(texts[0], f"RATS: FSDI {code}, blocks of up to {size} bytes")
            self.assertEqual(texts[1], f"ATS: FSCI {code}, blocks of up to {size} bytes")

    def test_answers_that_clash(self) -> None:
        self.assertEqual(last_told("> E080 pass", "* 02 pass"), "ATS, clash behind 8 common bits")
        self.assertEqual(self.blocks_told("> A2 pass", "* 02/3 pass")[-1], "block, clash behind 3 common bits")

    def test_a_read_of_the_whole_message(self) -> None:
        self.assertEqual(
            self.blocks_told(
                "> 0200A4040007D2760000850101 pass",
                "< 029000 pass",
                "> 0300A4000C02E103 pass",
                "< 039000 pass",
                "> 0200B000000F pass",
                "< 02000F20003B00340406E104080000009000 pass",
                "> 0300A4000C02E104 pass",
                "< 036A82 pass",
                "> 0200B000020F pass",
                "< 02D1010B5402656E4E464320544553549000 pass",
                "> 0300D60000020000 pass",
                "< 036982 pass",
                "> C2 pass",
                "< C2 pass",
            ),
            [
                "I-block 0: SELECT of the NDEF application D2760000850101",
                "I-block 0: status 9000h, obeyed",
                "I-block 1: SELECT of the container, file E103h",
                "I-block 1: status 9000h, obeyed",
                "I-block 0: READ BINARY of 15 bytes from offset 0",
                "I-block 0: 15 bytes, status 9000h, obeyed",
                "I-block 1: SELECT of file E104h",
                "I-block 1: status 6A82h, not found, or no current file",
                "I-block 0: READ BINARY of 15 bytes from offset 2",
                "I-block 0: 15 bytes, status 9000h, obeyed",
                "I-block 1: UPDATE BINARY of 2 bytes at offset 0: 0000",
                "I-block 1: status 6982h, access isn't free",
                "S(DESELECT)",
                "S(DESELECT): the card sleeps",
            ],
        )

    def test_a_command_and_an_answer_in_pieces(self) -> None:
        self.assertEqual(
            self.blocks_told(
                "> 1200A4040007D276000085 pass",
                "< A2 pass",
                "> 030101 pass",
                "< 1390 pass",
                "> A2 pass",
                "< 0200 pass",
            ),
            [
                "I-block 0, chained: 10 bytes of a command",
                "R(ACK) 0",
                "I-block 1: completes 12 bytes: SELECT of the NDEF application D2760000850101",
                "I-block 1, chained: 1 byte of an answer",
                "R(ACK) 0",
                "I-block 0: completes 2 bytes: status 9000h, obeyed",
            ],
        )

    def test_a_piece_that_did_not_arrive_is_no_part_of_the_command(self) -> None:
        self.assertEqual(
            self.blocks_told("> 1200A4040007D276000085 lose", "> B2 pass", "< A3 pass", "> 0200B0000002 pass"),
            [
                "I-block 0, chained: 10 bytes of a command (nobody heard it)",
                "R(NAK) 0",
                "R(ACK) 1",
                "I-block 0: READ BINARY of 2 bytes from offset 0",
            ],
        )

    def test_more_time(self) -> None:
        self.assertEqual(
            self.blocks_told("> 0200B0000002 pass", "< F205 pass", "> F205 pass")[1:],
            [
                "S(WTX): the card asks for more time, 5 times the waiting time",
                "S(WTX): more time is granted, 5 times the waiting time",
            ],
        )

    def test_each_status_has_its_meaning(self) -> None:
        meanings = {
            "9000": ", obeyed",
            "6700": ", wrong length",
            "6982": ", access isn't free",
            "6A82": ", not found, or no current file",
            "6B00": ", wrong parameters or offset",
            "6D00": ", unknown instruction",
            "6E00": ", unknown class",
            "6F00": "",
        }
        for status, meaning in meanings.items():
            text = self.blocks_told("> 0200B0000002 pass", f"< 02{status} pass")[-1]
            self.assertEqual(text, f"I-block 0: status {status}h{meaning}")

    def test_commands_that_no_tag_knows(self) -> None:
        for command, text in {
            "00": "command of 1 byte, too short",
            "00B000": "command of 3 bytes, too short",
            "90600000": "command 90600000, 4 bytes",
            "00C0000000": "command 00C00000, 5 bytes",
            "00A4040007D276": "command 00A40400, 7 bytes",
            "00A4000C01E1": "command 00A4000C, 6 bytes",
            "00A4020C02E103": "command 00A4020C, 7 bytes",
            "00B00000": "command 00B00000, 4 bytes",
            "00D6000000": "command 00D60000, 5 bytes",
            "00D600000201": "command 00D60000, 6 bytes",
            "00B0010000": "READ BINARY of 256 bytes from offset 256",
            "00A4040002AABB00": "SELECT of application AABB",
            "00A4040001AA": "SELECT of application AA",
            "00A4040001AA0000": "command 00A40400, 8 bytes",
            "00A404000100": "SELECT of application 00",
            "00A4000C": "command 00A4000C, 4 bytes",
            "00A4000C02E10300": "SELECT of the container, file E103h",
            "00D6010201FF": "UPDATE BINARY of 1 byte at offset 258: FF",
            "00D6010202FF": "command 00D60102, 6 bytes",
            "00B0010201": "READ BINARY of 1 byte from offset 258",
        }.items():
            self.assertEqual(self.blocks_told(f"> 02{command} pass")[-1], f"I-block 0: {text}")
        self.assertEqual(self.blocks_told("> 02 pass")[-1], "I-block 0: command of 0 bytes, too short")
        text = self.blocks_told("> 0200B0000002 pass", "< 0290 pass")[-1]
        self.assertEqual(text, "I-block 0: answer of 1 byte, without status")

    def test_malformed_frames(self) -> None:
        for frame in ("E0", "E08000", "E080/7"):
            self.assertEqual(last_told(*SELECT_TYPE_4, f"> {frame} pass"), "?", frame)
        for answer in ("00", "0300", "02", "01", "0200/3", "-"):
            self.assertEqual(last_told(*SELECT_TYPE_4, "> E080 pass", f"< {answer} pass"), "?", answer)
        for block in ("A200", "B3AA", "C200", "F2", "F20101", "0A00", "42", "02/2", "-"):
            self.assertEqual(self.blocks_told(f"> {block} pass")[-1], "?", block)
            self.assertEqual(self.blocks_told("> 0200B0000002 pass", f"< {block} pass")[-1], "?", block)

    def test_blocks_belong_to_an_activated_card(self) -> None:
        self.assertEqual(last_told(*SELECT_TYPE_4, "> 0200B0000002 pass"), "?")
        self.assertEqual(last_told(*ACTIVATE, "! reset", "> 0300B0000002 pass"), "?")
        self.assertEqual(last_told(*ACTIVATE, "> C2 pass", "< C2 pass", "> 0300B0000002 pass"), "?")
        self.assertEqual(last_told(*ACTIVATE, "> C2 pass", "< C2 damage", "> A2 pass"), "R(ACK) 0")


class Type5Frames(unittest.TestCase):
    """Commands of Type 5 tags."""

    def test_inventories(self) -> None:
        self.assertEqual(
            told(
                "> 260100 pass",
                "< 000006050403020104E0 pass",
                "> 26014006050403020104E0 pass",
                "> 26010C3402 pass",
                "* 0000 pass",
            ),
            [
                "INVENTORY of one slot, no mask",
                "present: E004010203040506",
                "INVENTORY of one slot, mask: all of E004010203040506",
                "INVENTORY of one slot, mask of 12 bits: 234h",
                "answer to INVENTORY, clash behind 16 common bits",
            ],
        )

    def test_rounds_of_slots(self) -> None:
        self.assertEqual(
            told(
                "> 060100 pass",
                "* 000006/4 pass",
                "> - lose",
                "> - pass",
                "< 000007050403020104E0 pass",
                "> 06010406 pass",
                "> 06013D00000000000000 pass",
            ),
            [
                "INVENTORY of sixteen slots, no mask",
                "answer to INVENTORY, clash behind 20 common bits",
                "next slot (nobody heard it)",
                "next slot",
                "present: E004010203040507",
                "INVENTORY of sixteen slots, mask of 4 bits: 6h",
                "?",
            ],
        )

    def test_commands_to_one_tag(self) -> None:
        whom = "to E004010203040506"
        for code, rest, answer, command, meaning in (
            ("20", "00", "00E1402001", f"READ SINGLE BLOCK 0, {whom}", "block 0, 4 bytes"),
            ("21", "01030CD101", "00", f"WRITE SINGLE BLOCK 1: 030CD101, {whom}", "done"),
            ("21", "01030CD101", "0112", f"WRITE SINGLE BLOCK 1: 030CD101, {whom}", "error 12h: the block is locked"),
            ("21", "01FF", "010F", f"WRITE SINGLE BLOCK 1: FF, {whom}", "error 0Fh: no reason given"),
            ("22", "05", "00", f"LOCK SINGLE BLOCK 5, {whom}", "done"),
            ("23", "0101", f"00{'00' * 8}", f"READ MULTIPLE BLOCKS 1 to 2, {whom}", "blocks 1 to 2, 8 bytes"),
            ("23", "0500", f"00{'00' * 4}", f"READ MULTIPLE BLOCKS 5 to 5, {whom}", "blocks 5 to 5, 4 bytes"),
            ("23", "013E", f"00{'00' * 252}", f"READ MULTIPLE BLOCKS 1 to 63, {whom}", "blocks 1 to 63, 252 bytes"),
            ("23", "013E", "010F", f"READ MULTIPLE BLOCKS 1 to 63, {whom}", "error 0Fh: no reason given"),
            ("30", "0101", f"00{'00' * 4}", f"READ SINGLE BLOCK 257 by two bytes, {whom}", "block 257, 4 bytes"),
            ("30", "0002", "0110", f"READ SINGLE BLOCK 512 by two bytes, {whom}", "error 10h: no such block"),
            ("31", "0001F4F5", "00", f"WRITE SINGLE BLOCK 256 by two bytes: F4F5, {whom}", "done"),
            ("25", "", "00", f"SELECT, {whom}", "done"),
            ("26", "", "00", f"RESET TO READY, {whom}", "done"),
            ("2B", "", "010F", f"GET SYSTEM INFORMATION, {whom}", "error 0Fh: no reason given"),
            ("2B", "", "000102", f"GET SYSTEM INFORMATION, {whom}", "system information, 2 bytes"),
            ("20", "40", "0110", f"READ SINGLE BLOCK 64, {whom}", "error 10h: no such block"),
            ("20", "40", "0113", f"READ SINGLE BLOCK 64, {whom}", "error 13h"),
            ("02", "", "00", f"STAY QUIET, {whom}", "?"),
        ):
            lines = (f"> 22{code}06050403020104E0{rest} pass", f"< {answer} pass")
            self.assertEqual(told(*lines), [command, meaning])

    def test_whom_the_flags_speak_to(self) -> None:
        self.assertEqual(last_told("> 022003 pass"), "READ SINGLE BLOCK 3, to every tag")
        self.assertEqual(last_told("> 122003 pass"), "READ SINGLE BLOCK 3, to the selected tag")
        self.assertEqual(
            last_told("> 622106050403020104E001030CD101 pass"),
            "WRITE SINGLE BLOCK 1: 030CD101, to E004010203040506, option flag",
        )

    def test_a_tag_that_is_told_to_stay_quiet_has_no_answer_but_an_error(self) -> None:
        self.assertEqual(last_told("> 0202 pass"), "STAY QUIET, to every tag")
        self.assertEqual(last_told("> 0202 pass", "< 010F pass"), "error 0Fh: no reason given")
        self.assertEqual(told("> 0202 pass", "< 00 pass")[1], "?")

    def test_malformed_requests(self) -> None:
        for frame in (
            "26",
            "3220050403020104E000",
            "2601",
            "2602",
            "260141",
            f"260149{'00' * 10}",
            "26010100/1",
            "260100FF",
            "260104F1",
            "06010000",
            "222006",
            "222006050403020104E0",
            "222006050403020104E00000",
            "222106050403020104E001",
            "222306050403020104E001",
            "220206050403020104E000",
            "22A006050403020104E000",
            "02",
            "0220",
            "8220",
        ):
            self.assertEqual(last_told(f"> {frame} pass"), "?", frame)

    def test_malformed_answers(self) -> None:
        read, write, inventory = "222006050403020104E000", "222106050403020104E00001020304", "260100"
        for request, answer in (
            (read, "00"),
            (read, "01"),
            (read, "010F00"),
            (read, "02AABB"),
            (read, "-"),
            (read, "00AA/4"),
            (write, "00AA"),
            (inventory, "00"),
            (inventory, "000006050403020104"),
            (inventory, "000006050403020104E000"),
        ):
            self.assertEqual(last_told(f"> {request} pass", f"< {answer} pass"), "?", (request, answer))

    def test_a_command_to_every_tag_is_no_block_of_iso_dep(self) -> None:
        self.assertEqual(last_told(*ACTIVATE, "> 022003 pass"), "I-block 0: command of 2 bytes, too short")
        self.assertEqual(last_told(*ACTIVATE, "! reset", "> 022003 pass"), "READ SINGLE BLOCK 3, to every tag")


class Type3Frames(unittest.TestCase):
    """A Type 3 tag is found, checked and updated."""

    FOUND = ("> 060012FC0000 pass", "< 120101020304050607080000000000000000 pass")

    def test_a_read_and_an_update(self) -> None:
        content = "D1010154010000000000000000000000"
        self.assertEqual(
            told(
                *self.FOUND,
                "> 12060102030405060708010B000280018002 pass",
                "< 2D070102030405060708000002" + content * 2 + " pass",
                f"> 20080102030405060708010900018003{content} pass",
                "< 0C0901020304050607080000 pass",
            ),
            [
                "SENSF_REQ of system code 12FCh, 1 time slot",
                "SENSF_RES: 0102030405060708",
                "CHECK of blocks 1 to 2, to 0102030405060708",
                "blocks 1 to 2",
                f"UPDATE of block 3: {content}, to 0102030405060708",
                "updated",
            ],
        )

    def test_refusals_and_clashes(self) -> None:
        update = "> 20080102030405060708010900018001" + "00" * 16 + " pass"
        locked = "refused, status FF03h: the block is locked"
        self.assertEqual(last_told(*self.FOUND, update, "< 0C090102030405060708FF03 pass"), locked)
        self.assertEqual(last_told(self.FOUND[0], "* 1201010203/6 pass"), "SENSF_RES, clash behind 38 common bits")

    def test_what_is_no_frame_of_them(self) -> None:
        lengths = ("11060102030405060708010B00018000", "10060102030405060708010B00028000")
        for request in ("070012FC0000", "060012FC", *lengths):
            self.assertEqual(last_told(f"> {request} pass"), "?", request)
        for answer in ("11010102030405060708000000000000", "120201020304050607080000000000000000"):
            self.assertEqual(last_told(self.FOUND[0], f"< {answer} pass"), "?", answer)
