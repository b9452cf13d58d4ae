"""What is told of frames between two peers, and of what they carry."""

from __future__ import annotations

import unittest

from frames.llcp import general_text
from tests.telling import NFCID3, dep_frame, last_told, pdu_told, told


class NfcDepFrames(unittest.TestCase):
    """The link between two peers."""

    def test_a_link_from_its_start_to_its_end(self) -> None:
        general = "46666D01011104019603020001020207FF"
        self.assertEqual(
            told(
                f"> F022D400{NFCID3}00000032{general} pass",
                f"< F012D501{NFCID3}0000000830 pass",
                "> F006D406000000 pass",
                "< F006D507000000 pass",
                "> F004D40641 pass",
                "> F004D40651 pass",
                "> F004D40680 pass",
                "< F004D50780 pass",
                "< F005D507903B pass",
                "> F005D406903B pass",
                "> F003D408 pass",
                "< F003D509 pass",
                "> F003D40A pass",
                "< F003D50B pass",
            ),
            [
                f"ATR_REQ: NFCID3 {NFCID3}, frames of up to 254 bytes, LLCP 1.1, MIU 2175, services 0001h",
                f"ATR_RES: NFCID3 {NFCID3}, frames of up to 254 bytes",
                "DEP_REQ: information, PNI 0: LLCP SYMM",
                "DEP_RES: information, PNI 0: LLCP SYMM",
                "DEP_REQ: ACK, PNI 1",
                "DEP_REQ: NACK, PNI 1",
                "DEP_REQ: ATTENTION",
                "DEP_RES: ATTENTION",
                "DEP_RES: TIMEOUT, 59 times the waiting time",
                "DEP_REQ: TIMEOUT, 59 times the waiting time",
                "DSL_REQ, puts the target to sleep",
                "DSL_RES, the target sleeps",
                "RLS_REQ, lets the target go",
                "RLS_RES, the target is let go",
            ],
        )

    def test_how_long_a_frame_each_end_takes(self) -> None:
        for code, length in enumerate((64, 128, 192, 254)):
            texts = told(f"> F011D400{NFCID3}000000{code}0 pass", f"< F012D501{NFCID3}0000000E{code}0 pass")
            for text in texts:
                self.assertTrue(text.endswith(f"frames of up to {length} bytes"), text)

    def test_the_longest_frames(self) -> None:
        request = "46666D0101137F28" + "00" * 40
        answer = "46666D0101137F27" + "00" * 39
        texts = told(f"> F041D400{NFCID3}00000032{request} pass", f"< F041D501{NFCID3}0000000E32{answer} pass")
        for text in texts:
            self.assertTrue(text.endswith("LLCP 1.3, MIU 128, services 0000h"), text)
        self.assertTrue(last_told(dep_frame("00" * 251)).startswith("DEP_REQ: information, PNI 0: "))

    def test_another_bit_rate_is_asked_for(self) -> None:
        self.assertEqual(told("> F006D404001203 pass", "< F004D50500 pass"), ["PSL_REQ", "PSL_RES"])

    def test_a_payload_in_pieces(self) -> None:
        self.assertEqual(
            told(dep_frame("1120", 0x10), "< F004D50740 pass", dep_frame("02020078", 0x11), dep_frame("050104", 0x02)),
            [
                "DEP_REQ: information, PNI 0, chained: 2 bytes of a payload",
                "DEP_RES: ACK, PNI 0",
                "DEP_REQ: information, PNI 1, chained: 4 bytes of a payload",
                "DEP_REQ: information, PNI 2, completes 9 bytes: LLCP CONNECT from 32 to 4, MIU 248, RW 4",
            ],
        )

    def test_a_frame_that_comes_again_brings_nothing_new(self) -> None:
        lost = dep_frame("1320", 0x11).replace("pass", "lose")
        self.assertEqual(
            told(dep_frame("11", 0x10), lost, dep_frame("20", 0x11), dep_frame("20", 0x11), dep_frame("", 0x02)),
            [
                "DEP_REQ: information, PNI 0, chained: 1 byte of a payload",
                "DEP_REQ: information, PNI 1, chained: 2 bytes of a payload (nobody heard it)",
                "DEP_REQ: information, PNI 1, chained: 1 byte of a payload",
                "DEP_REQ: information, PNI 1, again, chained: 1 byte of a payload",
                "DEP_REQ: information, PNI 2, completes 2 bytes: LLCP CONNECT from 32 to 4",
            ],
        )

    def test_answers_that_clash(self) -> None:
        self.assertEqual(last_told("> F003D40A pass", "* F0 pass"), "answer of a target, clash behind 8 common bits")

    def test_malformed_frames(self) -> None:
        for frame in (
            "F0",
            "F003D4",
            "F003D406",
            "F004D408",
            "F003D509",
            "F003D309",
            "F003D409",
            "F003D402",
            "F004D40800",
            "F004D40604",
            "F004D40681",
            "F005D4064000",
            "F005D4069000",
            "F005D406903C",
            "F004D40690",
            "F006D406900101",
            "F005D4068000",
            "F005D4040012",
            f"F010D400{NFCID3}000000",
            f"F011D400{NFCID3}01000030",
            f"F011D400{NFCID3}00000031",
            f"F014D400{NFCID3}0000003046666D",
            f"F042D400{NFCID3}00000032{'00' * 49}",
            f"F041D400{NFCID3}00000032{'00' * 49}",
            f"F0FFD40600{'00' * 252}",
            "F003D408/3",
        ):
            self.assertEqual(last_told(f"> {frame} pass"), "?", frame)
        for answer in (
            "F003D408",
            "F004D50750",
            "F003D50B00",
            f"F011D501{NFCID3}00000030",
            f"F042D501{NFCID3}0000000832{'00' * 48}",
        ):
            self.assertEqual(last_told("> F003D40A pass", f"< {answer} pass"), "?", answer)


class LlcpPayloads(unittest.TestCase):
    """What goes over a link between peers."""

    def test_each_pdu(self) -> None:
        for payload, text in {
            "0000": "SYMM",
            "1120": "CONNECT from 32 to 4",
            "1120020207FF05010F": "CONNECT from 32 to 4, MIU 2175, RW 15",
            "0520060F75726E3A6E66633A736E3A736E6570020207FF05010F":
                "CONNECT from 32 to 1, SN urn:nfc:sn:snep, MIU 2175, RW 15",
            "8184020207FF05010F": "CC from 4 to 32, MIU 2175, RW 15",
            "818402020078050104": "CC from 4 to 32, MIU 248, RW 4",
            "1160": "DISC from 32 to 4",
            "11200001AA0A00": "CONNECT from 32 to 4",
            "11200600": "CONNECT from 32 to 4, SN -",
            "1120060161": "CONNECT from 32 to 4, SN a",
            "112006022161": "CONNECT from 32 to 4, SN !a",
            "112006022061": "CONNECT from 32 to 4, SN 2061",
            "11200202F807": "CONNECT from 32 to 4, MIU 135",
            "81C400": "DM from 4 to 32, reason 00h",
            "81C402": "DM from 4 to 32, reason 02h",
            "136005": "RR from 32 to 4, N(R) 5",
            "1360F5": "RR from 32 to 4, N(R) 5",
            "13A003": "RNR from 32 to 4, N(R) 3",
            "82041C100000": "FRMR from 4 to 32: S of I with N(S) 1 and N(R) 0, V(S) 0, V(R) 0, V(SA) 0, V(RA) 0",
            "8204CCF30000": "FRMR from 4 to 32: WI of I with N(S) 15 and N(R) 3, V(S) 0, V(R) 0, V(SA) 0, V(RA) 0",
            "82048D001234": "FRMR from 4 to 32: W of RR, V(S) 1, V(R) 2, V(SA) 3, V(RA) 4",
            "82040B000000": "FRMR from 4 to 32: no flag of PTYPE 11, V(S) 0, V(R) 0, V(SA) 0, V(RA) 0",
            "40E0AABB": "UI from 32 to 16, 2 bytes",
            "064109020004": "SNL, SDRES 0 SAP 4",
            "064108100075726E3A6E66633A736E3A736E6570": "SNL, SDREQ 0 urn:nfc:sn:snep",
            "43201201": "I from 32 to 16, N(S) 1, N(R) 2, 1 byte",
            "0080": "AGF: nothing",
            "008000021120000443200001": "AGF: CONNECT from 32 to 4; I from 32 to 16, N(S) 0, N(R) 0, 1 byte",
            "112001011303020003040196070103AA0100060100":
                "CONNECT from 32 to 4, version 1.3, services 0003h, link timeout 1500 ms, options 03h, SN 00",
        }.items():
            with self.subTest(payload=payload):
                self.assertEqual(pdu_told(payload), f"LLCP {text}")

    def test_a_refused_pdu_by_its_fault_and_place(self) -> None:
        for payload, fault in {
            "11": "Short at place 1",
            "1320": "Short at place 2",
            "0040": "Ptype at place 0",
            "0400": "Sap at place 0",
            "1120050200": "Parameter at place 2",
            "008000020080": "Nested at place 2",
            "000000": "Trailing at place 2",
            "008000050000": "Short at place 6",
            "008000": "Short at place 3",
            "11200501": "Parameter at place 2",
            "112005": "Parameter at place 2",
            "06410800": "Parameter at place 2",
            "13600500": "Trailing at place 3",
            "": "Short at place 0",
            "820400": "Short at place 3",
            "8204000000": "Short at place 5",
            "81C4": "Short at place 2",
            "81C40000": "Trailing at place 3",
            "116000": "Trailing at place 2",
            "1120060261": "Parameter at place 2",
            "112001011302": "Parameter at place 5",
            "00800002112000": "Short at place 7",
            "0080000211200001FF": "Short at place 9",
            "0080000211200002FFC0": "Ptype at place 8",
        }.items():
            with self.subTest(payload=payload):
                self.assertEqual(pdu_told(payload), f"LLCP refused, {fault}")

    def test_general_bytes(self) -> None:
        for general, text in {
            "46666D01011303020003": "LLCP 1.3, MIU 128, services 0003h",
            "46666D01011104019603020011020207FF": "LLCP 1.1, MIU 2175, services 0011h",
            "46666D02020001010111020207FF": "LLCP 1.1, MIU 2175, services 0000h",
            "46666D": "3 general bytes, NoVersion",
            "46666E010113": "6 general bytes, NoMagic",
            "46666D010120": "6 general bytes, OtherMajor",
            "46666D0101": "5 general bytes, Malformed",
        }.items():
            self.assertEqual(general_text(bytes.fromhex(general)), text)


class SnepMessages(unittest.TestCase):
    """What goes over a connection with the well-known service 4."""

    def test_requests_and_responses(self) -> None:
        for unit, text in {
            "100200000003D00000": "SNEP 1.0 PUT, 3 bytes: empty record",
            "100200000003D00001": "SNEP 1.0 PUT, 3 bytes",
            "100100000006000000106B31": "SNEP 1.0 GET, 6 bytes",
            "100000000000": "SNEP 1.0 CONTINUE, 0 bytes",
            "107F00000000": "SNEP 1.0 REJECT, 0 bytes",
            "108000000000": "SNEP 1.0 CONTINUE, 0 bytes",
            "108100000000": "SNEP 1.0 SUCCESS, 0 bytes",
            "10C000000000": "SNEP 1.0 NOT FOUND, 0 bytes",
            "10C100000000": "SNEP 1.0 EXCESS DATA, 0 bytes",
            "10C200000000": "SNEP 1.0 BAD REQUEST, 0 bytes",
            "10E000000000": "SNEP 1.0 NOT IMPLEMENTED, 0 bytes",
            "10E100000000": "SNEP 1.0 UNSUPPORTED VERSION, 0 bytes",
            "10FF00000000": "SNEP 1.0 REJECT, 0 bytes",
            "110300000000": "SNEP 1.1 request 03h, 0 bytes",
            "109900000000": "SNEP 1.0 response 99h, 0 bytes",
            "100200000003D0000011": "SNEP 1.0 PUT, 3 bytes, 1 byte too many",
            "1002000000": "SNEP, 5 bytes without a whole header",
        }.items():
            with self.subTest(unit=unit):
                self.assertEqual(pdu_told(f"132000{unit}"), f"LLCP I from 32 to 4, N(S) 0, N(R) 0, {text}")

    def test_a_message_in_several_units(self) -> None:
        texts = told(
            dep_frame("132000100200000005D101", 0),
            dep_frame("830401108000000000", 0, up=True),
            dep_frame("1320110102", 1),
            dep_frame("132021AA", 2),
            dep_frame("830413108100000000", 2, up=True),
            dep_frame("132032100200000000", 3),
        )
        self.assertEqual(
            [text.partition(", N(R) ")[2] for text in texts],
            [
                "0, SNEP 1.0 PUT, 5 bytes, 2 of them here",
                "1, SNEP 1.0 CONTINUE, 0 bytes",
                "1, SNEP, 2 bytes more, 1 byte to come",
                "1, SNEP, 1 byte more, the message is whole",
                "3, SNEP 1.0 SUCCESS, 0 bytes",
                "2, SNEP 1.0 PUT, 0 bytes",
            ],
        )

    def test_more_than_a_message_has(self) -> None:
        texts = told(dep_frame("132000100200000003D1", 0), dep_frame("132010AABBCC", 1), dep_frame("132020AA", 2))
        self.assertTrue(texts[1].endswith("SNEP, 3 bytes more, the message is whole, 1 byte too many"), texts[1])
        self.assertTrue(texts[2].endswith("SNEP, 1 byte without a whole header"), texts[2])

    def test_a_client_asks_a_server_to_continue(self) -> None:
        texts = told(
            dep_frame("1320001001000000040000FFFF", 0),
            dep_frame("830401108100000002AA", 0, up=True),
            dep_frame("132011100000000000", 1),
            dep_frame("830412BB", 1, up=True),
        )
        self.assertTrue(texts[-1].endswith("SNEP, 1 byte more, the message is whole"), texts[-1])

    def test_a_response_other_than_continue_ends_a_message(self) -> None:
        texts = told(
            dep_frame("132000100200000005D101", 0),
            dep_frame("83040110FF00000000", 0, up=True),
            dep_frame("132011100200000000", 1),
        )
        self.assertTrue(texts[-1].endswith("SNEP 1.0 PUT, 0 bytes"))

    def test_a_new_connection_begins_anew(self) -> None:
        texts = told(dep_frame("132000100200000005D101", 0), dep_frame("1120", 1), dep_frame("132000100200000000", 2))
        self.assertTrue(texts[-1].endswith("SNEP 1.0 PUT, 0 bytes"))
