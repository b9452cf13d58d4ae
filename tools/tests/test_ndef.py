"""What tools/ndef tells of messages, and makes of words."""

from __future__ import annotations

import random
import unittest

from annotate import annotated_line
from frames.session import Session
from ndef.records import WELL_KNOWN, Record
from ndef.telling import message_lines, message_text
from ndef.uri import PREFIXES, make_uri, read_uri
from tests.calling import call

EXAMPLE = "D1010D55046578616D706C652E636F6D2F"
ENDS, BEGINS, CHUNK, SHORT, HAS_ID = 0x40, 0x80, 0x20, 0x10, 0x08


def raw(flags: int, kind: bytes = b"", payload: bytes = b"", ident: bytes | None = None) -> bytes:
    """A record with just these flags."""
    lengths = bytes([flags, len(kind)]) + len(payload).to_bytes(1 if flags & SHORT else 4, "big")
    return lengths + (b"" if ident is None else bytes([len(ident)])) + kind + (ident or b"") + payload


def lines(digits: str) -> list[str]:
    return message_lines(bytes.fromhex(digits))


def well_known(kind: bytes, payload: bytes) -> str:
    """What is told of a message of one such record."""
    return message_text(Record(WELL_KNOWN, kind, None, payload).encoded)


class Records(unittest.TestCase):
    """Messages, and a line for each of their records."""

    def test_records_by_their_types(self) -> None:
        for digits, told in {
            EXAMPLE: "URI https://example.com/",
            "C1010000000D55046578616D706C652E636F6D2F": "URI https://example.com/",
            "D00000": "empty record",
            "D8000000": "empty record, identifier -h",
            "D101085402656E48656C6C6F": "Text (en) Hello",
            "D20A05746578742F706C61696E48656C6C6F": "MIME text/plain, 5 bytes of text: Hello",
            "D20A03746578742F706C61696E610A62": "MIME text/plain, 3 bytes of text: a\\nb",
            "D20A02746578742F706C61696EFFFE": "MIME text/plain, 2 bytes: FFFE",
            "D20903696D6167652F706E67010203": "MIME image/png, 3 bytes: 010203",
            "D40E0161636D652E636F6D3A7468696E6701": "external record acme.com:thing, 1 byte: 01",
            "D30301687474AA": "record of type htt, 1 byte: AA",
            "D50002AABB": "record of unknown type, 2 bytes: AABB",
            "D701010A0B": "record of reserved type name format 7, 1 byte: 0B",
            "D10201487300": "well-known record Hs, 1 byte: 00",
        }.items():
            with self.subTest(digits=digits):
                self.assertEqual(lines(digits), [told])

    def test_uri_records(self) -> None:
        self.assertEqual(well_known(b"U", b"\x23sn:x"), "URI urn:nfc:sn:x")
        self.assertEqual(well_known(b"U", b"\x00"), "URI ")
        self.assertEqual(well_known(b"U", b"\x05+49"), "URI tel:+49")
        self.assertEqual(well_known(b"U", "\x04ä/\n".encode()), "URI https://ä/\\n")
        for payload, why in {
            b"": "0 bytes (the byte of the prefix is missing)",
            b"\x24a": "2 bytes: 2461 (prefix code 24h is reserved)",
            b"\x04\xff": "2 bytes: 04FF (it is no UTF-8)",
        }.items():
            self.assertEqual(well_known(b"U", payload), f"well-known record U, {why}")

    def test_every_prefix_goes_there_and_back(self) -> None:
        for code, prefix in enumerate(PREFIXES):
            with self.subTest(prefix=prefix):
                self.assertEqual(read_uri(bytes([code]) + b"x"), prefix + "x")
                self.assertEqual(make_uri(prefix + "x"), bytes([code]) + b"x")

    def test_text_records(self) -> None:
        for payload, told in {
            b"\x02deGr\xc3\xbc\xc3\x9fe": "Text (de) Grüße",
            b"\x05en-US": "Text (en-US) ",
            b"\x00x": "Text (no language) x",
            b"\x82en\xfe\xff\x00H\x00i": "Text (en, UTF-16) Hi",
            b"\x82en\xff\xfeH\x00i\x00": "Text (en, UTF-16) Hi",
            b"\x82en\x00H\x00i": "Text (en, UTF-16) Hi",
            b"": "well-known record T, 0 bytes (the status byte is missing)",
            b"\x42en": "well-known record T, 3 bytes: 42656E (the reserved bit of its status byte is set)",
            b"\x03en": "well-known record T, 3 bytes: 03656E (it says 3 bytes of language, and 2 are there)",
            b"\x01\xff": "well-known record T, 2 bytes: 01FF (its language is no ASCII)",
            b"\x00\xff": "well-known record T, 2 bytes: 00FF (it is no UTF-8)",
            b"\x80\x00H\x00": "well-known record T, 4 bytes: 80004800 (it is no UTF-16)",
        }.items():
            with self.subTest(payload=payload):
                self.assertEqual(well_known(b"T", payload), told)

    def test_a_smart_poster_tells_its_records(self) -> None:
        parts = (
            raw(BEGINS | SHORT | 1, b"U", b"\x04example.com/"),
            raw(SHORT | 1, b"T", b"\x02enHello"),
            raw(SHORT | 1, b"act", b"\x00"),
            raw(SHORT | 1, b"s", b"\x00\x00\x04\xd2"),
            raw(SHORT | 1, b"t", b"text/html"),
            raw(SHORT | 1, b"act", b"\x09"),
            raw(ENDS | SHORT | 2, b"image/png", b"\x01"),
        )
        told = (
            "URI https://example.com/; Text (en) Hello; action: do it now; size 1234 bytes; type text/html; "
            "well-known record act, 1 byte: 09; MIME image/png, 1 byte: 01"
        )
        self.assertEqual(well_known(b"Sp", b"".join(parts)), f"Smart Poster: {told}")
        why = "well-known record Sp, 1 byte: 01 (record 1 does not say that the message begins with it)"
        self.assertEqual(well_known(b"Sp", b"\x01"), why)

    def test_smart_posters_within_each_other_end(self) -> None:
        message = Record(WELL_KNOWN, b"U", None, b"\x01x").encoded
        for _ in range(3000):
            message = Record(WELL_KNOWN, b"Sp", None, message).encoded
        self.assertIn("too many Smart Posters within each other", message_lines(message)[0])

    def test_chunks_are_put_together(self) -> None:
        message = (
            raw(BEGINS | CHUNK | SHORT | HAS_ID | 1, b"U", b"\x04exam", b"me")
            + raw(CHUNK | SHORT | 6, b"", b"ple.")
            + raw(6, b"", b"com")
            + raw(ENDS | SHORT)
        )
        told = ["URI https://example.com, identifier me, in 3 chunks", "empty record"]
        self.assertEqual(message_lines(message), told)

    def test_what_is_no_message_is_told_why(self) -> None:
        for message, why in {
            b"": "it has no record",
            b"\x01\x02": "record 1 does not say that the message begins with it",
            b"\xd1": "record 1 is cut off before the length of its type",
            b"\xd1\x01": "record 1 is cut off before the length of its payload",
            b"\xc1\x01\x00\x00": "record 1 is cut off before the length of its payload",
            b"\xd9\x01\x00": "record 1 is cut off before the length of its identifier",
            b"\xd1\x02\x00T": "record 1 says 2 bytes of type, and 1 are there",
            b"\xd9\x00\x00\x01": "record 1 says 1 byte of identifier, and 0 are there",
            b"\xd1\x01\x05U\x01": "record 1 says 5 bytes of payload, and 1 are there",
            b"\xc1\x01\xff\xff\xff\xffU": "record 1 says 4294967295 bytes of payload, and 0 are there",
            b"\xd0\x00\x00\x00": "record 1 says that it is the last, with 1 byte behind it",
            b"\x90\x00\x00": "record 1 stands last, and does not say so",
            b"\x90\x00\x00\xd0\x00\x00": "record 2 says that the message begins with it",
            b"\xd0\x00\x01\x00": "record 1 is an empty one, and isn't empty",
            b"\xd5\x01\x00U": "record 1 is of unknown type, and has a type",
            b"\xd6\x00\x00": "record 1 is a chunk, and none has to come",
            b"\xf1\x01\x00U": "the last chunk is missing",
            b"\xb1\x01\x00U\x51\x01\x00T": "record 2 is no chunk, and one has to come",
            b"\xb1\x01\x00U\x56\x01\x00T": "record 2 is a chunk, and has a type or an identifier of its own",
        }.items():
            with self.subTest(message=message):
                self.assertEqual(message_text(message), f"no NDEF message: {why}")

    def test_a_long_line_is_cut_off(self) -> None:
        told = well_known(b"U", b"\x00" + b"x" * 500)
        self.assertEqual(told, "URI " + "x" * 236 + "..")

    def test_any_bytes_are_told(self) -> None:
        chance = random.Random(52)
        for _ in range(20000):
            kind = chance.choice((b"\x01U", b"\x01T", b"\x02Sp", b"\x00"))
            begin = bytes([chance.choice((0xD1, 0xD9, 0xC1, 0xB1, 0xD2, chance.randrange(256)))]) + kind[:1]
            message = begin + bytes([chance.randrange(20)]) + kind[1:] + chance.randbytes(chance.randrange(24))
            self.assertTrue(message_text(message).isprintable())


class Word(unittest.TestCase):
    """The word `ndef`."""

    def test_a_message_is_told_and_made(self) -> None:
        for words, told in {
            (EXAMPLE,): "URI https://example.com/",
            (EXAMPLE[:6].lower(), EXAMPLE[6:]): "URI https://example.com/",
            ("uri", "https://example.com/"): EXAMPLE,
            ("uri", "geo:1,2"): "D101085500" + b"geo:1,2".hex().upper(),
            ("text", "en", "Hello"): "D101085402656E48656C6C6F",
            ("text", "de", "Grüße", "an", "alle"): "D101125402" + "deGrüße an alle".encode().hex().upper(),
            ("mime", "text/plain", "48656C6C6F"): "D20A05746578742F706C61696E48656C6C6F",
            ("mime", "a/b", "-"): "D20300612F62",
        }.items():
            with self.subTest(words=words):
                self.assertEqual(call("ndef", *words).text, told + "\n")

    def test_what_was_made_is_told_again(self) -> None:
        long = "https://example.com/" + "x" * 400
        made = call("ndef", "uri", long).text.strip()
        self.assertEqual(made[:2], "C1")
        self.assertEqual(call("ndef", made).text, f"URI {long}\n")

    def test_bad_input_is_one_sentence_and_status_2(self) -> None:
        for words, why in {
            ("xyz",): "HEX: 'x' is no hexadecimal digit",
            ("D10",): "HEX: an odd number of hexadecimal digits",
            ("-",): "this is no NDEF message: it has no record (0 bytes)",
            ("D1",): "this is no NDEF message: record 1 is cut off before the length of its type (1 byte: D1)",
            ("uri",): "behind uri stands one URI",
            ("uri", "a", "b"): "behind uri stands one URI",
            ("uri", "\udcff"): "the words are no UTF-8",
            ("text", "en"): "behind text stand a language, as en, and the text",
            ("text", "", "x"): "'' is no code of a language: it has 1 to 63 characters of ASCII",
            ("mime", "plain", "00"): "'plain' is no MIME type",
            ("mime", "a/b", "0"): "HEX: an odd number of hexadecimal digits",
        }.items():
            with self.subTest(words=words):
                called = call("ndef", *words)
                self.assertEqual((called.status, called.output), (2, b""))
                self.assertEqual(called.error, f"nfc ndef: {why}\n")


class Annotations(unittest.TestCase):
    """What stands behind a report's lines with messages."""

    def test_answers_with_messages(self) -> None:
        for line, told in {
            f"7 message {EXAMPLE} writable": "URI https://example.com/",
            "7 message - readonly": "no bytes",
            "7 message 0102 writable": "no NDEF message: record 1 does not say that the message begins with it",
            f"7 inbox 2 1:{EXAMPLE} 2.33:D00000": "link 1: URI https://example.com/ | link 2, SAP 33: empty record",
            "7 inbox 1 0:-": "link 0: no bytes",
        }.items():
            with self.subTest(line=line):
                self.assertEqual(annotated_line(Session(), line).removeprefix(line).strip(), told)

    def test_answers_without_messages(self) -> None:
        for line in ("7 inbox 0", "7 ok", "7 value D00000", "7 message D0000 writable", "7 message D00000"):
            with self.subTest(line=line):
                self.assertEqual(annotated_line(Session(), line), line)


if __name__ == "__main__":
    unittest.main()
