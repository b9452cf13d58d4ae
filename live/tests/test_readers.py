"""Each reader over a fake of its library, which has the calls of that library as they are remembered: neither it nor its documentation was at hand."""

from __future__ import annotations

import sys
import types
import unittest
from unittest import mock

import readers.nfcpy
import readers.pcsc
import readers.proxmark
from readers import NoReader, NoTag
from tests.tags import Type4Tag
from zevlodek import Type2Tag, drive, read, write

MEMORY = (bytes(12) + bytes.fromhex("E11006000303D00000FE")).ljust(64, b"\0")


class FakePcsc:
    """smartcard.System and smartcard.Exceptions, with a Type 2 tag on the reader."""

    class Gone(Exception):
        pass

    def __init__(self, tag: Type2Tag):
        self.tag, self.sent, self.is_there = tag, [], True
        system, faults = types.ModuleType("smartcard.System"), types.ModuleType("smartcard.Exceptions")
        system.readers = lambda: [self]
        faults.CardConnectionException = faults.NoCardException = self.Gone
        self.modules = {"smartcard": types.ModuleType("smartcard"), "smartcard.System": system, "smartcard.Exceptions": faults}

    def __str__(self) -> str:
        return "Fake Reader 00"

    def createConnection(self):
        return self

    def connect(self) -> None:
        if not self.is_there:
            raise self.Gone()

    def getATR(self) -> list[int]:
        return list(bytes.fromhex("3B8F8001804F0CA000000306030003000000006D"[:38]))

    def disconnect(self) -> None:
        self.is_there = False

    def transmit(self, apdu: list[int]):
        if not self.is_there:
            raise self.Gone()
        self.sent.append(bytes(apdu).hex().upper())
        if apdu[1] == 0xCA:
            return [1, 2, 3, 4], 0x90, 0x00
        command = [0x30, apdu[3]] if apdu[1] == 0xB0 else [0xA2, apdu[3], *apdu[5:]]
        answer, bits = self.tag.obey(bytes(command))
        if bits:
            return [], *((0x90, 0x00) if answer == b"\x0a" else (0x63, 0x00))
        return list(answer), 0x90, 0x00


class Pcsc(unittest.TestCase):
    def reader(self, fake: FakePcsc):
        with mock.patch.dict(sys.modules, fake.modules):
            return readers.pcsc.Reader("Fake")

    def test_a_type_2_tag_is_written_and_read(self):
        fake = FakePcsc(Type2Tag(MEMORY))
        reader = self.reader(fake)
        self.assertEqual(reader.find(), (2, b"\1\2\3\4"))
        drive(write(2, b"", b"\xd1\1\1T"), reader.transceive)
        self.assertEqual(drive(read(2), reader.transceive).message, b"\xd1\1\1T")
        self.assertIn("FFD60004040300D000", fake.sent)

    def test_a_refusal_and_a_tag_that_goes_away(self):
        fake = FakePcsc(Type2Tag(MEMORY, (4,)))
        reader = self.reader(fake)
        reader.find()
        self.assertEqual(reader.transceive(bytes.fromhex("A20403000000")), (b"\0", 4))
        fake.is_there = False
        self.assertIsNone(reader.transceive(b"\x30\x00"))
        with self.assertRaises(NoTag):
            reader.find()

    def test_no_such_reader(self):
        fake = FakePcsc(Type2Tag(MEMORY))
        with mock.patch.dict(sys.modules, fake.modules), self.assertRaises(NoReader):
            readers.pcsc.Reader("Other")


class FakeNfcpy:
    """nfc, nfc.clf, nfc.dep and nfc.tag, with a tag on the reader: a Type 2 tag, or one of Type 4 behind the chip's ISO-DEP."""

    class Error(Exception):
        pass

    def __init__(self, tag, sel_res: int):
        self.tag, self.is_there, self.is_open = tag, True, True
        nfc, clf, dep, tags = (types.ModuleType(name) for name in ("nfc", "nfc.clf", "nfc.dep", "nfc.tag"))
        nfc.clf, nfc.dep, nfc.tag = clf, dep, tags
        dep.Target = lambda device: self
        nfc.ContactlessFrontend = self.opened
        clf.CommunicationError = tags.TagCommandError = self.Error
        clf.RemoteTarget = lambda name: name
        tags.activate = lambda device, target: self
        self.target = types.SimpleNamespace(sel_res=bytes([sel_res]), sdd_res=b"\1\2\3\4")
        self.modules = {"nfc": nfc, "nfc.clf": clf, "nfc.dep": dep, "nfc.tag": tags}

    def opened(self, path: str):
        if path != "usb":
            raise OSError(19, "no such device")
        return self

    def sense(self, *targets, iterations: int, interval: float):
        return self.target if self.is_there else None

    def exchange(self, command: bytearray, seconds: float) -> bytearray:
        answer = self.tag.obey(bytes(command)) if self.is_there else None
        if answer is None:
            raise self.Error()
        return bytearray(answer[0])

    def transceive(self, command: bytearray) -> bytearray:
        return self.exchange(command, 0)

    def close(self) -> None:
        self.is_open = False


class Nfcpy(unittest.TestCase):
    def reader(self, fake: FakeNfcpy, path: str = "usb"):
        with mock.patch.dict(sys.modules, fake.modules):
            return readers.nfcpy.Reader(path)

    def test_a_type_2_tag_is_written_and_read(self):
        fake = FakeNfcpy(Type2Tag(MEMORY), 0x00)
        reader = self.reader(fake)
        self.assertEqual(reader.find(), (2, b"\1\2\3\4"))
        drive(write(2, b"", b"\xd1\1\1T"), reader.transceive)
        self.assertEqual(drive(read(2), reader.transceive).message, b"\xd1\1\1T")
        reader.close()
        self.assertFalse(fake.is_open)

    def test_a_type_4_tag_is_written_and_read(self):
        reader = self.reader(FakeNfcpy(Type4Tag(b"\xd0\0\0", 600), 0x20))
        self.assertEqual(reader.find()[0], 4)
        drive(write(4, b"", bytes(500)), reader.transceive)
        self.assertEqual(drive(read(4), reader.transceive).message, bytes(500))

    def test_a_far_end(self):
        """The first second brings no initiator; a link that is over gives no payload."""
        fake = FakeNfcpy(None, 0x00)
        reader = self.reader(fake)
        said, handed = [None, b"Ffm\1\1\x13"], []
        payloads = [bytearray(b"\x11\x20"), bytearray(b"\0\0"), None]
        fake.activate = lambda timeout, gbt: handed.append(gbt) or said.pop(0)
        fake.exchange = lambda reply, seconds: handed.append(reply) or payloads.pop(0)
        self.assertEqual(reader.listen(b"Ffm"), b"Ffm\1\1\x13")
        self.assertEqual([reader.hand(reply) for reply in (None, b"\x81\x84", b"\0\0")], [b"\x11\x20", b"\0\0", None])
        self.assertEqual(handed, [b"Ffm", b"Ffm", None, b"\x81\x84", b"\0\0"])

        def gone(reply, seconds):
            raise fake.Error()

        fake.exchange = gone
        self.assertIsNone(reader.hand(None))

    def test_a_tag_that_goes_away(self):
        fake = FakeNfcpy(Type2Tag(MEMORY), 0x00)
        reader = self.reader(fake)
        reader.find()
        fake.is_there = False
        self.assertIsNone(reader.transceive(b"\x30\x00"))
        with self.assertRaises(NoTag):
            reader.find()

    def test_no_such_reader(self):
        with self.assertRaises(NoReader):
            self.reader(FakeNfcpy(Type2Tag(MEMORY), 0x00), "tty")


class Proxmark(unittest.TestCase):
    def test_answers_are_lines_of_bytes(self):
        rows = (
            (["[+] 00 01 02 AA BB "], bytes.fromhex("000102AABB")),
            (["[=] received 1 bytes", "[+] 0A "], b"\x0a"),
            (["[!!] no answer"], None),
        )
        for lines, answer in rows:
            with self.subTest(lines):
                self.assertEqual(readers.proxmark.bytes_of(lines), answer)

    def test_commands_and_answers(self):
        sent = []

        def run(words, **how):
            sent.append(words[-1])
            text = "[+] 04 03 02 01 AA BB " if "3004" in words[-1] else "[+] 0A " if "A2" in words[-1] else "[+]  UID: 01 02 03 04 "
            return types.SimpleNamespace(stdout=text)

        with mock.patch("shutil.which", return_value="/bin/pm3"), mock.patch("subprocess.run", run):
            reader = readers.proxmark.Reader()
            self.assertEqual(reader.find(), (2, b"\1\2\3\4"))
            self.assertEqual(reader.transceive(b"\x30\x04"), (b"\4\3\2\1", 0))
            self.assertEqual(reader.transceive(b"\xa2\x04\0\0\0\0"), (b"\x0a", 4))
        self.assertEqual(sent[1:], ["hf 14a raw -k -c 3004", "hf 14a raw -k -c A20400000000"])


if __name__ == "__main__":
    unittest.main()
