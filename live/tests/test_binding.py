"""Each function of the binding, with its result and its faults."""

from __future__ import annotations

import random
import threading
import unittest

import zevlodek
from tests.tags import Type4Tag, Type5Tag
from zevlodek import Fault, Found, Gone, Ground, Type2Tag, drive, dumped, file_of, ground_of, read, survey, write

IDENT = bytes.fromhex("E004010203040506")


def type2(area: str, container: str = "E1100600", size: int = 64) -> Type2Tag:
    return Type2Tag(bytes(12) + bytes.fromhex(container + area).ljust(size - 12, b"\0"))


def type5(area: str, container: str = "E1400601") -> Type5Tag:
    return Type5Tag(IDENT, bytes.fromhex(container + area).ljust(52, b"\0"))


class Results(unittest.TestCase):
    def test_a_type_2_tag(self):
        tag = type2("0303D00000FE")
        self.assertEqual(drive(survey(2), tag.obey), Ground(3, 46, True))
        drive(write(2, b"", b"\xd1\x01\x01T\x00"), tag.obey)
        self.assertEqual(drive(read(2), tag.obey), Found(b"\xd1\x01\x01T\x00", True))

    def test_a_type_5_tag(self):
        tag = type5("0303D00000FE")
        drive(write(5, IDENT, bytes(range(30))), tag.obey)
        self.assertEqual(drive(read(5, IDENT), tag.obey), Found(bytes(range(30)), True))

    def test_a_type_4_tag_with_a_long_message(self):
        tag = Type4Tag(b"\xd0\0\0")
        self.assertEqual(drive(survey(4), tag.obey), Ground(3, 0x7FFD, True))
        message = random.Random(1).randbytes(20000)
        drive(write(4, b"", message), tag.obey)
        self.assertEqual(drive(read(4), tag.obey), Found(message, True))

    def test_two_threads_with_a_job_each(self):
        found = {}

        def job(name: int) -> None:
            tag = type5("0303D00000FE")
            for count in range(20):
                drive(write(5, IDENT, bytes([name] * count)), tag.obey)
                found[name, count] = drive(read(5, IDENT), tag.obey).message

        threads = [threading.Thread(target=job, args=(name,)) for name in (1, 2)]
        for thread in threads:
            thread.start()
        for thread in threads:
            thread.join()
        self.assertEqual(found, {(name, count): bytes([name] * count) for name in (1, 2) for count in range(20)})


class Faults(unittest.TestCase):
    ROWS = (
        (type2("FE", "00000000"), 2, -101),
        (type2("FE", "E1200600"), 2, -102),
        (type2("FE", "E11006F0"), 2, -103),
        (type2("FE", "E1107F00"), 2, -104),
        (type2("FE", "E1100000"), 2, -105),
        (type2("FE"), 2, -106),
        (type2("0330"), 2, -107),
        (type5("FE"), 5, -106),
    )

    def test_what_a_reading_tells(self):
        for tag, kind, number in self.ROWS:
            with self.subTest(number), self.assertRaises(Fault) as caught:
                drive(read(kind, IDENT), tag.obey)
            self.assertEqual(caught.exception.number, number)

    def test_what_a_writing_tells(self):
        locked = type5("0303D00000FE")
        locked.locked = (2,)
        rows = (
            (type2("0303D00000FE", "E110060F"), 2, b"x", -112, 0, 0),
            (type2("0303D00000FE"), 2, bytes(47), -113, 0, 46),
            (locked, 5, bytes(20), -108, 0x12, 0),
        )
        for tag, kind, message, number, code, capacity in rows:
            with self.subTest(number), self.assertRaises(Fault) as caught:
                drive(write(kind, IDENT, message), tag.obey)
            told = caught.exception
            self.assertEqual((told.number, told.code, told.capacity), (number, code, capacity))

    def test_an_answer_that_no_tag_gives(self):
        for answer in ((b"", 0), (b"\x05", 4), (bytes(15), 0), (bytes(288), 3)):
            with self.subTest(answer), self.assertRaises(Fault):
                drive(write(2, b"", b"x"), lambda command: answer)

    def test_no_answer(self):
        sent = []
        with self.assertRaises(Gone):
            drive(read(2), sent.append, tries=6)
        self.assertEqual(sent, [b"\x30\x00"] * 6)

    def test_a_kind_that_is_none(self):
        with self.assertRaises(Fault) as caught:
            drive(read(3), lambda command: None)
        self.assertEqual(caught.exception.number, -2)

    def test_a_turn_that_has_no_room_in_a_log(self):
        for answer in ((bytes(289), 0), (b"", 8)):
            with self.subTest(answer), self.assertRaises(ValueError):
                zevlodek.entry(b"\x30\x00", answer)


class ProvedTags(unittest.TestCase):
    """Both sides are the library: the tags of Types 4 and 5 by the proved tables."""

    CONTAINER = bytes.fromhex("000F20003B00340406E10400C80000")

    def test_type_4(self):
        tag = zevlodek.Type4Tag(self.CONTAINER, bytes.fromhex("0003D00000").ljust(200, b"\0"))
        self.assertEqual(drive(survey(4), tag.obey), Ground(3, 198, True))
        drive(write(4, b"", bytes(range(150))), tag.obey)
        self.assertEqual(drive(read(4), tag.obey), Found(bytes(range(150)), True))
        self.assertEqual(tag.memory[:17], self.CONTAINER + b"\0\x96")

    def test_type_5(self):
        for block in (4, 8, 16, 32):
            tag = zevlodek.Type5Tag(IDENT, bytes.fromhex("E140100103" + "03D00000FE").ljust(160, b"\0"), block)
            drive(write(5, IDENT, bytes(range(60))), tag.obey)
            self.assertEqual(drive(read(5, IDENT), tag.obey), Found(bytes(range(60)), True))

    def test_a_locked_block(self):
        tag = zevlodek.Type5Tag(IDENT, bytes.fromhex("E14006010303D00000FE").ljust(52, b"\0"), 4, (3,))
        with self.assertRaises(Fault) as caught:
            drive(write(5, IDENT, bytes(range(1, 31))), tag.obey)
        self.assertEqual((caught.exception.number, caught.exception.code), (-108, 0x12))

    def test_a_tag_that_stays_quiet(self):
        """It hears what is for it, and no command to every tag."""
        tag = zevlodek.Type5Tag(IDENT, bytes(52))
        self.assertEqual(tag.obey(b"\x02\x20\x00"), (bytes(5), 0))
        self.assertIsNone(tag.obey(b"\x22\x02" + IDENT[::-1]))
        self.assertIsNone(tag.obey(b"\x02\x20\x00"))
        self.assertEqual(tag.obey(b"\x22\x20" + IDENT[::-1] + b"\x00"), (bytes(5), 0))

    def test_what_is_no_tag(self):
        for tag in (zevlodek.Type4Tag(self.CONTAINER, b""), zevlodek.Type5Tag(IDENT, bytes(20), 8), Type2Tag(bytes(12))):
            with self.subTest(type(tag)), self.assertRaises(Fault) as caught:
                tag.obey(b"\0")
            self.assertEqual(caught.exception.number, zevlodek.BAD_ARGUMENT)


class Dumps(unittest.TestCase):
    MEMORY = bytes(12) + bytes.fromhex("E11006000303D00000FE").ljust(52, b"\0")

    def test_messages(self):
        self.assertEqual(dumped(2, self.MEMORY), Found(b"\xd0\0\0", True))
        self.assertEqual(ground_of(2, self.MEMORY), Ground(3, 46, True))
        memory = bytes.fromhex("E14006010303D00000FE").ljust(52, b"\0")
        self.assertEqual(dumped(5, memory), Found(b"\xd0\0\0", True))
        self.assertEqual(ground_of(5, memory), Ground(3, 46, True))

    def test_a_container(self):
        named = file_of(ProvedTags.CONTAINER)
        self.assertEqual((named.id, named.size, named.mle, named.mlc, named.writable), (0xE104, 200, 0x3B, 0x34, 1))

    def test_faults(self):
        rows = ((lambda: dumped(2, bytes(64)), -101), (lambda: dumped(2, self.MEMORY[:15]), -5), (lambda: ground_of(5, bytes(8)), -101), (lambda: file_of(b""), -5))
        for call, number in rows:
            with self.subTest(number), self.assertRaises(Fault) as caught:
                call()
            self.assertEqual(caught.exception.number, number)


class BrokenOff(unittest.TestCase):
    def test_each_write_leaves_one_of_three(self):
        """The tag is gone at each command, which it obeyed or didn't."""
        old, new = b"\xd0\0\0", bytes(range(40))
        met = set()
        for cut in range(24):
            for obeys in (False, True):
                tag = type2("0303D00000FE")
                commands = 0

                def transceive(command: bytes):
                    nonlocal commands
                    commands += 1
                    if commands <= cut:
                        return tag.obey(command)
                    if obeys and commands == cut + 1:
                        tag.obey(command)
                    return None

                try:
                    drive(write(2, b"", new), transceive)
                    done = True
                except Gone:
                    done = False
                message = drive(read(2), tag.obey).message
                self.assertIn(message, (new,) if done else (old, b"", new))
                met.add(message)
        self.assertEqual(met, {old, b"", new})


if __name__ == "__main__":
    unittest.main()
