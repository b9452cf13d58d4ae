"""Both ends of ISO-DEP, of NFC-DEP, and of LLCP with SNEP, against each other, over the binding."""

from __future__ import annotations

import random
import unittest

from zevlodek import ASLEEP, OPENED, RELEASED, FarEnd, Fault, Initiator, IsoCard, IsoReader, LinkParams, NearEnd, Target, Type4Tag
from zevlodek import atr_request, carry, drive, read, told_by_atr, write, write_general

IDENT = bytes(range(10))
GENERAL = bytes.fromhex("46666D010113")


class Noise:
    """What becomes of frames: each is lost or damaged by chance."""

    def __init__(self, seed: int, share: float):
        self.chance, self.share = random.Random(seed), share

    def over(self, hear):
        """A link to an end: what is heard of its answer to a frame."""

        def swap(frame: bytes):
            if self.chance.random() < self.share:
                return None
            answer = hear(frame)
            if answer is None:
                return None
            return (b"", 1) if self.chance.random() < self.share else (answer, 0)

        return swap


class IsoDep(unittest.TestCase):
    def test_commands_of_all_lengths(self):
        handed = []

        def owner(command: bytes) -> bytes:
            handed.append(command)
            return command[::-1]

        chance = random.Random(3)
        for code in range(9):
            reader, card = IsoReader(code), IsoCard(code, owner)
            for length in (0, 1, 20, chance.randrange(265), 264):
                command = chance.randbytes(length)
                self.assertEqual(carry(reader.exchange(command), Noise(length, 0.1).over(card.hear)), command[::-1])
                self.assertEqual(handed.pop(), command)
                self.assertEqual(handed, [])

    def test_a_type_4_tag_over_it(self):
        """The reading gives commands, the link carries them, the tag answers: all of it is the library."""
        tag = Type4Tag(bytes.fromhex("000F20003B00340406E10400C80000"), bytes(200))
        reader, card = IsoReader(2), IsoCard(2, lambda command: tag.obey(command)[0])
        ats = card.hear(b"\xe0\x20")
        self.assertEqual(ats[0], len(ats))

        def transceive(command: bytes):
            return carry(reader.exchange(command), Noise(len(command), 0.05).over(card.hear)), 0

        drive(write(4, b"", bytes(range(120))), transceive)
        self.assertEqual(drive(read(4), transceive).message, bytes(range(120)))

    def test_faults(self):
        for heard, number in ((None, -302), ((b"\x00", 0), -303)):
            with self.subTest(number), self.assertRaises(Fault) as caught:
                carry(IsoReader(8).exchange(b"x"), lambda frame: heard)
            self.assertEqual(caught.exception.number, number)
        with self.assertRaises(Fault) as caught:
            IsoCard(9, bytes).hear(b"\xe0\x80")
        self.assertEqual(caught.exception.number, -2)

    def test_deselect(self):
        card = IsoCard(8, bytes)
        card.hear(b"\xe0\x80")
        self.assertEqual((card.hear(b"\xc2"), card.last), (b"\xc2", ASLEEP))


class NfcDep(unittest.TestCase):
    def test_payloads_of_all_lengths(self):
        for lr in range(4):
            target = Target(IDENT, lr, GENERAL, lambda payload: payload[::-1])
            answer = target.hear(atr_request(IDENT, GENERAL))
            self.assertEqual((told_by_atr(answer), target.last), ((lr, GENERAL), OPENED))
            initiator = Initiator(lr)
            for length in (0, 1, 61, 300, 2178):
                payload = random.Random(length).randbytes(length)
                self.assertEqual(carry(initiator.exchange(payload), Noise(length, 0.05).over(target.hear)), payload[::-1])

    def test_faults(self):
        for heard, number in ((None, -402), ((b"\x00", 0), -403)):
            with self.subTest(number), self.assertRaises(Fault) as caught:
                carry(Initiator(3).exchange(b"x"), lambda frame: heard)
            self.assertEqual(caught.exception.number, number)
        for call in (lambda: Target(IDENT, 4, b"", bytes).hear(b""), lambda: atr_request(IDENT, bytes(49)), lambda: told_by_atr(b"\xf0\x03\xd4\x08")):
            with self.assertRaises(Fault) as caught:
                call()
            self.assertEqual(caught.exception.number, -2)

    def test_what_follows_damage_and_silence(self):
        """NACK, and attention."""
        for heard, pfb in (((b"", 1), 0x50), (None, 0x80)):
            job = Initiator(3).exchange(b"x")
            next(job)
            self.assertEqual(job.send(heard)[4], pfb)

    def test_the_end(self):
        target = Target(IDENT, 3, GENERAL, bytes)
        target.hear(atr_request(IDENT, GENERAL))
        self.assertEqual((target.hear(bytes.fromhex("F003D40A")), target.last), (bytes.fromhex("F003D50B"), RELEASED))


class Snep(unittest.TestCase):
    def ends(self, near: int = 2175, far: int = 2175, window: int = 15, limit: int = 65536) -> tuple[NearEnd, FarEnd]:
        said = {miu: write_general(LinkParams(miu, 0x13, 0x13)) for miu in (near, far)}
        return NearEnd(said[far], near, window), FarEnd(said[near], far, window, limit, ((b"k1", b"value"),))

    def test_calls_one_after_the_other(self):
        for near, far, window in ((128, 128, 1), (2175, 128, 3), (128, 2175, 15)):
            client, server = self.ends(near, far, window)
            for index, length in enumerate((0, 5, 1000)):
                message = random.Random(length).randbytes(length)
                carry(client.put(message), server.answer)
                self.assertEqual((server.count(), server.received(index).message), (index + 1, message))
            self.assertEqual(carry(client.get(b"k1", slot=5), server.answer), b"value")
            self.assertEqual(carry(client.lookup("urn:nfc:sn:snep"), server.answer), 4)
            self.assertEqual(carry(client.lookup("urn:nfc:sn:none"), server.answer), 0)
            carry(client.close(), server.answer)
            carry(client.put(b"x"), server.answer)
            self.assertEqual(server.count(), 4)

    def test_a_message_of_65535_bytes(self):
        client, server = self.ends()
        message = random.Random(5).randbytes(65535)
        carry(client.put(message), server.answer)
        self.assertEqual(server.received(0).message, message)

    def test_faults(self):
        client, server = self.ends(limit=1024)
        rows = ((client.put(bytes(1025)), -501), (client.get(b"k2"), -502), (client.get(b"k1", 4), -503), (client.get(b"k1", slot=8), -1), (client.lookup("x" * 65), -1))
        for job, number in rows:
            with self.subTest(number), self.assertRaises(Fault) as caught:
                carry(job, server.answer)
            self.assertEqual(caught.exception.number, number)
        with self.assertRaises(Fault) as caught:
            carry(client.put(b"x"), lambda payload: b"\0\0")
        self.assertEqual(caught.exception.number, -507)
        for words in ((127, 1), (2176, 1), (128, 0), (128, 16)):
            with self.subTest(words), self.assertRaises(Fault) as caught:
                carry(NearEnd(GENERAL, *words).put(b""), server.answer)
            self.assertEqual(caught.exception.number, -2)

    def test_the_whole_stack(self):
        """A put over NFC-DEP under noise: client, initiator, target, far end."""
        ours = write_general(LinkParams(2175, 0x13, 0x13))
        server = FarEnd(ours)
        target = Target(IDENT, 2, ours, server.answer)
        lr, theirs = told_by_atr(target.hear(atr_request(IDENT, ours)))
        client, initiator = NearEnd(theirs), Initiator(lr)
        message = random.Random(9).randbytes(3000)

        def swap(payload: bytes) -> bytes:
            return carry(initiator.exchange(payload), Noise(len(payload), 0.03).over(target.hear))

        carry(client.put(message), swap)
        self.assertEqual(server.received(0).message, message)


if __name__ == "__main__":
    unittest.main()
