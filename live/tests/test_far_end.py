"""The far end of a link: against the plain reading of the tables that the gate has, against the stored scripts, and its faults."""

from __future__ import annotations

import importlib.util
import random
import unittest
from pathlib import Path
from typing import Callable, Iterator, NamedTuple

from tests.links import Link, Peer, bytes_of, links_of, report_of
from tests.test_stored import scripts
from zevlodek import FarEnd, Fault, LinkParams, NearEnd, Received, carry, read_general, write_general

ROOT = Path(__file__).resolve().parent.parent.parent
LEAST = write_general(LinkParams(128))
CLIENT_SAP = 32


def plain():
    """The tables of LLCP and SNEP, written once more."""
    told = importlib.util.spec_from_file_location("forges", ROOT / ".ci/forges.py")
    module = importlib.util.module_from_spec(told)
    told.loader.exec_module(module)
    return module


class Model(unittest.TestCase):
    def test_payloads_at_random(self):
        """Payloads as a client sends them, most of them with a byte changed, and what is accepted of them."""
        tables = plain()
        chance = random.Random(11)
        accepted = 0
        for link in range(2000):
            payloads = [tables.changed(chance, payload) for payload in tables.usual(chance)]
            wanted: list[Received] = []
            replies = tables.replies(payloads, lambda sap, message: wanted.append(Received(sap, message)))
            end = FarEnd(LEAST, tables.MIU, 1, tables.LIMIT)
            with self.subTest(link, payloads=[payload.hex() for payload in payloads]):
                self.assertEqual([end.answer(payload) for payload in payloads], replies)
                self.assertEqual([end.received(index) for index in range(end.count())], wanted)
            accepted += len(wanted)
        self.assertGreater(accepted, 100)


class Forged(NamedTuple):
    """A `forge` of a stored script whose payloads all were replied to, with its peer."""

    name: str
    peer: Peer
    payloads: list[bytes]
    replies: list[bytes]


def forged(script: Path) -> Iterator[Forged]:
    report, peers = report_of(script), {}
    for number, line in enumerate(script.read_text(errors="replace").split("\n"), 1):
        words, answer = line.split(" "), report.get(number, [""])[-1].split(" ")
        if answer == ["ok"] and words[:2] == ["place", "peer"]:
            peers[words[2]] = Peer((int(words[4]), int(words[5]), int(words[6])))
        elif answer == ["ok"] and words[0] == "offer":
            peers[words[1]].offers.append((bytes_of(words[2]), bytes_of(words[3])))
        elif words[0] == "forge" and answer[0] == "heard":
            peer = peers[words[1]]
            payloads, replies = ([bytes_of(word) for word in told] for told in (words[2:], answer[1:]))
            yield Forged(f"{script.parent.name}/{script.name} {number}", Peer(peer.sizes, list(peer.offers)), payloads, replies)


class Stored(unittest.TestCase):
    def check(self, one: Forged | Link) -> FarEnd:
        general = one.general if isinstance(one, Link) else LEAST
        end = FarEnd(general, *one.peer.sizes, tuple(one.peer.offers))
        with self.subTest(one.name):
            self.assertEqual([end.answer(payload).hex() for payload, _ in zip(one.payloads, one.replies)], [reply.hex() for reply in one.replies])
        return end

    def near(self, link: Link) -> int:
        """The calls of a link, by a near end that is given the replies of its report: how many payloads it sent, each that of the report."""
        end, at = NearEnd(link.theirs, *link.sizes), 0

        def swap(payload: bytes) -> bytes:
            nonlocal at
            self.assertEqual(payload.hex(), link.payloads[at].hex())
            at += 1
            return link.replies[at - 1]

        for words in link.calls:
            jobs = {"put": lambda: end.put(bytes_of(words[1])), "lookup": lambda: end.lookup(words[1]), "unlink": end.close}
            jobs["get"] = lambda: end.get(bytes_of(words[2]), int(words[1]))
            if words[0] not in jobs:
                break
            try:
                carry(jobs[words[0]](), swap)
            except Fault as fault:
                self.assertLess(fault.number, -500)
            except (IndexError, ValueError):
                break  # noise ended the link here, or a log has no room for the message
        return at

    def test_clients_send_the_payloads_of_their_reports(self):
        sent = 0
        for link in (link for script in scripts() for link in links_of(script)):
            with self.subTest(link.name):
                sent += self.near(link)
        self.assertGreater(sent, 1500)

    def test_forged_payloads_have_their_replies(self):
        seen = [self.check(one) for script in scripts() for one in forged(script)]
        self.assertGreater(len(seen), 100)

    def test_payloads_of_clients_have_their_replies(self):
        """And what a client put with success was accepted of it, in that order."""
        seen = replies = accepted = 0
        for script in scripts():
            for link in links_of(script):
                end = self.check(link)
                received = [end.received(index) for index in range(end.count())]
                for slot in sorted({slot for slot, _, _ in link.puts}):
                    told = [message for of, message, answer in link.puts if of == slot and answer == "success"]
                    with self.subTest(link.name, slot=slot):
                        self.assertEqual([it.message for it in received if it.source == CLIENT_SAP + slot][: len(told)], told)
                    accepted += len(told)
                seen, replies = seen + 1, replies + len(link.replies)
        self.assertGreater(min(seen, accepted), 100, (seen, replies, accepted))


class Anew(unittest.TestCase):
    """A log that begins anew wherever it may gives the replies of a whole one, and all messages."""

    def both(self, payloads: list[bytes], make: Callable[[], FarEnd]) -> int:
        """How often it began anew behind the last message."""
        whole, end = make(), make()
        received: list[Received] = []
        messages: list[Received] = []
        begun = 0
        for payload in payloads:
            self.assertEqual(end.answer(payload), whole.answer(payload))
            messages = [end.received(index) for index in range(end.count())]
            if end.begin_anew():
                received += messages
                messages = []
                begun += bool(received)
        self.assertEqual(received + messages, [whole.received(index) for index in range(whole.count())])
        return begun

    def test_payloads_at_random(self):
        """Of one client at a time: of several the turns begin at the lowest SAP in a new log."""
        tables, chance, begun = plain(), random.Random(12), 0
        for link in range(400):
            payloads: list[bytes] = []
            for usual in (tables.usual(chance) for _ in range(3)):
                saps = {payload[1] & 63 for payload in usual if payload[0] == 0x11}
                if len(saps) == 1:
                    payloads += [*usual, tables.header(tables.SAP, tables.DISC, *saps), b"\0\0"]
            with self.subTest(link, payloads=[payload.hex() for payload in payloads]):
                begun += self.both(payloads, lambda: FarEnd(LEAST, tables.MIU, 1, tables.LIMIT))
        self.assertGreater(begun, 100)

    def test_a_link_that_idles_stays_short(self):
        end = FarEnd(LEAST)
        for _ in range(1000):
            self.assertEqual(end.answer(b"\0\0"), b"\0\0")
            self.assertTrue(end.begin_anew())
        self.assertEqual(end.log, b"")

    def test_an_open_connection_keeps_its_log(self):
        end = FarEnd(LEAST)
        end.answer(b"\x11\x20")
        self.assertFalse(end.begin_anew())
        self.assertNotEqual(end.log, b"")
        self.assertEqual(end.answer(b"\x11\x60"), b"\x81\xc4\0")
        self.assertTrue(end.begin_anew())


class Faults(unittest.TestCase):
    def test_general_bytes(self):
        for params in (LinkParams(), LinkParams(2175, 0, 0x10), LinkParams(129, 0xFFFF, 0x1F)):
            self.assertEqual(read_general(write_general(params)), params)
        rows = ((b"Fm", -201), (b"Ffm", -202), (b"Ffm\1\1\x20", -203), (b"Ffm\1", -204))
        for content, number in rows:
            with self.subTest(number), self.assertRaises(Fault) as caught:
                read_general(content)
            self.assertEqual(caught.exception.number, number)
            self.assertTrue(str(caught.exception).startswith("the general bytes"))

    def test_sizes_that_are_none(self):
        for sizes in ((127, 1, 1024), (2176, 1, 1024), (128, 0, 1024), (128, 16, 1024), (128, 1, 1023), (128, 1, 65537), (65536 + 128, 1, 1024), (128, 257, 1024)):
            with self.subTest(sizes), self.assertRaises(Fault) as caught:
                FarEnd(LEAST, *sizes).answer(b"\0\0")
            self.assertEqual(caught.exception.number, -2)

    def test_a_payload_that_met_a_fault_counts_as_not_taken(self):
        end = FarEnd(LEAST, 127)
        with self.assertRaises(Fault):
            end.answer(b"\0\0")
        self.assertEqual(end.log, b"")

    def test_a_payload_and_an_offer_that_are_too_long(self):
        end = FarEnd(LEAST)
        with self.assertRaises(ValueError):
            end.answer(bytes(2179))
        with self.assertRaises(ValueError):
            FarEnd(LEAST, offers=((b"k", bytes(65536)),))
        self.assertEqual(end.answer(bytes(2178)), b"\0\0")

    def test_a_message_that_is_not_there(self):
        with self.assertRaises(Fault) as caught:
            FarEnd(LEAST).received(0)
        self.assertEqual(caught.exception.number, -2)

    def test_general_bytes_that_begin_no_link(self):
        """Such a far end takes nothing, and its replies are empty."""
        end = FarEnd(b"")
        self.assertEqual([end.answer(bytes.fromhex("1120")), end.count()], [b"", 0])


if __name__ == "__main__":
    unittest.main()
