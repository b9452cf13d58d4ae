"""`zev` as a program, over the pipe and with a tag as a second process."""

from __future__ import annotations

import random
import subprocess
import sys
import tempfile
import unittest
from pathlib import Path

from tests.links import links_of
from tests.test_stored import scripts
from zevlodek import LinkParams, NearEnd, carry, write_general
from zevlodek import LinkParams, NearEnd, carry, write_general

LIVE = Path(__file__).resolve().parent.parent
TAG = f"{sys.executable} {LIVE / 'tag.py'}"
OLD = bytes.fromhex("D00000")


def zev(*words: str, text: str = "") -> tuple[int, str, str]:
    ran = subprocess.run([sys.executable, LIVE / "zev", *words], input=text, capture_output=True, text=True, timeout=60)
    return ran.returncode, ran.stdout, ran.stderr


class OfEachType(unittest.TestCase):
    """Reading and writing with tags of each type behind the pipe; each write broken off at each command, obeyed or not, and read again."""

    IDENT = "E004010203040506"
    TAGS = (
        ("2", (bytes(12) + bytes.fromhex("E11006000303D00000FE")).ljust(64, b"\0"), ()),
        ("4", bytes.fromhex("000F20003B000E0406E10400320000" + "0003D00000").ljust(65, b"\0"), ()),
        ("5", bytes.fromhex("E14006010303D00000FE").ljust(52, b"\0"), ("--id", IDENT)),
        ("5", bytes.fromhex("E14006010303D00000FE").ljust(56, b"\0"), ("--id", IDENT, "--block", "8")),
    )

    def test_reading_and_writing(self):
        new = bytes.fromhex("D1010154") + bytes(30)
        with tempfile.TemporaryDirectory() as folder:
            file = Path(folder) / "tag"
            for kind, memory, more in self.TAGS:
                words = "--type", kind, *more[:2]
                over = f"pipe:{TAG} {file} --type {kind} {' '.join(more)}"
                file.write_bytes(memory)
                self.assertEqual(zev("read", "--reader", over, *words), (0, "D00000\n", ""))
                self.assertEqual(zev("write", new.hex(), "--reader", over, *words), (0, "written\n", ""))
                self.assertEqual(zev("read", "--reader", over, *words), (0, new.hex().upper() + "\n", ""))

    def test_broken_off(self):
        new = bytes.fromhex("D1010154") + bytes(20)
        with tempfile.TemporaryDirectory() as folder:
            file = Path(folder) / "tag"
            for kind, memory, more in self.TAGS:
                words, met, status, step = ("--type", kind, *more[:2]), set(), 1, 0
                while status:
                    file.write_bytes(memory)
                    over = f"pipe:{TAG} {file} --type {kind} {' '.join(more)}"
                    cut = f" --cut {step // 2}" + " --obeys" * (step % 2)
                    status = zev("write", new.hex(), "--reader", over + cut, *words)[0]
                    read = zev("read", "--reader", over, *words)
                    message = bytes.fromhex(read[1].split("\n")[0].replace("-", ""))
                    self.assertEqual((read[0], message in ((OLD, b"", new) if status else (new,))), (0, True))
                    met.add(message)
                    step += 1
                self.assertEqual(met, {OLD, b"", new})


class WithATag(unittest.TestCase):
    def setUp(self):
        self.folder = tempfile.TemporaryDirectory()
        self.file = Path(self.folder.name) / "tag"
        self.fresh()

    def tearDown(self):
        self.folder.cleanup()

    def fresh(self) -> None:
        self.file.write_bytes((bytes(12) + bytes.fromhex("E11006000303D00000FE")).ljust(64, b"\0"))

    def over(self, *more: str) -> tuple[str, str]:
        return "--reader", " ".join([f"pipe:{TAG}", str(self.file), *more])

    def test_a_uri_and_a_text(self):
        for words, said in ((("--uri", "https://example.com"), "https://example.com"), (("--text", "Grüße", "--lang", "de"), "Grüße")):
            self.assertEqual(zev("write", *words, *self.over()), (0, "written\n", ""))
            status, out, _ = zev("read", *self.over())
            self.assertEqual((status, out.split("\n")[1]), (0, said))

    def test_capacity(self):
        self.assertEqual(zev("capacity", *self.over())[:2], (0, "3 of 46 bytes, free to write\n"))

    def test_a_write_that_is_broken_off(self):
        met = set()
        for cut in range(4, 8):
            for more in ((), ("--obeys",)):
                self.fresh()
                status, _, told = zev("write", "D1010154", *self.over("--cut", str(cut), *more))
                message = bytes.fromhex(zev("read", *self.over())[1].strip().replace("-", ""))
                self.assertIn(message, (OLD, b"", bytes.fromhex("D1010154")) if status else (bytes.fromhex("D1010154"),))
                self.assertTrue(status == 0 or "the tag holds" in told)
                met.add(message)
        self.assertEqual(len(met), 3)

    def test_a_locked_block(self):
        status, _, told = zev("write", "D1010154", *self.over("--locked", "5"))
        self.assertEqual((status, "refused" in told), (1, True))

    def test_a_report(self):
        report = Path(self.folder.name) / "report"
        zev("read", *self.over(), "--report", str(report))
        self.assertEqual(report.read_text().split("\n")[0::3][0], "1 > 3000 pass")
        self.assertEqual(report.read_text().split("\n")[-2], "1 message D00000 writable")

    def test_no_write_outside_the_area(self):
        """Whatever the other side says, the commands that write name blocks of the area alone."""
        chance = random.Random(7)
        for _ in range(20):
            answers = "".join(f"< {chance.randbytes(chance.choice((16, 16, 16, 1, 4))).hex().upper()}\n" for _ in range(40))
            status, out, _ = zev("write", "D0", text="< 000000000000000000000000E1100600\n" + answers)
            written = [line[2:] for line in out.split("\n") if line.startswith("> A2")]
            self.assertTrue(all(4 <= int(line[2:4], 16) < 16 for line in written))
            self.assertIn(status, (0, 1))


def lines(*payloads: bytes) -> str:
    return "".join(f"< {payload.hex().upper() or '-'}\n" for payload in payloads)


class Peers(unittest.TestCase):
    """`zev peer`, with an initiator behind the pipe that says what stands in a list."""

    SAID = bytes.fromhex("46666D010113")
    OURS = "> 46666D010113020207FF03020013\n"
    CONNECT, PUT = bytes.fromhex("1120"), bytes.fromhex("13200010020000000CD1010855016578616D706C65")

    def test_the_links_of_stored_scripts(self):
        links = [link for script in scripts() for link in links_of(script)]
        for link in links[::9]:
            sizes = [word for pair in zip(("--miu", "--window", "--limit"), map(str, link.peer.sizes)) for word in pair]
            offers = [f"--offer={key.hex()}={value.hex()}" for key, value in link.peer.offers]
            status, out, told = zev("peer", *sizes, *offers, text=lines(link.general, *link.payloads[: len(link.replies)]))
            accepted = [line.split()[1:3] for line in out.split("\n") if line.startswith("from ")]
            with self.subTest(link.name):
                self.assertEqual((status, told), (0, ""))
                self.assertEqual([line[2:] for line in out.split("\n") if line.startswith(">")][1:-1], [reply.hex().upper() for reply in link.replies])
                for slot in {slot for slot, _, _ in link.puts}:
                    success = [message.hex().upper() or "-" for of, message, answer in link.puts if of == slot and answer == "success"]
                    self.assertEqual([message for sap, message in accepted if sap == f"{32 + slot}:"][: len(success)], success)
        self.assertGreater(len(links), 300)

    def test_one_link_after_the_other(self):
        """Each begins with a far end that nothing came to; what isn't LLCP begins none."""
        once = lines(self.SAID, self.CONNECT, self.PUT) + "-\n"
        status, out, told = zev("peer", text=once + lines(b"\0") + once)
        shown = f"{self.OURS}> 8184020207FF05010F\nfrom 32: {self.PUT[9:].hex().upper()}\nhttp://www.example\n> 830401108100000000\n"
        self.assertEqual((status, out), (0, shown + self.OURS + shown + self.OURS))
        self.assertEqual(told, "zev: the general bytes are not of LLCP\n")

    def test_a_client_of_the_library(self):
        """`zev peer` at one end of a pipe, the near end of the library at the other: a put of 1,000 bytes, another, a get, a name looked up."""
        words = [sys.executable, LIVE / "zev", "peer", "--offer", "6B31=A1A2"]
        with subprocess.Popen(words, stdin=subprocess.PIPE, stdout=subprocess.PIPE, text=True) as ran:
            shown: list[str] = []

            def heard() -> bytes:
                for line in ran.stdout:
                    if line.startswith("> "):
                        return bytes.fromhex(line[2:].strip().replace("-", ""))
                    shown.append(line.strip())
                raise EOFError

            def swap(payload: bytes) -> bytes:
                ran.stdin.write(f"< {payload.hex().upper()}\n")
                ran.stdin.flush()
                return heard()

            client = NearEnd(heard())
            ran.stdin.write(lines(write_general(LinkParams(2175))))
            messages = bytes(range(250)) * 4, b"\xd1\x01\x01T\x00"
            for message in messages:
                carry(client.put(message), swap)
            self.assertEqual(carry(client.get(b"k1"), swap), b"\xa1\xa2")
            self.assertEqual(carry(client.lookup("urn:nfc:sn:snep"), swap), 4)
            carry(client.close(), swap)
            ran.stdin.close()
            self.assertEqual((ran.wait(60), [line.split(": ")[1] for line in shown if line.startswith("from 32: ")]), (0, [one.hex().upper() for one in messages]))

    def test_a_connection_that_ends_between_two_puts(self):
        """The log begins anew there, and each message is shown once."""
        once = f"> 8184020207FF05010F\nfrom 32: {self.PUT[9:].hex().upper()}\nhttp://www.example\n> 830401108100000000\n> 81C400\n> 0000\n"
        payloads = [self.CONNECT, self.PUT, bytes.fromhex("1160"), b"\0\0"]
        status, out, told = zev("peer", text=lines(self.SAID, *payloads * 3))
        self.assertEqual((status, out, told), (0, self.OURS + once * 3 + self.OURS, ""))
        joined = b"\0\x80" + b"".join(len(pdu).to_bytes(2, "big") + pdu for pdu in payloads[:2])
        self.assertEqual(zev("peer", text=lines(self.SAID, *[joined, payloads[2]] * 3))[1].count("from 32: "), 3)

    def test_what_is_no_payload(self):
        """The link is over, and the next line may begin another."""
        for text in ("", "-\n", "<\n", "x" * 9000, "< 12/4\n", f"< {'00' * 2179}\n"):
            with self.subTest(text[:9]):
                status, out, told = zev("peer", text=lines(self.SAID, self.CONNECT) + text)
                self.assertEqual((status, out.count(self.OURS), told), (0, 2, ""))

    def test_a_program_that_goes_away(self):
        for program in ("true", "echo '< 46666D010113'", "head -n 1"):
            with self.subTest(program):
                self.assertEqual(zev("peer", "--reader", f"pipe:{program}")[0], 0)


class Words(unittest.TestCase):
    NONE = (
        ("write",), ("write", "D"), ("write", "D0", "--uri", "x"), ("read", "--reader", "none"), ("read", "--type", "5"), ("fly",),
        ("peer", "--miu", "127"), ("peer", "--miu", "65664"), ("peer", "--window", "16"), ("peer", "--limit", "65537"),
        ("peer", "--offer", "00"), ("peer", "--offer", "0=1"),
    )  # fmt: skip

    def test_words_that_are_none(self):
        for words in self.NONE:
            with self.subTest(words):
                self.assertEqual(zev(*words)[0], 2)

    def test_readers_that_are_not_there(self):
        for name in ("nfcpy", "pcsc", "proxmark", "pipe:/no/such/program"):
            with self.subTest(name):
                status, _, told = zev("read", "--reader", name)
                self.assertEqual((status, len(told.strip().split("\n"))), (3, 1))

    def test_a_far_side_that_says_nothing(self):
        for text in ("", "-\n" * 9, "< 3\n" * 9, "x" * 5000):
            with self.subTest(text[:9]):
                status, out, _ = zev("read", text=text)
                self.assertEqual((status, out), (1, "> 3000\n" * 6))


if __name__ == "__main__":
    unittest.main()
