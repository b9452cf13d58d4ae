"""What `nfc.py why` tells of lines that are refused."""

from __future__ import annotations

import re
import unittest
from pathlib import Path

from script.grammar import IN_ORDER
from tests.calling import ROOT, call

T2 = "place t2 01020304 16 -"
PEER = "place peer 08010203 3 128 1 1024"
T5 = "place t5 E004010203040506 4 4 -"

# Lines, of which the last is refused, and what is told of it.
ROWS = (
    (("fly",), "there is no command 'fly'"),
    (("Read 01020304",), "there is no command 'Read' (perhaps read)"),
    (("read  01020304",), "two spaces stand in a row, and words are parted by one"),
    ((" # a comment",), "a space stands before it, and even a comment has none"),
    (("find ",), "a space stands at its end"),
    (("read\t01020304",), "it has a tab, and words are parted by one space each"),
    (("find\r",), "it ends with CR LF, and a line ends with LF alone (tr -d '\\r' takes CRs away)"),
    (("\ufefffind",), "a byte order mark stands before it (save the file as UTF-8 without one)"),
    (("lookup caf\u00e9",), "byte 11 is C3h, which is no printable ASCII"),
    (("put " + "0" * 4093,), "it has 4097 bytes, and a line has at most 4096"),
    (("",) * 1000 + ("find",), "a script has at most 1000 lines, comments and empty ones too"),
    (("place",), "the kind of device is missing: behind place stands t2, t3, t4, t5 or peer"),
    (("place 01020304 t2",), "'01020304' is no kind of device: behind place stands t2, t3, t4, t5 or peer"),
    (("place T2 01020304 16 -",), "'T2' is no kind of device (perhaps t2): behind place stands t2, t3, t4, t5 or peer"),
    (("place t2 01020304 16",), "place t2 needs 3 words behind it, and here are 2"),
    (("find 3",), "find has no word behind it, and here is 1"),
    (("read",), "read needs 1 word behind it, and here are none"),
    (("lookup printing service",), "lookup needs 1 word behind it, and here are 2"),
    (("place t2 01020304 016 -",), "BLOCKS: '016' begins with a zero"),
    (("place t2 01020304 3 -",), "BLOCKS: 3 is below 4"),
    (("place t2 01020304 257 -",), "BLOCKS: '257' is above 256"),
    (("place t2 01020304 0x10 -",), "BLOCKS: '0x10' is no decimal number"),
    (("place t2 01020304 16 0x00",), "HEX: '0x00' begins with 0x, which isn't written here"),
    (("place t2 01020304 16 000",), "HEX: '000' has an odd number of digits"),
    (("read 01:02:03:04",), "ID: '01:02:03:04' has ':', which is no hexadecimal digit"),
    (("read 010203",), "ID: '010203' has 3 bytes, and this ID has 4, 7, 8 or 10"),
    (("read -",), "ID: an identifier has bytes, and - stands for none"),
    (("place t2 88020304 16 -",), "ID: 88020304 begins with 88h, the cascade tag, which no ID of 4 bytes does"),
    (
        ("link 04112288445566 128 1",),
        "ID: 04112288445566 has 88h, the cascade tag, as its fourth byte, which no ID of 7 bytes has",
    ),
    (("place t5 E004010203040506 4 5 -",), "SIZE: '5' isn't 4, 8, 16 or 32"),
    (("place t4 02030405 9 000F20003B000D0406E10402000000 -",), "CODE: '9' is above 8"),
    (("place peer 08010203 3 128 1 1023",), "LIMIT: 1023 is below 1024"),
    (("link E004010203040506 128 1",), "ID: 'E004010203040506' has 8 bytes, and this ID has 4, 7 or 10"),
    (("link 08010203 127 1",), "MIU: 127 is below 128"),
    (("link 08010203 128 16",), "RW: '16' is above 15"),
    (("get 65537 6B",), "N: '65537' is above 65536"),
    (("forge 08010203",), "forge needs 2 to 17 words behind it, and here is 1"),
    (("forge 08010203" + " 1120" * 17,), "forge needs 2 to 17 words behind it, and here are 18"),
    (("forge 08010203 1120 -",), "HEX: a payload has bytes, and - stands for none"),
    (("forge 08010203 1120 112",), "HEX: '112' has an odd number of digits"),
    (("forge E004010203040506 1120",), "ID: 'E004010203040506' has 8 bytes, and this ID has 4, 7 or 10"),
    (("raw 01020304",), "raw needs 2 to 17 words behind it, and here is 1"),
    (("raw 01020304" + " 3000" * 17,), "raw needs 2 to 17 words behind it, and here are 18"),
    (("raw 01020304 26/8",), "FRAME: '/8' isn't /1 to /7, how many bits of the last byte are sent"),
    (("raw 01020304 26/0",), "FRAME: '/0' isn't /1 to /7, how many bits of the last byte are sent"),
    (("raw 01020304 A6/7",), "FRAME: its last byte, A6h, has other bits than its low 7"),
    (("raw 01020304 -/3",), "FRAME: the empty frame has no byte to send in part"),
    (("raw 01020304 /3",), "FRAME: its digits are missing, and - stands for none"),
    (("raw 01020304 " + "00" * 289,), "FRAME: a frame of 289 bytes is longer than 288"),
    ((PEER, PEER.replace("08010203", "08010204"), "raw 01020304 3000"), "2 peers are placed, and a raw is for a field with at most one"),
    (("on 0 put D1",), "K: 0 is below 1"),
    (("on 8 put D1",), "K: '8' is above 7"),
    (("on 01 put D1",), "K: '01' begins with a zero"),
    (("on 1 put",), "on needs 3 words behind it, and here are 2"),
    (("on 1 lookup x",), "'lookup' is nothing that a slot does: behind on and a slot stands put or get"),
    (("on 1",), "what the slot does is missing: behind on and a slot stands put or get"),
    (("puts 0:D1",), "puts needs 2 to 8 words behind it, and here is 1"),
    (("puts 0:D1 0:D2",), "slot 0 stands twice, and each client puts one message"),
    (("puts 8:D1 0:D2",), "K:MSG: '8' is above 7"),
    (("puts 0: 1:D2",), "K:MSG: the message is missing, and - stands for no bytes"),
    (("puts 00:D1 1:D2",), "K:MSG: '00' begins with a zero"),
    (("puts D1 1:D2",), "K:MSG: 'D1' has no colon between a slot and a message"),
    (("puts" + "".join(f" {slot}:D1" for slot in range(9)),), "puts needs 2 to 8 words behind it, and here are 9"),
    (("put hello",), "MSG: 'hello' has 'h', which is no hexadecimal digit"),
    (("put gen:5",), "MSG: 'gen:5' isn't gen:N:S"),
    (("put gen:65537:0",), "MSG: '65537' is above 65536"),
    (("put gen:5:256",), "MSG: '256' is above 255"),
    (("put gen:05:2",), "MSG: '05' begins with a zero"),
    (("fates PPdP",), "FATES: letter 3 is 'd', and fates are P, D, L and B"),
    (("fates -",), "FATES: letter 1 is '-', and fates are P, D, L and B"),
    (("fates " + "P" * 4001,), "FATES: 4001 letters are more than 4000"),
    (("lookup " + "a" * 65,), "NAME: a name of 65 characters is longer than 64"),
    (("remove 01020304",), "no device 01020304 is placed"),
    ((T2, "remove 01020304", "dump 01020304"), "no device 01020304 is placed: line 2 took it away"),
    ((T2, T2), "01020304 is placed already, as a Type 2 tag"),
    ((T2, PEER.replace("08010203", "01020304")), "01020304 is placed already, as a Type 2 tag"),
    (
        tuple(f"place t2 010203{number:02X} 4 -" for number in range(16)) + (PEER,),
        "16 devices are placed, and no more can be",
    ),
    ((T2, "lock 01020304 16"), "01020304 has 16 blocks, of which 15 is the last"),
    ((T5, "lock E004010203040506 4"), "E004010203040506 has 4 blocks, of which 3 is the last"),
    ((T2, "busy 01020304 1 3"), "01020304 is a Type 2 tag, and busy is for a Type 4 tag or a peer"),
    ((PEER, "dump 08010203"), "08010203 is a peer, and dump is for a Type 2 tag, a Type 3 tag, a Type 4 tag or a Type 5 tag"),
    ((T2, "inbox 01020304"), "01020304 is a Type 2 tag, and inbox is for a peer"),
    (("offer E004010203040506 6B 01",), "no device E004010203040506 is placed"),
    (("place t2 01020304 4 " + "00" * 17,), "HEX has 17 bytes, more than the 16 of 4 blocks of 4 bytes"),
    (
        ("place t2 01020304 15 000000000000000000000000E11006",),
        "bytes 12 and 14, E1h and 06h, name an area of 48 bytes, which needs 16 blocks, and the tag has 15",
    ),
    (("place t5 E004010203040506 2049 32 -",), "2049 blocks of 32 are 65568 bytes, and 65536 is the most"),
    (("place t5 E004010203040506 1 4 0011223344",), "HEX has 5 bytes, more than the 4 of 1 block of 4 bytes"),
    (("place t3 01020304 13 -",), "ID: '01020304' has 4 bytes, and this ID has 8"),
    (("place t3 0102030405060708 257 -",), "BLOCKS: '257' is above 256"),
    (("read3 0102",), "ID: '0102' has 2 bytes, and this ID has 8"),
    (("poll3 x",), "poll3 has no word behind it, and here is 1"),
    (("write3 0102030405060708",), "write3 needs 2 words behind it, and here is 1"),
    ((T5, "place t3 E004010203040506 13 -"), "E004010203040506 is placed already, as a Type 5 tag"),
    (("place t3 0102030405060708 1 " + "00" * 17,), "HEX has 17 bytes, more than the 16 of 1 block of 16 bytes"),
    (("place t4 02030405 8 000F20 -",), "the container has 3 bytes, and it has to have 15 to 64"),
    (
        ("place t4 02030405 8 000F20003B00340406E10300100000 -",),
        "the container names itself, E103h, as the NDEF file (bytes 9 and 10)",
    ),
    (
        ("place t4 02030405 8 000F20003B00340406E10480000000 -",),
        "the container gives the file 32768 bytes (bytes 11 and 12), and 32767 is the most",
    ),
    (
        ("place t4 02030405 8 000F20003B00340406E10400020000 001122",),
        "HEX has 3 bytes, more than the 2 of the file, by bytes 11 and 12 of the container",
    ),
)


def why(*lines: str) -> list[str]:
    """What is told of a script of these lines."""
    called = call("why", given="\n".join(lines).encode())
    return called.text.splitlines()


class Reasons(unittest.TestCase):
    def test_each_reason(self) -> None:
        for lines, reason in ROWS:
            with self.subTest(line=lines[-1][:60]):
                self.assertEqual(why(*lines)[0], f"line {len(lines)} is refused: {reason}")

    def test_the_form_that_was_expected(self) -> None:
        self.assertEqual(
            why("place t2 01020304 016 -")[1:],
            [
                "  it is:     place t2 01020304 016 -",
                "  expected:  place t2 ID BLOCKS HEX",
                "  BLOCKS is how many blocks of 4 bytes the tag has: from 4 to 256, decimal, "
                "without sign and leading zeros",
            ],
        )
        self.assertEqual(
            why(T2, "lock 01020304 16")[1:],
            [
                "  it is:     lock 01020304 16",
                "  expected:  lock ID BLOCK",
                "  accepted where a Type 2, Type 3 or Type 5 tag with this ID has this block",
            ],
        )

    def test_what_is_not_refused(self) -> None:
        self.assertEqual(why("# a comment", "", T2, "read 01020304"), ["no line is refused: 2 commands in 4 lines"])
        self.assertEqual(why(""), ["no line is refused: 0 commands in 0 lines"])
        self.assertEqual(call("why", given=b"\n" * 1000).status, 0)

    def test_the_status_is_that_of_the_run(self) -> None:
        self.assertEqual(call("why", ROOT / "examples" / "refused-line.script").status, 2)
        self.assertEqual(call("why", ROOT / "examples" / "one-tag.script").status, 0)
        self.assertEqual(call("why", "/nowhere").error, "nfc why: /nowhere: No such file or directory\n")


class Stored(unittest.TestCase):
    """Each stored script, whose report tells which line the program refused; but for audits, which read a report too, and refused sweeps,
    which refuse more than a run."""

    def scripts(self) -> list[Path]:
        cases = [path for path in ROOT.glob("tests/cases/*/*") if not path.suffix and path.parent.name != "audit"]
        return sorted(path for path in cases if not self.is_refused_sweep(path)) + sorted(ROOT.glob("examples/*.script"))

    def is_refused_sweep(self, script: Path) -> bool:
        return script.parent.name == "sweep" and "fault 2 " in script.with_name(script.name + ".stdout").read_text("ascii")

    def test_the_line_that_is_refused_is_that_of_the_report(self) -> None:
        self.assertTrue(self.scripts())
        for script in self.scripts():
            last = script.with_name(script.name + ".stdout").read_text("ascii").splitlines()[-1:]
            told = call("why", script).text.splitlines()[0]
            with self.subTest(script=script.name):
                refused = last[0].removeprefix("fault 2 ") if last and last[0].startswith("fault 2 ") else "no line"
                self.assertTrue(told.startswith(f"{refused} is refused"), told)


class Table(unittest.TestCase):
    """The table of commands is that of docs/script.md."""

    def test_the_forms_are_those_of_the_page(self) -> None:
        page = (ROOT / "docs" / "script.md").read_text("utf-8")
        table = page[page.index("\n| line | does |") : page.index("`Command::write_to` writes")]
        self.assertEqual([command.form for command in IN_ORDER], re.findall(r"^\| `([^`]+)` \| ", table, re.MULTILINE))


if __name__ == "__main__":
    unittest.main()
