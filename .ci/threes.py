#!/usr/bin/env python3
"""Compares reports of Type 3 tags with a plain reading of their rules: threes.py PROGRAM.

Some 25,000 random lines: tags, some with an attribute block that is no NDEF, locks, and `poll3`, `read3`, `write3` and
`dump` under random fates. The whole report is foretold, frame by frame, by the rules as docs/tags.md, polling.md, reading.md and
writing.md say them, written here once more and as plainly as can be. `.ci/run` runs it on the program that the gate has built.
"""

import random
import subprocess
import sys
from pathlib import Path

TIME = 120
SCRIPTS, COMMANDS = 2000, 12
POLL = bytes.fromhex("060012FC0000")
TRIES, RECEPTIONS = 4, 6
WORDS = {"P": "pass", "D": "damage", "L": "lose", "B": "break"}


class FieldLost(Exception):
    """A Break was used."""


def attributes(nbr, nbw, blocks, flag, access, length, version=0x10, off=0):
    head = bytes([version, nbr, nbw]) + blocks.to_bytes(2, "big") + bytes(4) + bytes([flag, access]) + length.to_bytes(3, "big")
    return head + ((sum(head) + off) % 65536).to_bytes(2, "big")


class Tag:
    def __init__(self, ident, store):
        self.ident, self.store, self.locked = ident, store, set()

    def answer(self, frame):
        """What it answers to a whole frame, if anything."""
        if frame == POLL:
            return b"\x12\x01" + self.ident + bytes(8)
        if frame[2:10] != self.ident:
            return None
        if frame[1] == 6:
            places = frame[15::2]
            blocks = b"".join(self.store[16 * at : 16 * at + 16] for at in places)
            body = b"\x07" + self.ident + b"\0\0" + bytes([len(places)]) + blocks
        else:
            at, status = frame[15], b"\0\0"
            if at in self.locked:
                status = b"\xff\x03"
            else:
                self.store = self.store[: 16 * at] + frame[16:] + self.store[16 * at + 16 :]
            body = b"\x09" + self.ident + status
        return bytes([len(body) + 1]) + body


def common_bits(frames):
    """The first bits that all frames have, lowest bits of each byte first, as a report writes a frame."""
    count = 0
    while all((frame[count // 8] >> count % 8 & 1) == (frames[0][count // 8] >> count % 8 & 1) for frame in frames):
        count += 1
    whole, tail = divmod(count, 8)
    shown = frames[0][:whole] + (bytes([frames[0][whole] & (1 << tail) - 1]) if tail else b"")
    return (shown.hex().upper() or "-") + (f"/{tail}" if tail else "")


class Bench:
    """Tags in a field, the fates to come, and the report so far."""

    def __init__(self):
        self.tags, self.fates, self.lines, self.number = {}, [], [], 0

    def say(self, text):
        self.lines.append(f"{self.number} {text}")

    def fate(self):
        return self.fates.pop(0) if self.fates else "P"

    def turn(self, frame):
        """Sends a frame: nothing is heard, something damaged, a clash, or a whole answer."""
        fate = self.fate()
        self.say(f"> {frame.hex().upper()} {WORDS[fate]}")
        if fate == "B":
            raise FieldLost
        answers = [it for tag in self.tags.values() if (it := tag.answer(frame)) is not None] if fate == "P" else []
        if not answers:
            return None
        fate = self.fate()
        mark, shown = ("<", answers[0].hex().upper()) if len(answers) == 1 else ("*", common_bits(answers))
        self.say(f"{mark} {shown} {WORDS[fate]}")
        if fate == "B":
            raise FieldLost
        if fate == "L":
            return None
        return "damage" if fate == "D" else "clash" if mark == "*" else answers[0]

    def ask(self, tag, body):
        """A command over the link: asked again until it is answered, or was received badly six times."""
        for _ in range(RECEPTIONS):
            heard = self.turn(bytes([len(body) + 1]) + body)
            if isinstance(heard, bytes):
                return heard
        return None

    def poll(self):
        self.say("! reset")
        damaged = False
        for _ in range(TRIES):
            heard = self.turn(POLL)
            if isinstance(heard, bytes):
                return f"t3 {heard[2:10].hex().upper()}"
            if heard == "clash":
                return "t3 crowd"
            damaged = damaged or heard == "damage"
        return "disturbed" if damaged else "t3 none"

    def is_found(self, ident):
        self.say("! reset")
        for _ in range(TRIES):
            heard = self.turn(POLL)
            if isinstance(heard, bytes):
                return heard[2:10] == ident
            if heard is not None:
                return ident in self.tags
        return False

    def container(self, ident):
        """The attribute block, or why there is none to go by."""
        if not self.is_found(ident):
            return "not found"
        heard = self.ask(ident, b"\x06" + ident + bytes.fromhex("010B00018000"))
        if heard is None:
            return "six bad"
        block = heard[13:]
        nbr, nbw, most, length = block[1], block[2], int.from_bytes(block[3:5], "big"), int.from_bytes(block[11:14], "big")
        if sum(block[:14]) % 65536 != int.from_bytes(block[14:], "big"):
            return "not ndef"
        if block[0] >> 4 != 1:
            return "version"
        if not nbr or not nbw or not most or most > 255 or length > 16 * most:
            return "bad size"
        return block

    def read(self, ident):
        block = self.container(ident)
        if isinstance(block, str):
            return block
        if block[9]:
            return "unfinished"
        length, group, message = int.from_bytes(block[11:14], "big"), min(block[1], 15), b""
        last = -(-length // 16)
        for first in range(1, last + 1, group):
            places = range(first, min(first + group, last + 1))
            elements = b"".join(bytes([0x80, at]) for at in places)
            heard = self.ask(ident, b"\x06" + ident + b"\x01\x0b\0" + bytes([len(places)]) + elements)
            if heard is None:
                return "six bad"
            message += heard[13:]
        return f"message {message[:length].hex().upper() or '-'} {'writable' if block[10] == 1 else 'readonly'}"

    def update(self, ident, at, block):
        """Why a block isn't written, if it isn't."""
        heard = self.ask(ident, b"\x08" + ident + b"\x01\x09\0\x01\x80" + bytes([at]) + block)
        if heard is None:
            return "six bad"
        return f"refused {heard[10:12].hex().upper()}" if heard[10:12] != b"\0\0" else None

    def write(self, ident, message):
        block = self.container(ident)
        if isinstance(block, str):
            return block
        most = int.from_bytes(block[3:5], "big")
        if block[10] != 1:
            return "read only"
        if len(message) > 16 * most:
            return f"too long {16 * most}"
        steps = [(0, with_sum(block[:9] + b"\x0f" + block[10:14]))]
        steps += [(1 + at // 16, message[at : at + 16].ljust(16, b"\0")) for at in range(0, len(message), 16)]
        steps += [(0, with_sum(block[:9] + b"\0" + block[10:11] + len(message).to_bytes(3, "big")))]
        for at, content in steps:
            if fault := self.update(ident, at, content):
                return fault
        return "written"

    def obey(self, line):
        self.number += 1
        word, *rest = line.split(" ")
        try:
            self.say(self.answer(word, rest))
        except FieldLost:
            self.say("field lost")

    def answer(self, word, rest):
        ident = bytes.fromhex(rest[1 if word == "place" else 0]) if rest and word != "fates" else b""
        if word == "poll3":
            return self.poll()
        if word == "read3":
            return self.read(ident)
        if word == "write3":
            return self.write(ident, b"" if rest[1] == "-" else bytes.fromhex(rest[1]))
        if word == "dump":
            return f"store {self.tags[ident].store.hex().upper()}"
        if word == "fates":
            self.fates += rest[0]
        elif word == "place":
            self.tags[ident] = Tag(ident, bytes.fromhex(rest[3]).ljust(16 * int(rest[2]), b"\0"))
        elif word == "lock":
            self.tags[ident].locked.add(int(rest[1]))
        else:
            del self.tags[ident]
        return "ok"


def with_sum(head):
    return head + (sum(head) % 65536).to_bytes(2, "big")


def random_tag(chance):
    blocks = chance.choice((1, 2, 3, 6, 6, 14, 14, 40, 256))
    most = blocks - 1
    # A line has room for a hundred blocks; those behind hold zeros.
    content = chance.randbytes(16 * min(most, 100))
    fields = {"nbr": chance.choice((1, 2, 4, 15, 16, 255)), "nbw": 1, "blocks": most, "flag": chance.choice((0, 0, 0, 0, 15)),
              "access": chance.choice((1, 1, 1, 0)), "length": chance.randrange(16 * most + 1)}
    if chance.random() < 0.15:
        fields |= chance.choice(({"version": 0x20}, {"nbr": 0}, {"length": 16 * most + 1}, {"off": 1}, {"nbw": 0}, {"version": 0x1F}))
    return blocks, attributes(**fields) + content


def random_script(chance):
    near = chance.randbytes(7)
    idents = [near + bytes([at]) if chance.random() < 0.7 else chance.randbytes(8) for at in chance.sample(range(256), 4)]
    lines, placed = [], {}
    for ident in idents[: chance.randrange(4)]:
        placed[ident], store = random_tag(chance)
        lines.append(f"place t3 {ident.hex().upper()} {placed[ident]} {store.hex().upper()}")
    for _ in range(COMMANDS):
        ident = chance.choice(idents)
        name, draw = ident.hex().upper(), chance.random()
        if draw < 0.25:
            noise = chance.choice(("PPPPPPPD", "PPPPL", "PPPPPPPPPPPPB", "DL", "PLPD"))
            lines.append("fates " + "".join(chance.choice(noise) for _ in range(chance.randrange(1, 30))))
        elif draw < 0.35:
            lines.append("poll3")
        elif draw < 0.6:
            lines.append(f"read3 {name}")
        elif draw < 0.85:
            size = chance.choice((0, 1, 15, 16, 17, 33, 48, 90, 208, 209))
            lines.append(f"write3 {name} {chance.randbytes(size).hex().upper() or '-'}")
        elif ident in placed and draw < 0.92:
            lines.append(f"lock {name} {chance.randrange(placed[ident])}")
        elif ident in placed and draw < 0.97:
            lines.append(f"dump {name}")
        elif ident in placed:
            del placed[ident]
            lines.append(f"remove {name}")
    return lines


def main():
    program, chance, wrong, total = str(Path(sys.argv[1]).resolve()), random.Random(3), 0, 0
    for _ in range(SCRIPTS):
        lines, bench = random_script(chance), Bench()
        for line in lines:
            bench.obey(line)
        ran = subprocess.run([program, "run"], input="\n".join(lines).encode(), stdout=subprocess.PIPE, timeout=TIME, check=False)
        total += len(lines)
        wanted = "".join(f"{it}\n" for it in bench.lines)
        if (ran.returncode, ran.stdout.decode()) != (0, wanted):
            wrong += 1
            told = ran.stdout.decode().split("\n")
            at = next((i for i, (a, b) in enumerate(zip(told, wanted.split("\n"))) if a != b), 0)
            print("another report:", *lines, f"told: {told[at]}", f"foretold: {wanted.split(chr(10))[at]}", sep="\n  ")
    print(f"threes: {total} lines of Type 3 tags, {wrong} reports other than foretold")
    return 1 if wrong else 0


if __name__ == "__main__":
    sys.exit(main())
