#!/usr/bin/env python3
"""Compares reports of frames written by hand with a plain reading of the tables: raws.py PROGRAM [SCRIPTS].

Some ten thousand lines `raw`, of random frames over random devices under random fates, with `dump` and `inbox` between them. The whole
report is foretold, frame by frame, by the tables of docs/tags.md, links.md, llcp.md, snep.md and polling.md, written here once more
(`hand_devices.py`) and as plainly as can be. `.ci/run` runs it on the program that the gate has built.
"""

import random
import subprocess
import sys
from pathlib import Path

from hand_devices import Card, Front, Light, Peer, TypeFive, TypeFour, TypeTwo, bits_of, frame_of, told

TIME = 120
SCRIPTS, LINES, LONGEST = 1000, 10, 4096
ROUNDS, PRESENCES, TRIES, RECEPTIONS = 4, 4, 4, 6
WORDS = {"P": "pass", "D": "damage", "L": "lose", "B": "break"}
ATR_REQ = bytes.fromhex("D400000102030405060708090000003246666D01011303020003")
MAGIC = bytes.fromhex("000000000000000000000000E11006000303D00000FE0000")
CONTAINER = bytes.fromhex("000F20003B00340406E104{:04X}0000".format(40))


class FieldLost(Exception):
    """A Break was used."""


class Bench:
    """Devices in a field, the fates to come, and the report so far."""

    def __init__(self):
        self.devices, self.fates, self.lines, self.number, self.links = [], [], [], 0, 0

    def say(self, text):
        self.lines.append(f"{self.number} {text}")

    def fate(self):
        return self.fates.pop(0) if self.fates else "P"

    def reset(self):
        self.say("! reset")
        for device in self.devices:
            device.dark()
            device.light()

    def lost(self):
        for device in self.devices:
            device.dark()
        raise FieldLost

    def turn(self, tech, frame):
        """Sends a frame: silence is None; else a whole answer, "damaged", or the bits that the answers have in common."""
        fate = self.fate()
        self.say(f"> {told(frame)} {WORDS[fate]}")
        if fate == "B":
            self.lost()
        answers = [it for device in self.devices if device.tech == tech and (it := device.hear(frame)) is not None] if fate == "P" else []
        if not answers:
            return None
        fate, alike = self.fate(), all(it == answers[0] for it in answers)
        shared = common([bits_of(it) for it in answers])
        self.say(f"{'<' if alike else '*'} {told(answers[0] if alike else frame_of(shared))} {WORDS[fate]}")
        if fate == "B":
            self.lost()
        return None if fate == "L" else "damaged" if fate == "D" else answers[0] if alike else shared

    def resolve(self):
        """The identifier that is selected; None where nobody is there, "disturbed" where a reception was bad."""
        for _ in range(PRESENCES):
            heard = self.turn("A", (b"\x26", 7))
            if heard is not None:
                break
        else:
            return None
        ident = b""
        for code in (0x93, 0x95, 0x97):
            known = []
            while len(known) < 40:
                heard = self.turn("A", sdd(code, known))
                if heard is None or heard == "damaged":
                    return "disturbed"
                known = known + (heard + [1] if isinstance(heard, list) else bits_of(heard))
            level = frame_of(known)[0]
            heard = self.turn("A", (bytes([code, 0x70]) + level, 0))
            if heard is None or heard == "damaged":
                return "disturbed"
            goes_on = heard[0][0] & 4
            ident += level[1:4] if goes_on else level[:4]
            if not goes_on:
                return ident
        raise AssertionError("a fourth level")

    def pick(self, wanted):
        """Selects an NFC-A device; else why not."""
        for _ in range(ROUNDS):
            self.reset()
            found = set()
            while True:
                ident = self.resolve()
                if ident is None:
                    return "not found"
                if ident == wanted:
                    return None
                if ident == "disturbed" or ident in found:
                    break
                found.add(ident)
                self.turn("A", (b"\x50\0", 0))
        return "disturbed"

    def pick_v(self, wanted):
        self.reset()
        for _ in range(TRIES):
            if self.turn("V", (b"\x26\x01\x40" + wanted[::-1], 0)) is not None:
                return None
        return "not found"

    def activate(self):
        """Opens a link to the peer that is selected; else by what it was lost."""
        request = (bytes([0xF0, len(ATR_REQ) + 1]) + ATR_REQ, 0)
        for _ in range(RECEPTIONS):
            heard = self.turn("A", request)
            if isinstance(heard, tuple):
                self.links += 1
                return None
        return "link ended six bad"

    def raw(self, ident, frames):
        try:
            fault = self.pick_v(ident) if len(ident) == 8 else self.pick(ident)
        except FieldLost:
            return "field lost"
        if fault is not None:
            return fault
        peer = next((it for it in self.devices if isinstance(it, Front) and it.ident == ident and isinstance(it.upper, Peer)), None)
        if peer is not None:
            try:
                fault = self.activate()
            except FieldLost:
                return "link ended field lost"
            if fault is not None:
                return fault
        self.now(self.links if peer is not None else 0)
        try:
            heard = [self.turn("V" if len(ident) == 8 else "A", frame) for frame in frames]
        except FieldLost:
            return "field lost"
        finally:
            self.now(0)
        return " ".join(["heard", *("silent" if it is None else "damaged" if it == "damaged" else "clash" if isinstance(it, list) else told(it) for it in heard)])

    def device(self, name):
        return next(it for it in self.devices if it.ident.hex().upper() == name)

    def now(self, link):
        """What a peer accepts from now on came on this link."""
        for device in self.devices:
            if isinstance(device, Front) and isinstance(device.upper, Peer):
                device.upper.link = link

    def obey(self, line):
        self.number += 1
        word, *rest = line.split(" ")
        self.say(self.answer(word, rest))

    def answer(self, word, rest):
        if word == "fates":
            self.fates += rest[0]
        elif word == "place":
            self.devices.append(made(rest))
        elif word == "lock":
            self.device(rest[0]).tag.locked.add(int(rest[1]))
        elif word == "offer":
            self.device(rest[0]).upper.offers[read_frame(rest[1])[0]] = read_frame(rest[2])[0]
        elif word == "dump":
            return f"store {self.device(rest[0]).tag.store.hex().upper()}"
        elif word == "inbox":
            inbox = sorted(self.device(rest[0]).upper.inbox, key=lambda told: told[0])
            texts = [f"{link}:{text}" if sap == 32 else f"{link}.{sap}:{text}" for link, sap, text in inbox]
            return " ".join([f"inbox {len(inbox)}", *texts])
        else:
            return self.raw(bytes.fromhex(rest[0]), [read_frame(it) for it in rest[1:]])
        return "ok"


def common(all_bits):
    """The first bits that all have."""
    shared = []
    for bits in zip(*all_bits):
        if len(set(bits)) > 1:
            break
        shared.append(bits[0])
    return shared


def sdd(code, known):
    whole, tail = divmod(len(known), 8)
    frame, last = frame_of(known)
    return bytes([code, (2 + whole) << 4 | tail]) + frame, last


def read_frame(word):
    digits, _, tail = word.partition("/")
    return (b"" if digits == "-" else bytes.fromhex(digits)), int(tail or 0)


def made(words):
    kind, ident = words[0], bytes.fromhex(words[1])
    if kind == "t5":
        return Light(ident, TypeFive(ident, int(words[3]), bytes.fromhex(words[4]).ljust(int(words[2]) * int(words[3]), b"\0")))
    if kind == "t2":
        return Front(ident, TypeTwo(bytes.fromhex(words[3]).ljust(4 * int(words[2]), b"\0")))
    if kind == "t4":
        container = bytes.fromhex(words[3])
        size = int.from_bytes(container[11:13], "big")
        return Front(ident, Card(int(words[2]), TypeFour(container, bytes.fromhex(words[4]).ljust(size, b"\0"))))
    return Front(ident, Peer(ident, *map(int, words[2:6])))


def random_frames(chance, ident, kind, idents):
    """Frames for a device of this kind, one behind the other; now and then one of another kind, or changed."""
    usual = {"t2": type_two, "t4": type_four, "peer": of_peer, "t5": of_tag_five}[kind]
    frames = [(b"\xe0\x80", 0)] if kind == "t4" and chance.random() < 0.9 else []
    for _ in range(chance.randrange(1, 17 - len(frames))):
        form = usual if kind == "t5" or chance.random() < 0.8 else chance.choice((type_two, type_four, of_peer, of_front, of_front, of_front))
        frames.append(changed(chance, form(chance, ident if chance.random() < 0.6 else chance.choice(idents), frames)))
    return frames


def changed(chance, sent):
    frame, tail = sent
    if chance.random() < 0.06 and frame:
        at = chance.randrange(len(frame))
        frame, tail = frame[:at] + bytes([chance.randrange(256)]) + frame[at + chance.randrange(2) :], 0
    if chance.random() < 0.03:
        tail = chance.randrange(1, 8)
        frame = (frame or b"\0")[:-1] + bytes([chance.randrange(1 << tail)])
    return frame[:288], tail


def of_front(chance, ident, _before):
    level = ident if len(ident) == 4 else b"\x88" + ident[:3]
    level += bytes([level[0] ^ level[1] ^ level[2] ^ level[3]])
    sent = sdd(0x93, bits_of((level, 0))[: chance.randrange(40)])
    return chance.choice(((b"\x26", 7), (b"\x52", 7), (b"\x52", 7), (b"\x50\0", 0), (b"\x93\x70" + level, 0), (b"\x93\x70" + level, 0), sent, (b"\x93\x20", 0), (b"", 0)))


def type_two(chance, _ident, _before):
    block = chance.randrange(20)
    return chance.choice(((bytes([0x30, block]), 0), (bytes([0xA2, block]) + chance.randbytes(4), 0)))


COMMANDS = ("00A4040007D276000085010100", "00A4040007D276000085010100", "00A4000C02E103", "00A4000C02E104", "00A4000C02E104", "00B0000005", "00B0000028", "00D600000200FF",
            "00D60005021234", "00B0002001", "00A4040003010203", "90B00000", "00")


def type_four(chance, _ident, _before):
    command = bytes.fromhex(chance.choice(COMMANDS)) if chance.random() < 0.85 else chance.randbytes(chance.choice((1, 4, 60, 130, 250)))
    block = bytes([chance.choice((2, 3, 2, 3, 2, 3, 0x12, 0x13))]) + command
    control = bytes([chance.choice((0xA2, 0xA3, 0xA2, 0xA3, 0xB2, 0xB3, 0xB2, 0xB3, 0xC2))])
    return chance.choice(((block, 0), (block, 0), (block, 0), (control, 0), (b"\xe0" + chance.randbytes(1), 0)))


# a CONNECT, a put and two more stand at places 1, 3, 5 and 7
PAYLOADS = tuple(bytes.fromhex(it) for it in ("112005010F", "1120", "1120", "132000100200000003D00000", "132000100200000003D00000", "13201010020000000101", "132021", "132021100200000000",
                                              "0000", "", "1121", "05210604", "1321001002000000021234", "13200010020000003CAA", "136000", "1360", "1320001001000000050000FFFF6B", "132000100100000005000000106B", "132000100100000004000000FF",
                                              "0080000211200010132000100200000003D00001", "0080000211200002112100021122"))


def of_peer(chance, _ident, before):
    """A request of NFC-DEP, whose number is most of the time the one that comes next."""
    general = chance.choice((b"", bytes.fromhex("46666D01011303020003"), bytes.fromhex("46666D010113"), bytes.fromhex("46666D010123"), b"\1\2\3"))
    request = b"\xd4\0" + bytes(10) + b"\0\0\0" + bytes([chance.choice((0, 0x10, 0x30)) | (2 if general else 0)]) + general
    taken = sum(it[2:4] == b"\xd4\6" and it[4] < 0x20 for it, _ in before if len(it) > 4)
    number = taken % 4 if chance.random() < 0.8 else chance.randrange(4)
    pfb = chance.choice((0, 0, 0, 0, 0, 0x10, 0x40, 0x40, 0x50, 0x80))
    content = PAYLOADS[1 + 2 * min(taken, 3)] if chance.random() < 0.6 else chance.choice(PAYLOADS)
    content = content if pfb in (0, 0x10) else b""
    body = b"\xd4\6" + bytes([pfb if pfb == 0x80 else pfb | number]) + content
    if chance.random() < 0.12:
        body = chance.choice((request, request, b"\xd4\x08", b"\xd4\x0a"))
    return bytes([0xF0, len(body) + 1]) + body, 0


def of_tag_five(chance, named, _before):
    to = chance.choice((b"\x22", b"\x02", b"\x02"))
    code = chance.choice((0x20, 0x20, 0x21, 0x23, 0x30, 0x31, 0x02, 0x01, 0x55))
    ident = named[::-1] if to == b"\x22" else b""
    block = bytes([chance.choice((0, 1, 2, 3, 4, 200))])
    rest = {0x20: block, 0x21: block + chance.randbytes(chance.choice((4, 4, 8, 0))), 0x23: block + bytes([chance.choice((0, 1, 2, 9))]), 0x30: block + b"\0",
            0x31: block + b"\0" + chance.randbytes(4)}.get(code, b"")
    if chance.random() < 0.15:
        rest = rest[:-1] if chance.random() < 0.5 else rest + b"\1"
    mask_bits = chance.choice((0, 0, 4, 8, 12, 61, 64, 70))
    mask = named[::-1][: -(-mask_bits // 8)]
    if mask_bits % 8 and mask and chance.random() < 0.9:
        mask = mask[:-1] + bytes([mask[-1] & (1 << mask_bits % 8) - 1])
    inventory = chance.choice((b"\x26\1", b"\x06\1", b"\x06\1")) + bytes([mask_bits]) + mask
    return chance.choice(((to + bytes([code]) + ident + rest, 0), (to + bytes([code]) + ident + rest, 0), (to + bytes([code]) + ident + rest, 0), (inventory, 0), (b"", 0), (b"", 0), (b"", 0),
                          (chance.randbytes(3), 0), (bytes([1]), chance.randrange(1, 8))))


def random_script(chance):
    near = chance.randbytes(3)
    a = [bytes([at]) + near if chance.random() < 0.5 else bytes([at]) + chance.randbytes(6) for at in chance.sample(range(1, 120), 4)]
    a = [it if len(it) == 4 or it[3] != 0x88 else it[:3] + b"\1" + it[4:] for it in a]
    v = [chance.randbytes(6) + bytes([chance.choice((5, 6, 0x15)), chance.choice((6, 7, 0x16))]) for _ in range(3)]
    v = list(dict.fromkeys(v))
    lines, stores, peers, placed = [], [], [], []
    kinds = chance.sample(("t2", "t2", "t4", "t4", "peer"), chance.randrange(1, 5))
    for ident, kind in zip(a, kinds):
        name = ident.hex().upper()
        if kind == "t2":
            lines.append(f"place t2 {name} 16 {MAGIC.hex().upper()}")
        elif kind == "t4":
            lines.append(f"place t4 {name} {chance.choice((0, 2, 5, 8))} {CONTAINER.hex().upper()} 0003D00000")
        else:
            lines.append(f"place peer {name} {chance.randrange(4)} {chance.choice((128, 128, 300))} {chance.choice((1, 1, 4))} 1024")
            if chance.random() < 0.5:
                lines.append(f"offer {name} 6B {chance.randbytes(chance.choice((0, 5, 100))).hex().upper() or '-'}")
        (peers if kind == "peer" else stores).append(name)
        placed.append((ident, kind))
    for ident in v[: chance.randrange(4)]:
        lines.append(f"place t5 {ident.hex().upper()} 4 {chance.choice((4, 4, 8))} E1400100")
        stores.append(ident.hex().upper())
        placed.append((ident, "t5"))
        if chance.random() < 0.3:
            lines.append(f"lock {ident.hex().upper()} {chance.randrange(4)}")
    for _ in range(LINES):
        if chance.random() < 0.3:
            noise = chance.choice(("PPPPPPPPPPD", "PPPPPPPL", "PPPPPPPPPPPPPPPPPPPPPB", "DL", "PPLPD"))
            lines.append("fates " + "".join(chance.choice(noise) for _ in range(chance.randrange(1, 40))))
        ident, kind = chance.choice(placed) if placed and chance.random() < 0.93 else (chance.choice(a), "t2")
        frames = random_frames(chance, ident, kind, v if kind == "t5" else a)
        while len(line := " ".join([f"raw {ident.hex().upper()}", *map(told, frames)])) > LONGEST:
            frames.pop()
        lines.append(line)
        if stores and chance.random() < 0.3:
            lines.append(f"dump {chance.choice(stores)}")
        if peers and chance.random() < 0.3:
            lines.append(f"inbox {peers[0]}")
    return lines


def main():
    program, chance, wrong, total = str(Path(sys.argv[1]).resolve()), random.Random(59), 0, 0
    for _ in range(int(sys.argv[2]) if len(sys.argv) > 2 else SCRIPTS):
        lines, bench = random_script(chance), Bench()
        for line in lines:
            bench.obey(line)
        ran = subprocess.run([program, "run"], input="\n".join(lines).encode(), stdout=subprocess.PIPE, timeout=TIME, check=False)
        total += sum(line.startswith("raw ") for line in lines)
        wanted = "".join(f"{it}\n" for it in bench.lines)
        if (ran.returncode, ran.stdout.decode()) != (0, wanted):
            wrong += 1
            got = ran.stdout.decode().split("\n")
            at = next((i for i, (a, b) in enumerate(zip(got, wanted.split("\n"))) if a != b), 0)
            if wrong <= 3:
                print("another report:", *lines, f"told: {got[at]}", f"foretold: {wanted.split(chr(10))[at]}", sep="\n  ")
    print(f"raws: {total} lines of frames written by hand, {wrong} reports other than foretold")
    return 1 if wrong else 0


if __name__ == "__main__":
    sys.exit(main())
