#!/usr/bin/env python3
"""Payloads by hand, at random, against a plain reading of LLCP's and SNEP's tables: what each is answered, and what the peer accepts.

    forges.py PROGRAM [LINES]

Each line is a link of its own: payloads that begin as a client's do, most of them with a byte changed, left out or put in. The tables are written here
once more, in the plainest way, and know nothing of the proved code. On quiet air the reports have to agree, and the program ends with 0.
"""

import random
import subprocess
import sys

ID, MIU, LIMIT, MOST_ANSWERS, SAP, NAME = "08010203", 128, 1024, 16, 4, b"urn:nfc:sn:snep"
AGF, UI, CONNECT, DISC, CC, DM, FRMR, SNL, INFO, RR, RNR = 2, 3, 4, 5, 6, 7, 8, 9, 12, 13, 14
LENGTHS = {1: 1, 2: 2, 3: 2, 4: 1, 5: 1, 7: 1, 9: 2}


def header(dsap, kind, ssap):
    return bytes([dsap << 2 | kind >> 2, (kind & 3) << 6 | ssap])


def parameters(content):
    """The parameters of a PDU; none where one is wrong."""
    found, at = [], 0
    while at < len(content):
        if at + 2 > len(content) or at + 2 + content[at + 1] > len(content):
            return None
        kind, value = content[at], content[at + 2 : at + 2 + content[at + 1]]
        if len(value) != LENGTHS.get(kind, len(value)) or (kind == 8 and not value):
            return None
        found.append((kind, value))
        at += 2 + len(value)
    return found


def is_right(kind, content):
    """Whether what stands behind a header is of its PDU."""
    sizes = {0: (0, 0), DISC: (0, 0), DM: (1, 1), FRMR: (4, 4), RR: (1, 1), RNR: (1, 1), INFO: (1, 9999), UI: (0, 9999)}
    if kind in (CONNECT, CC, SNL):
        return parameters(content) is not None
    least, most = sizes.get(kind, (1, 0))
    return least <= len(content) <= most


def parsed(pdu):
    """A PDU that is no AGF as its kind, SAPs and content, and whether it is well formed."""
    if len(pdu) < 2:
        return None
    dsap, kind, ssap, content = pdu[0] >> 2, (pdu[0] & 3) << 2 | pdu[1] >> 6, pdu[1] & 63, pdu[2:]
    right_saps = (dsap, ssap) == {0: (0, 0), AGF: (0, 0), SNL: (1, 1)}.get(kind, (dsap, ssap))
    return kind, dsap, ssap, content, right_saps and is_right(kind, content)


def inner_of(content):
    """The PDUs of an AGF; none where one of them is wrong."""
    found, at = [], 0
    while at < len(content):
        size = int.from_bytes(content[at : at + 2], "big")
        pdu = content[at + 2 : at + 2 + size]
        told = parsed(pdu)
        if at + 2 > len(content) or len(pdu) != size or told is None or told[0] == AGF or not told[4]:
            return None
        found.append(told)
        at += 2 + size
    return found


class Session:
    """The server's side of one connection."""

    def __init__(self, accepted, limit, offers):
        self.accepted, self.limit, self.offers, self.out, self.waits, self.asked, self.got = accepted, limit, offers, [], [], None, b""

    def unit(self, unit):
        if self.asked is not None:
            self.got += unit
        else:
            self.first(unit)
        if self.asked is not None:
            self.gathered()

    def first(self, unit):
        code, length, info = (unit[1:2] or b"\0")[0], int.from_bytes(unit[2:6], "big"), unit[6:]
        is_continue = code == 0 and len(unit) >= 6 and unit[0] >> 4 == 1 and length == 0 and not info and bool(self.waits)
        if is_continue:
            self.out, self.waits = self.out + self.waits, []
            return
        self.waits = []
        if len(unit) < 6:
            self.say(0xC2)
        elif unit[0] >> 4 != 1:
            self.say(0xE1)
        elif code not in (0, 1, 2, 0x7F):
            self.say(0xE0)
        elif (code == 1 and length < 4) or (code in (0, 0x7F) and length):
            self.say(0xC2)
        elif (code == 2 and length > self.limit) or (code == 1 and length - 4 > self.limit):
            self.say(0xFF)
        elif len(info) > length or code == 0:
            self.say(0xC2)
        elif code != 0x7F:
            self.asked, self.got = (code, length), info
            if len(info) < length:
                self.say(0x80)

    def gathered(self):
        code, length = self.asked
        if len(self.got) > length:
            self.say(0xC2)
        elif len(self.got) == length:
            if code == 2:
                self.say(0x81)
                self.accepted(self.got)
            else:
                self.give(int.from_bytes(self.got[:4], "big"), self.got[4:])
        else:
            return
        self.asked = None

    def give(self, most, key):
        """The value of a key, where it is one of at most so many bytes; with its head it fits into one unit here."""
        value = self.offers.get(key)
        if value is None or len(value) > most:
            self.say(0xE0 if not self.offers else 0xC0 if value is None else 0xC1)
        else:
            self.out.append(bytes([0x10, 0x81]) + len(value).to_bytes(4, "big") + value)

    def say(self, code):
        self.out.append(bytes([0x10, code, 0, 0, 0, 0]))


class Connection:
    def __init__(self, window, session):
        self.window, self.session, self.stopped = window, session, False
        self.vs = self.vsa = self.vr = self.vra = 0


class End:
    """The peer's end of a link, with its MIU and window and the limit of its server."""

    def __init__(self, accepted, miu=MIU, window=1, limit=LIMIT, offers=()):
        self.accepted, self.miu, self.limit, self.offers, self.queue, self.open, self.last = accepted, miu, limit, dict(offers), [], {}, None
        self.told = b"" if miu == 128 else b"\2\2" + (miu - 128).to_bytes(2, "big")
        self.told += b"" if window == 1 else bytes([5, 1, window])

    def answer(self, pdu):
        if len(self.queue) < MOST_ANSWERS:
            self.queue.append(pdu)

    def take(self, payload):
        told = parsed(payload)
        if told is None:
            return
        kind, dsap, ssap, content, right = told
        if kind == AGF and (dsap, ssap) == (0, 0):
            for one in inner_of(content) or []:
                self.obey(*one[:4])
        elif right:
            self.obey(kind, dsap, ssap, content)
        elif kind in (INFO, RR, RNR, DISC) and dsap == SAP and ssap in self.open:
            self.report(ssap, kind, 0x80, content[0] if content and kind != DISC else 0)

    def report(self, ssap, kind, flags, sequence):
        c = self.open.pop(ssap)
        self.answer(header(ssap, FRMR, SAP) + bytes([flags | kind, sequence, c.vs << 4 | c.vr, c.vsa << 4 | c.vra]))

    def obey(self, kind, dsap, ssap, content):
        if kind == CONNECT and len(self.queue) < MOST_ANSWERS:
            self.connect(dsap, ssap, dict(parameters(content)))
        elif kind == SNL:
            self.names(parameters(content))
        elif kind == FRMR and dsap == SAP:
            self.open.pop(ssap, None)
        elif kind in (DISC, INFO, RR, RNR):
            if dsap != SAP or ssap not in self.open:
                self.answer(header(ssap, DM, dsap) + b"\x01")
            elif kind == DISC:
                self.open.pop(ssap)
                self.answer(header(ssap, DM, SAP) + b"\0")
            else:
                self.numbered(kind, ssap, content)

    def connect(self, dsap, ssap, told):
        window = told.get(5, b"\x01")[0] & 15
        if window == 0:
            self.answer(header(ssap, DM, dsap) + b"\x03")
        elif dsap != SAP and not (dsap == 1 and told.get(6) == NAME):
            self.answer(header(ssap, DM, dsap) + b"\x02")
        elif ssap in self.open or len(self.open) == 8:
            self.answer(header(ssap, DM, SAP) + b"\x20")
        else:
            self.open[ssap] = Connection(window, Session(lambda message: self.accepted(ssap, message), self.limit, self.offers))
            self.answer(header(ssap, CC, SAP) + self.told)

    def names(self, told):
        known = {b"urn:nfc:sn:sdp": 1, NAME: SAP}
        asked = [value for kind, value in told if kind == 8][: MIU // 4]
        if asked:
            self.answer(header(1, SNL, 1) + b"".join(bytes([9, 2, value[0], known.get(value[1:], 0)]) for value in asked))

    def numbered(self, kind, ssap, content):
        c, nr, ns, unit = self.open[ssap], content[0] & 15, content[0] >> 4, content[1:]
        sequence = content[0] if kind == INFO else nr
        if kind == INFO and len(unit) > self.miu:
            return self.report(ssap, kind, 0x40, sequence)
        if (nr - c.vsa) % 16 > (c.vs - c.vsa) % 16:
            return self.report(ssap, kind, 0x20, sequence)
        if kind == INFO and ns != c.vr:
            return self.report(ssap, kind, 0x10, sequence)
        c.vsa = nr
        if kind == INFO:
            c.vr = (c.vr + 1) % 16
            c.session.unit(unit)
        else:
            c.stopped = kind == RNR

    def circle(self):
        order = sorted(self.open)
        cut = [s for s in order if self.last is not None and s > self.last]
        return cut + [s for s in order if s not in cut]

    def next(self):
        """The PDU that goes next; none where nothing does."""
        if self.queue:
            return self.queue.pop(0)
        for ssap in self.circle():
            c = self.open[ssap]
            if c.session.out and not c.stopped and (c.vs - c.vsa) % 16 < c.window:
                self.last, c.vra = ssap, c.vr
                pdu = header(ssap, INFO, SAP) + bytes([c.vs << 4 | c.vr]) + c.session.out.pop(0)
                c.vs = (c.vs + 1) % 16
                return pdu
        for ssap in self.circle():
            c = self.open[ssap]
            if c.vra != c.vr:
                self.last, c.vra = ssap, c.vr
                return header(ssap, RR, SAP) + bytes([c.vr])
        return None


class Replies:
    """The replies of an end, which joins as many PDUs as fit; one that doesn't fit waits for the next payload."""

    def __init__(self, end):
        self.end, self.kept = end, []

    def reply(self, payload):
        self.end.take(payload)
        joined, size = [], 0
        while True:
            pdu = self.kept.pop(0) if self.kept else self.end.next()
            if pdu is None:
                break
            if joined and size + 2 + len(pdu) > MIU:
                self.kept.append(pdu)
                break
            joined.append(pdu)
            size += 2 + len(pdu)
        if len(joined) > 1:
            return b"\0\x80" + b"".join(len(pdu).to_bytes(2, "big") + pdu for pdu in joined)
        return joined[0] if joined else b"\0\0"


def replies(payloads, accepted):
    """The reply to each payload."""
    end = Replies(End(accepted))
    return [end.reply(payload) for payload in payloads]


def usual(chance):
    """Payloads as a client sends them, over one or two connections, which may be joined."""
    saps = chance.sample(range(32, 40), chance.choice((1, 1, 2)))
    found = [header(SAP, CONNECT, sap) + chance.choice((b"", b"", b"\5\1\2", b"\2\2\0\x10")) for sap in saps]
    sent = {sap: 0 for sap in saps}
    for _ in range(chance.randrange(6)):
        sap = chance.choice(saps)
        message = chance.randbytes(chance.choice((0, 1, 5, 40)))
        unit = chance.choice((b"\x10\2", b"\x10\2", b"\x10\1", b"\x10\0", b"\x10\x7f", b"\x20\2", b"\x10\3")) + len(message).to_bytes(4, "big") + message
        found.append(header(SAP, INFO, sap) + bytes([sent[sap] % 16 << 4 | max(0, sent[sap] - chance.randrange(2)) % 16]) + unit)
        sent[sap] += 1
    more = (b"\0\0", header(1, SNL, 1) + b"\x08\x10\x07" + NAME, header(SAP, DISC, saps[0]), header(SAP, RR, saps[0]) + b"\1", header(SAP, RNR, saps[0]) + b"\1")
    found += chance.sample(more, chance.randrange(3))
    if chance.random() < 0.2:
        found = [b"\0\x80" + b"".join(len(pdu).to_bytes(2, "big") + pdu for pdu in found)]
    return found[:16]


def changed(chance, payload):
    at = chance.randrange(len(payload))
    way = chance.randrange(4)
    if way == 0:
        return payload
    if way == 1:
        return payload[:at] + bytes([chance.choice((payload[at] ^ 1 << chance.randrange(8), chance.randrange(256)))]) + payload[at + 1 :]
    return (payload[:at] + payload[at + 1 :] if way == 2 else payload[:at] + chance.randbytes(1) + payload[at:]) or b"\0"


def compare(program, seed, count):
    """So many lines: how many have another reply, and whether what was accepted and the status are right."""
    chance = random.Random(seed)
    lines, wanted, accepted = [f"place peer {ID} 3 {MIU} 1 {LIMIT}"], ["ok"], []
    for link in range(1, count + 1):
        payloads = [changed(chance, payload) for payload in usual(chance)]
        lines.append(f"forge {ID} " + " ".join(payload.hex().upper() for payload in payloads))
        told = replies(payloads, lambda sap, message: accepted.append((link, sap, message.hex().upper() or "-")))
        wanted.append("heard " + " ".join(reply.hex().upper() for reply in told))
    lines.append(f"inbox {ID}")
    texts = [f"{link}:{text}" if sap == 32 else f"{link}.{sap}:{text}" for link, sap, text in accepted]
    wanted.append(" ".join([f"inbox {len(accepted)}", *texts]))
    ran = subprocess.run([program, "run", "quiet"], input="\n".join(lines).encode(), capture_output=True)
    report = [line.partition(" ")[2] for line in ran.stdout.decode().split("\n")[:-1]]
    wrong = [at for at, pair in enumerate(zip(report, wanted)) if pair[0] != pair[1]]
    for at in wrong[:3]:
        print(f"forges: seed {seed}\n  {lines[at]}\n  told   {report[at]}\n  wanted {wanted[at]}")
    return len(wrong) + (ran.returncode != 0) + (len(report) != len(wanted))


def main():
    program, lines = sys.argv[1], int(sys.argv[2]) if len(sys.argv) > 2 else 5000
    wrong = sum(compare(program, seed, 500) for seed in range((lines + 499) // 500))
    print(f"forges: {lines} lines, {wrong} wrong")
    return 1 if wrong else 0


if __name__ == "__main__":
    sys.exit(main())
