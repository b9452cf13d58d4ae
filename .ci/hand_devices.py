"""Devices by a plain reading of their tables, for what frames written by hand do (`raws.py`): a frame is its bytes and its tail.

The listener front, Type 2, Type 4 over ISO-DEP and Type 5 tags, and a peer's target of NFC-DEP; the end above it is that of `forges.py`.
"""

from forges import End, Replies

ISO_SIZES = (16, 24, 32, 40, 48, 64, 96, 128, 256)
DEP_SIZES = (64, 128, 192, 254)
NAME = bytes.fromhex("D2760000850101")
LONGEST_COMMAND, LONGEST_PAYLOAD, MOST_GENERAL = 264, 2178, 48


def bits_of(frame):
    """The bits in the order in which they are sent, lowest of each byte first."""
    content, tail = frame
    bits = [byte >> at & 1 for byte in content for at in range(8)]
    return bits[: len(bits) - 8 + tail] if tail else bits


def frame_of(bits):
    content = bytes(sum(bit << at for at, bit in enumerate(bits[first : first + 8])) for first in range(0, len(bits), 8))
    return content, len(bits) % 8


def told(frame):
    """A frame as a report writes it."""
    return (frame[0].hex().upper() or "-") + (f"/{frame[1]}" if frame[1] else "")


def whole(content):
    return content, 0


class Front:
    """An NFC-A device: what it answers until it is selected, and the machine above from then on."""

    tech = "A"

    def __init__(self, ident, upper):
        self.ident, self.upper, self.state, self.starred, self.level = ident, upper, "off", False, 0
        cut = [ident[at : at + 3] for at in range(0, len(ident) - 4, 3)]
        four = [b"\x88" + part for part in cut] + [ident[-4:]]
        self.levels = [it + bytes([it[0] ^ it[1] ^ it[2] ^ it[3]]) for it in four]

    @property
    def tag(self):
        return self.upper.tag

    def light(self):
        self.state, self.starred = "idle", False

    def dark(self):
        self.state, self.starred = "off", False
        self.upper.clear()

    def go(self, state):
        if self.state == "active":
            self.upper.clear()
        self.state = state

    def go_home(self):
        self.go("sleep" if self.starred else "idle")

    def hear(self, frame):
        if self.state in ("idle", "sleep"):
            return self.called(frame)
        if self.state == "ready":
            return self.asked(frame)
        if self.state == "active":
            return self.selected(frame)
        return None

    def called(self, frame):
        if frame == (b"\x52", 7) or (frame == (b"\x26", 7) and self.state == "idle"):
            self.starred, self.state, self.level = self.state == "sleep", "ready", 0
            return whole((b"\4\0", b"\x44\0", b"\x84\0")[len(self.levels) - 1])
        return None

    def asked(self, frame):
        level, code, bits = self.levels[self.level], bytes([0x93 + 2 * self.level]), bits_of(frame)
        if frame == whole(code + b"\x70" + level):
            self.level += 1
            if self.level < len(self.levels):
                return whole(b"\4")
            self.state = "active"
            return whole(bytes([self.upper.sel_res]))
        content = bits_of(whole(level))
        if frame[0][:1] == code and 16 <= len(bits) < 56:
            high, low = divmod(len(bits) - 16, 8)
            if frame[0][1] == (high + 2) << 4 | low and content[: len(bits) - 16] == bits[16:]:
                return frame_of(content[len(bits) - 16 :])
        self.go_home()
        return None

    def selected(self, frame):
        if self.upper.is_own(frame):
            answer, then = self.upper.hear(frame[0]) if frame[1] == 0 else (None, "active")
            if then != "active":
                self.go(then)
            return answer
        if frame == whole(b"\x50\0"):
            self.go("sleep")
        else:
            self.go_home()
        return None


class TypeTwo:
    sel_res = 0

    def __init__(self, store):
        self.store, self.locked, self.tag = store, set(), self

    def clear(self):
        """Nothing of it is volatile."""

    def is_own(self, frame):
        content, tail = frame
        return tail == 0 and (len(content), content[:1]) in ((2, b"\x30"), (6, b"\xa2"))

    def hear(self, content):
        blocks, block = len(self.store) // 4, content[1]
        if content[0] == 0x30:
            doubled = self.store + self.store
            return (whole(doubled[4 * block : 4 * block + 16]) if block < blocks else (b"\0", 4)), "active"
        if not 4 <= block < blocks or block in self.locked:
            return (b"\0", 4), "active"
        self.store = self.store[: 4 * block] + content[2:] + self.store[4 * block + 4 :]
        return (b"\x0a", 4), "active"


class TypeFour:
    """The files, and what is selected."""

    def __init__(self, container, store):
        self.container, self.store = container, store
        self.clear()

    def clear(self):
        self.application, self.current = False, None

    def obey(self, command):
        if len(command) < 4:
            return b"\x67\0"
        if command[0] != 0:
            return b"\x6e\0"
        act = {0xA4: self.select, 0xB0: self.read, 0xD6: self.update}.get(command[1])
        return b"\x6d\0" if act is None else act(command)

    def select(self, command):
        given = command[4] if len(command) > 4 else 0
        if given == 0 or len(command) not in (5 + given, 6 + given):
            return b"\x67\0"
        name = command[5 : 5 + given]
        if command[2:4] == b"\4\0":
            if name != NAME:
                return b"\x6a\x82"
            self.application, self.current = True, None
            return b"\x90\0"
        if command[2:4] != b"\0\x0c":
            return b"\x6b\0"
        if given != 2:
            return b"\x67\0"
        if not self.application or name not in (b"\xe1\3", self.container[9:11]):
            return b"\x6a\x82"
        self.current = "container" if name == b"\xe1\3" else "file"
        return b"\x90\0"

    def read(self, command):
        if len(command) != 5:
            return b"\x67\0"
        if self.current is None:
            return b"\x6a\x82"
        least, offset = command[4] or 256, int.from_bytes(command[2:4], "big")
        if self.current == "file" and self.container[13] != 0:
            return b"\x69\x82"
        if self.current == "file" and least > int.from_bytes(self.container[3:5], "big"):
            return b"\x67\0"
        content = self.container if self.current == "container" else self.store
        if offset >= 0x8000 or offset >= len(content):
            return b"\x6b\0"
        return content[offset : offset + least] + b"\x90\0"

    def update(self, command):
        given = command[4] if len(command) > 4 else 0
        if given == 0 or len(command) != 5 + given:
            return b"\x67\0"
        if self.current is None:
            return b"\x6a\x82"
        if self.current == "container" or self.container[14] != 0:
            return b"\x69\x82"
        if given > int.from_bytes(self.container[5:7], "big"):
            return b"\x67\0"
        offset = int.from_bytes(command[2:4], "big")
        if offset >= 0x8000 or offset + given > len(self.store):
            return b"\x6b\0"
        self.store = self.store[:offset] + command[5:] + self.store[offset + given :]
        return b"\x90\0"


class Card:
    """The card's end of ISO-DEP over a Type 4 tag."""

    sel_res = 0x20

    def __init__(self, code, tag):
        self.code, self.tag = code, tag
        self.clear()

    def clear(self):
        self.tag.clear()
        self.size, self.begun, self.dead, self.number, self.chain, self.pieces, self.last = None, False, False, 1, b"", [], None

    def is_own(self, frame):
        content, tail = frame
        return self.size is not None or (tail == 0 and len(content) == 2 and content[0] == 0xE0)

    def say(self, block):
        self.last = block
        return whole(block), "active"

    def next_piece(self):
        content = self.pieces.pop(0)
        return self.say(bytes([2 | self.number | (0x10 if self.pieces else 0)]) + content)

    def hear(self, block):
        if self.dead:
            return None, "active"
        if len(block) == 2 and block[0] == 0xE0 and not self.begun:
            self.size = ISO_SIZES[min(block[1] >> 4, 8)]
            return whole(bytes([2, self.code])), "active"
        first = block[0] if block else 0
        if block and first & 0xEE == 2:
            return self.information(block)
        if len(block) != 1:
            return None, "active"
        if first == 0xC2:
            return whole(block), "sleep"
        if first & 0xEE != 0xA2 and first & 0xFE != 0xB2:
            return None, "active"
        if first & 1 == self.number:
            return (None if self.last is None else whole(self.last)), "active"
        if first & 0xF0 == 0xB0:
            return whole(bytes([0xA2 | self.number])), "active"
        if self.pieces:
            self.number ^= 1
            return self.next_piece()
        return None, "active"

    def information(self, block):
        self.begun = True
        self.chain += block[1:]
        if len(self.chain) > LONGEST_COMMAND:
            self.dead = True
            return None, "active"
        self.number ^= 1
        if block[0] & 0x10:
            return self.say(bytes([0xA2 | self.number]))
        command, self.chain = self.chain, b""
        reply, room = self.tag.obey(command), self.size - 3
        self.pieces = [reply[at : at + room] for at in range(0, len(reply), room)]
        return self.next_piece()


class Peer:
    """A peer's target of NFC-DEP."""

    sel_res = 0x40

    def __init__(self, ident, code, miu, window, limit):
        self.ident, self.code, self.end, self.link, self.inbox, self.offers = ident, code, (miu, window, limit), 0, [], {}
        self.told = b"Ffm\1\1\x13" + (b"" if miu == 128 else b"\2\2" + (miu - 128).to_bytes(2, "big")) + b"\3\2\0\x13"
        self.clear()

    def clear(self):
        self.size, self.far = None, None

    def is_own(self, frame):
        content, tail = frame
        return self.size is not None or (tail == 0 and self.general(content) is not None)

    def general(self, content):
        """The general bytes of a well-formed ATR_REQ, and the size of the frames that it takes."""
        if not 18 <= len(content) <= 18 + MOST_GENERAL or content[0] != 0xF0 or content[1] != len(content) - 1 or content[2:4] != b"\xd4\0":
            return None
        did, options, general = content[14], content[17], content[18:]
        if did != 0 or options & ~0x32 or (general and not options & 2):
            return None
        return general, DEP_SIZES[options >> 4 & 3]

    def hear(self, content):
        begun = self.general(content)
        if begun is not None:
            return self.begin(*begun), "active"
        if self.dead or len(content) < 4 or content[0] != 0xF0 or content[1] != len(content) - 1:
            return None, "active"
        body = content[2:]
        if body in (b"\xd4\x08", b"\xd4\x0a"):
            return self.framed(bytes([0xD5, body[1] + 1])), "sleep" if body[1] == 8 else "idle"
        if body[:2] != b"\xd4\6" or len(body) < 3:
            return None, "active"
        return self.requested(body[2], body[3:]), "active"

    def begin(self, general, size):
        self.size, self.expected, self.chain, self.pieces, self.last, self.dead = size, 0, b"", [], None, False
        self.far = Replies(End(self.accepted, *self.end, self.offers)) if is_readable(general) else None
        return self.framed(b"\xd5\1" + self.ident.ljust(10, b"\0")[:10] + bytes([0, 0, 0, 8, self.code << 4 | 2]) + self.told)

    def accepted(self, sap, message):
        self.inbox.append((self.link, sap, message.hex().upper() or "-"))

    def framed(self, body):
        return whole(bytes([0xF0, len(body) + 1]) + body)

    def say(self, pfb, content=b""):
        self.last = self.framed(b"\xd5\7" + bytes([pfb]) + content)
        return self.last

    def next_piece(self, number):
        content = self.pieces.pop(0)
        return self.say(number | (0x10 if self.pieces else 0), content)

    def requested(self, pfb, content):
        if pfb == 0x80 and not content:
            return self.framed(b"\xd5\7\x80")
        number, kind = pfb & 3, pfb & 0xFC
        if kind not in (0, 0x10, 0x40, 0x50) or (kind >= 0x40 and content):
            return None
        if self.last is not None and number == (self.expected - 1) % 4:
            return self.last
        if number != self.expected or kind == 0x50:
            return None
        if kind == 0x40:
            if not self.pieces:
                return None
            self.expected = (number + 1) % 4
            return self.next_piece(number)
        self.chain += content
        if len(self.chain) > LONGEST_PAYLOAD:
            self.dead = True
            return None
        self.expected = (number + 1) % 4
        if kind == 0x10:
            return self.say(0x40 | number)
        payload, self.chain = self.chain, b""
        reply, room = b"" if self.far is None else self.far.reply(payload), self.size - 3
        self.pieces = [reply[at : at + room] for at in range(0, len(reply), room)] or [b""]
        return self.next_piece(number)


def is_readable(general):
    """Whether general bytes have the magic and a list of parameters with a version of this one's major."""
    if general[:3] != b"Ffm":
        return False
    at, version = 3, None
    while at < len(general):
        size = general[at + 1] if at + 1 < len(general) else 256
        value = general[at + 2 : at + 2 + size]
        if len(value) != size or size != {1: 1, 2: 2, 3: 2, 4: 1, 7: 1}.get(general[at], size):
            return False
        version = value[0] if general[at] == 1 else version
        at += 2 + size
    return version is not None and version >> 4 == 1


class Light:
    """A tag of NFC-V, which light alone selects."""

    tech = "V"

    def __init__(self, ident, tag):
        self.ident, self.tag, self.lit = ident, tag, False

    def light(self):
        self.lit = True

    def dark(self):
        self.lit = False
        self.tag.clear()

    def hear(self, frame):
        return self.tag.hear(frame[0]) if self.lit and frame[1] == 0 else None


class TypeFive:
    def __init__(self, ident, size, store):
        self.ident, self.size, self.store, self.locked = ident, size, store, set()
        self.clear()

    def clear(self):
        self.quiet, self.slot, self.now = False, None, 0

    def present(self):
        return whole(b"\0\0" + self.ident[::-1])

    def hear(self, content):
        if not content:
            return self.next_slot()
        self.slot = None
        if content[0] in (0x26, 6):
            return self.inventory(content)
        if content[0] == 2 and not self.quiet:
            return self.command(content[1:])
        if content[0] == 0x22 and content[2:10] == self.ident[::-1]:
            if content[1] == 2 and len(content) == 10:
                self.quiet = True
                return None
            return self.command(content[1:2] + content[10:])
        return None

    def next_slot(self):
        if self.slot is None or self.now == 15:
            self.slot = None
            return None
        self.now += 1
        return self.present() if self.now == self.slot else None

    def inventory(self, content):
        most = 64 if content[0] == 0x26 else 60
        if content[1:2] != b"\1" or len(content) < 3 or content[2] > most or len(content) != 3 + -(-content[2] // 8):
            return None
        mask, own = int.from_bytes(content[3:], "little"), int.from_bytes(self.ident, "big")
        if self.quiet or mask >> content[2] or own & (1 << content[2]) - 1 != mask:
            return None
        if content[0] == 0x26:
            return self.present()
        self.slot, self.now = own >> content[2] & 15, 0
        return self.present() if self.slot == 0 else None

    def command(self, given):
        code, rest, blocks = given[:1], given[1:], len(self.store) // self.size
        wide = 2 if code in (b"\x30", b"\x31") else 1
        block, content = int.from_bytes(rest[:wide], "little"), rest[wide:]
        if code in (b"\x20", b"\x30") and len(rest) == wide:
            return self.read(block, 1) if block < blocks else whole(b"\1\x10")
        if code == b"\x23" and len(rest) == 2:
            return self.many(block, rest[1], blocks)
        if code in (b"\x21", b"\x31") and len(rest) >= wide:
            return self.write(block, content, blocks)
        return whole(b"\1\x0f")

    def read(self, block, count):
        return whole(b"\0" + self.store[self.size * block : self.size * (block + count)])

    def many(self, block, more, blocks):
        if block + more >= blocks:
            return whole(b"\1\x10")
        return self.read(block, more + 1) if (more + 1) * self.size <= 256 else whole(b"\1\x0f")

    def write(self, block, content, blocks):
        if block >= blocks:
            return whole(b"\1\x10")
        if len(content) != self.size:
            return whole(b"\1\x0f")
        if block in self.locked:
            return whole(b"\1\x12")
        self.store = self.store[: self.size * block] + content + self.store[self.size * (block + 1) :]
        return whole(b"\0")
