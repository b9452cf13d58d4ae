"""What a tag holds while it is written: the old message, the empty one or the new one (docs/writing.md).

It is read off the report alone: off the blocks that came back before, and off the writes that the tag acknowledged. An
acknowledgement tells of the tag whatever became of it on the way to the reader.
"""

from __future__ import annotations

from frames import type2, type5
from frames.entries import Event
from frames.iso_dep import IsoDep
from frames.type2 import Type2
from frames.type5 import Type5
from page.areas import Memory, message_t2, message_t5

OLD, EMPTY, NEW = "old", "empty", "new"
ACKNOWLEDGED_T4 = bytes.fromhex("9000")
SELECT_FILE, READ_BINARY, UPDATE_BINARY = bytes.fromhex("00A4000C"), bytes.fromhex("00B0"), bytes.fromhex("00D6")
CONTAINER_FILE = bytes.fromhex("E103")
T5_WRITES = (type5.WRITE_SINGLE, type5.WRITE_WIDE)
T5_READS = (type5.READ_SINGLE, type5.READ_MULTIPLE, type5.READ_WIDE)


class Blocks:
    """A Type 2 or Type 5 tag's memory, and the write that waits for its acknowledgement."""

    def __init__(self) -> None:
        self.memory = Memory()
        self.asked = b""
        self.first: bytes | None = None
        self.has_begun = False

    def message(self) -> bytes | None:
        raise NotImplementedError

    def is_write(self) -> bool:
        raise NotImplementedError

    def is_done(self, answer: bytes) -> bool:
        raise NotImplementedError

    def written(self) -> None:
        raise NotImplementedError

    def read(self, answer: bytes) -> None:
        raise NotImplementedError

    def request(self, event: Event) -> str:
        """The state before the first write, and at one that doesn't arrive. What comes back tells all others."""
        self.asked = event.frame.data
        if not self.is_write():
            return ""
        is_first = not self.has_begun
        if is_first:
            self.first, self.has_begun = self.message(), True
        return self.state() if is_first or event.fate != "pass" else ""

    def answer(self, event: Event) -> str:
        if not self.asked:
            return ""
        if not self.is_write():
            self.read(event.frame.data)
            return ""
        if self.is_done(event.frame.data):
            self.written()
        return self.state()

    def state(self) -> str:
        """Which message stands in the memory, beside the one of before the first write."""
        now = self.message()
        if now is None or self.first is None:
            return ""
        return EMPTY if not now else OLD if now == self.first else NEW


class Type2Store(Blocks):
    def message(self) -> bytes | None:
        return message_t2(self.memory)

    def is_write(self) -> bool:
        return self.asked[:1] == bytes([type2.WRITE])

    def is_done(self, answer: bytes) -> bool:
        return answer == bytes([type2.ACKNOWLEDGEMENT])

    def written(self) -> None:
        self.memory.put(4 * self.asked[1], self.asked[2:])

    def read(self, answer: bytes) -> None:
        """Four blocks; past the last block they go on with block 0, which isn't told, and no area has it."""
        if len(answer) == type2.CONTENT_LENGTH:
            self.memory.put(4 * self.asked[1], answer)


class Type5Store(Blocks):
    def message(self) -> bytes | None:
        return message_t5(self.memory)

    def parameters(self) -> bytes:
        """What stands behind flags, code and, in an addressed request, the identifier."""
        behind = 2 + (type5.IDENTIFIER_LENGTH if self.asked[0] & type5.ADDRESSED else 0)
        return self.asked[behind:]

    def is_write(self) -> bool:
        return self.asked[1] in T5_WRITES

    def is_done(self, answer: bytes) -> bool:
        return answer == b"\x00"

    def number(self) -> tuple[int, bytes]:
        """The block's number, of one byte or of two, and what stands behind it."""
        parameters = self.parameters()
        width = 2 if self.asked[1] in (type5.READ_WIDE, type5.WRITE_WIDE) else 1
        return int.from_bytes(parameters[:width], "little"), parameters[width:]

    def written(self) -> None:
        block, content = self.number()
        self.memory.put(block * len(content), content)

    def read(self, answer: bytes) -> None:
        """One block, or as many as were asked for, so that the length of a block follows."""
        if self.asked[1] not in T5_READS or answer[:1] != b"\x00" or len(answer) < 2:
            return
        block, behind = self.number()
        count = behind[0] + 1 if self.asked[1] == type5.READ_MULTIPLE and behind else 1
        self.memory.put(block * ((len(answer) - 1) // count), answer[1:])


class FileStore:
    """A Type 4 tag: the length at the beginning of its NDEF file says which message it holds."""

    def __init__(self) -> None:
        self.command = b""
        self.is_file = False
        self.length: int | None = None
        self.has_begun = False
        self.has_finished = False

    def request(self, event: Event) -> str:
        if event.whole:
            self.command = event.whole
        if event.whole[:2] != UPDATE_BINARY:
            return ""
        is_first, self.has_begun = not self.has_begun, True
        return self.state() if is_first or event.fate != "pass" else ""

    def answer(self, event: Event) -> str:
        if not event.whole:
            return ""
        command, is_done = self.command, event.whole[-2:] == ACKNOWLEDGED_T4
        if command[:4] == SELECT_FILE and is_done:
            self.is_file = command[5:7] != CONTAINER_FILE
        if not self.is_file or command[2:4] != b"\x00\x00":
            return self.state() if command[:2] == UPDATE_BINARY else ""
        if command[:2] == READ_BINARY and is_done and len(event.whole) >= 4:
            self.length = int.from_bytes(event.whole[:2], "big")
        if command[:2] != UPDATE_BINARY:
            return ""
        if is_done and len(command) >= 7:
            self.length = int.from_bytes(command[5:7], "big")
            self.has_finished = self.length > 0
        return self.state()

    def state(self) -> str:
        if self.length is None:
            return ""
        return EMPTY if self.length == 0 else NEW if self.has_finished else OLD


class Stores:
    """The store of the tag that a write's entry speaks to; each entry begins anew."""

    def __init__(self) -> None:
        self.by_protocol = {Type2: Type2Store(), Type5: Type5Store(), IsoDep: FileStore()}

    def state(self, event: Event) -> str:
        """The state to be told beside a frame of a write, if the report tells it."""
        store = self.by_protocol.get(event.protocol)
        if store is None or event.mark not in "<>":
            return ""
        return store.request(event) if event.mark == ">" else store.answer(event)
