"""What is placed in the field, line by line, and which lines are accepted (docs/script.md, "Context conditions").

Nothing that is sent has a part in it: whether a line is accepted is told by the lines before it alone.
"""

from __future__ import annotations

from dataclasses import dataclass

from frames.words import counted, either, hexadecimal

MOST_DEVICES = 16
NDEF_MAGIC = 0xE1
LARGEST_AREA = 0x7E
CONTAINER_LENGTHS = range(15, 65)
CONTAINER_FILE = 0xE103
LONGEST_FILE = 0x7FFF
LARGEST_T5_STORE = 65536
T3_BLOCK_SIZE = 16
MOST_MESSAGE_BLOCKS = 255
NAMES = {"t2": "a Type 2 tag", "t3": "a Type 3 tag", "t4": "a Type 4 tag", "t5": "a Type 5 tag", "peer": "a peer"}


class NotAccepted(Exception):
    """Which condition of a line fails."""


@dataclass(frozen=True)
class Device:
    """What later lines ask of a device: its kind, and how many blocks it has that can be locked."""

    kind: str
    blocks: int = 0


class Field:
    """The devices by their identifiers, and by which line one was taken away."""

    def __init__(self) -> None:
        self.line = 0
        self.devices: dict[bytes, Device] = {}
        self.removed: dict[bytes, int] = {}

    def add(self, ident: bytes, device: Device) -> None:
        if ident in self.devices:
            raise NotAccepted(f"{hexadecimal(ident)} is placed already, as {NAMES[self.devices[ident].kind]}")
        if len(self.devices) >= MOST_DEVICES:
            raise NotAccepted(f"{MOST_DEVICES} devices are placed, and no more can be")
        self.devices[ident] = device

    def place_t2(self, ident: bytes, blocks: int, head: bytes) -> None:
        check_fits(head, 4 * blocks, f"{counted(blocks, 'block')} of 4 bytes")
        memory = head.ljust(16, b"\0")
        needed = 4 + 2 * memory[14]
        if memory[12] == NDEF_MAGIC and memory[14] <= LARGEST_AREA and needed > blocks:
            area = f"bytes 12 and 14, E1h and {memory[14]:02X}h, name an area of {8 * memory[14]} bytes"
            raise NotAccepted(f"{area}, which needs {needed} blocks, and the tag has {blocks}")
        self.add(ident, Device("t2", blocks))

    def place_t3(self, ident: bytes, blocks: int, head: bytes) -> None:
        check_fits(head, T3_BLOCK_SIZE * blocks, f"{counted(blocks, 'block')} of {T3_BLOCK_SIZE} bytes")
        attributes = head.ljust(T3_BLOCK_SIZE, b"\0")[:T3_BLOCK_SIZE]
        named = word_at(attributes, 3)
        is_right = word_at(attributes, 14) == sum(attributes[:14])
        if is_right and blocks <= named <= MOST_MESSAGE_BLOCKS:
            told = f"bytes 3 and 4 name {counted(named, 'message block')} behind block 0"
            raise NotAccepted(f"{told}, and the tag has {counted(blocks, 'block')} in all")
        self.add(ident, Device("t3", blocks))

    def place_t4(self, ident: bytes, _code: int, container: bytes, head: bytes) -> None:
        if len(container) not in CONTAINER_LENGTHS:
            raise NotAccepted(f"the container has {len(container)} bytes, and it has to have 15 to 64")
        size = word_at(container, 11)
        if word_at(container, 9) == CONTAINER_FILE:
            raise NotAccepted("the container names itself, E103h, as the NDEF file (bytes 9 and 10)")
        if size > LONGEST_FILE:
            told = f"the container gives the file {size} bytes (bytes 11 and 12)"
            raise NotAccepted(f"{told}, and {LONGEST_FILE} is the most")
        check_fits(head, size, "the file, by bytes 11 and 12 of the container")
        self.add(ident, Device("t4"))

    def place_t5(self, ident: bytes, blocks: int, size: int, head: bytes) -> None:
        if blocks * size > LARGEST_T5_STORE:
            told = f"{blocks} blocks of {size} are {blocks * size} bytes"
            raise NotAccepted(f"{told}, and {LARGEST_T5_STORE} is the most")
        check_fits(head, blocks * size, f"{counted(blocks, 'block')} of {size} bytes")
        self.add(ident, Device("t5", blocks))

    def place_peer(self, ident: bytes, *_limits: int) -> None:
        self.add(ident, Device("peer"))

    def device(self, ident: bytes, verb: str, kinds: tuple[str, ...]) -> Device:
        """The device of this identifier, which has to be one of these kinds."""
        found = self.devices.get(ident)
        if found is None:
            gone = f": line {self.removed[ident]} took it away" if ident in self.removed else ""
            raise NotAccepted(f"no device {hexadecimal(ident)} is placed{gone}")
        if found.kind not in kinds:
            wanted = either(NAMES[kind] for kind in kinds)
            raise NotAccepted(f"{hexadecimal(ident)} is {NAMES[found.kind]}, and {verb} is for {wanted}")
        return found

    def lock(self, ident: bytes, block: int) -> None:
        device = self.device(ident, "lock", ("t2", "t3", "t5"))
        if block >= device.blocks:
            told = f"{hexadecimal(ident)} has {counted(device.blocks, 'block')}"
            raise NotAccepted(f"{told}, of which {device.blocks - 1} is the last")

    def busy(self, ident: bytes, *_how: int) -> None:
        self.device(ident, "busy", ("t4", "peer"))

    def offer(self, ident: bytes, *_entry: bytes) -> None:
        self.device(ident, "offer", ("peer",))

    def raw(self, _ident: bytes, *_frames: object) -> None:
        peers = sum(device.kind == "peer" for device in self.devices.values())
        if peers > 1:
            raise NotAccepted(f"{peers} peers are placed, and a raw is for a field with at most one")

    def puts(self, *puts: tuple[int, bytes]) -> None:
        slots = [slot for slot, _message in puts]
        twice = next((slot for place, slot in enumerate(slots) if slot in slots[:place]), None)
        if twice is not None:
            raise NotAccepted(f"slot {twice} stands twice, and each client puts one message")

    def inbox(self, ident: bytes) -> None:
        self.device(ident, "inbox", ("peer",))

    def dump(self, ident: bytes) -> None:
        self.device(ident, "dump", ("t2", "t3", "t4", "t5"))

    def remove(self, ident: bytes) -> None:
        self.device(ident, "remove", tuple(NAMES))
        del self.devices[ident]
        self.removed[ident] = self.line

    def pass_on(self, *_words: object) -> None:
        """A line that is accepted everywhere."""


def word_at(content: bytes, place: int) -> int:
    """Two bytes as a number, high byte first."""
    return int.from_bytes(content[place : place + 2], "big")


def check_fits(head: bytes, size: int, what: str) -> None:
    if len(head) > size:
        raise NotAccepted(f"HEX has {counted(len(head), 'byte')}, more than the {size} of {what}")
