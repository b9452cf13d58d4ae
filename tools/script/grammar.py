"""The table of a script's commands: each with the kinds of its words, and where it is accepted."""

from __future__ import annotations

from dataclasses import dataclass
from typing import Any, Callable

from script.field import Field
from script.kinds import Fates, Frame, Hexadecimal, Identifier, Kind, Literally, Message, Name, Number, Payload, Size, SlotPut

NFCA_ID = Identifier((4, 7, 10), "an identifier of NFC-A, 4, 7 or 10 bytes, two hexadecimal digits a byte")
T3_ID = Identifier((8,), "the identifier of a Type 3 tag, 8 bytes, two hexadecimal digits a byte")
T5_ID = Identifier((8,), "the identifier of a Type 5 tag, 8 bytes, high byte first, two hexadecimal digits a byte")
ANY_ID = Identifier((4, 7, 8, 10), "an identifier, 4, 7 or 10 bytes of NFC-A or 8 of a Type 3 or Type 5 tag, two digits a byte")
HEX = Hexadecimal()
MSG = Message()
MIU = Number("MIU", 128, 2175, "how many bytes of information a PDU to this end may have")
RW = Number("RW", 1, 15, "how many I PDUs this end can take that it hasn't acknowledged")
T2_BLOCKS = Number("BLOCKS", 4, 256, "how many blocks of 4 bytes the tag has")
T3_BLOCKS = Number("BLOCKS", 1, 256, "how many blocks of 16 bytes the tag has")
T5_BLOCKS = Number("BLOCKS", 1, 16384, "how many blocks the tag has")
CODE = Number("CODE", 0, 8, "how long frames it takes, 16, 24, 32, 40, 48, 64, 96, 128 or 256 bytes by its code")
LR = Number("LR", 0, 3, "how long frames of NFC-DEP it takes, 64, 128, 192 or 254 bytes by their code")
LIMIT = Number("LIMIT", 1024, 65536, "how many bytes a message may have that its server takes")
BLOCK = Number("BLOCK", 0, 65535, "the number of a block, from 0 on")
COUNT = Number("COUNT", 0, 5, "how often it asks for more time before an answer")
TIMES = Number("TIMES", 1, 59, "by which value it asks for more time")
SLOT = Number("K", 1, 7, "the slot of another client than that of put, get and lookup")
ACCEPTED = Number("N", 0, 65536, "how many bytes a value may have that is taken")
FREE = "fewer than 16 devices are placed and none has this ID"


@dataclass(frozen=True)
class Command:
    """A command: its name, the kinds of the words behind it, what it does to the field, where it may stand, and how often its last word may."""

    name: str
    kinds: tuple[Kind, ...]
    obey: Callable[..., None] = Field.pass_on
    where: str = ""
    most: int = 1

    @property
    def first(self) -> str:
        """What stands before the words of its kinds: of `on`, whose verb stands behind a slot, not the whole name."""
        return "on" if self.name.startswith("on ") else self.name

    @property
    def form(self) -> str:
        kinds = [kind.name for kind in self.kinds]
        return " ".join([self.first, *(kinds[:1] if self.repeats else kinds), *([".."] if self.most > 1 else [])])

    @property
    def repeats(self) -> bool:
        """Whether all of its words are of one kind, and there are several."""
        return self.most > 1 and len(set(self.kinds)) == 1

    def kinds_of(self, count: int) -> tuple[Kind, ...] | None:
        """The kinds of so many words, none where the command has another number of them."""
        more = count - len(self.kinds)
        return self.kinds + self.kinds[-1:] * more if 0 <= more < self.most else None

    def values(self, words: list[str]) -> list[Any]:
        kinds = self.kinds_of(len(words)) or self.kinds
        return [kind.value(word) for kind, word in zip(kinds, words, strict=True)]


IN_ORDER = (
    Command("fates", (Fates(),)),
    Command(
        "place t2",
        (NFCA_ID, T2_BLOCKS, HEX),
        Field.place_t2,
        f"{FREE}; HEX fits into the blocks, and so does the area that its bytes 12 and 14 name",
    ),
    Command(
        "place t3",
        (T3_ID, T3_BLOCKS, HEX),
        Field.place_t3,
        f"{FREE}; HEX fits into the blocks, and so do the message blocks that block 0 names where its sum is right",
    ),
    Command(
        "place t4",
        (NFCA_ID, CODE, HEX, HEX),
        Field.place_t4,
        f"{FREE}; the container has 15 to 64 bytes and names another file than E103h of at most 32767 bytes, "
        "and the second HEX fits into it",
    ),
    Command(
        "place t5",
        (T5_ID, T5_BLOCKS, Size(), HEX),
        Field.place_t5,
        f"{FREE}; HEX fits into the blocks, and they have at most 65536 bytes",
    ),
    Command("place peer", (NFCA_ID, LR, MIU, RW, LIMIT), Field.place_peer, FREE),
    Command("lock", (ANY_ID, BLOCK), Field.lock, "a Type 2, Type 3 or Type 5 tag with this ID has this block"),
    Command("busy", (ANY_ID, COUNT, TIMES), Field.busy, "a Type 4 tag or a peer with this ID is placed"),
    Command("offer", (ANY_ID, HEX, HEX), Field.offer, "a peer with this ID is placed"),
    Command("remove", (ANY_ID,), Field.remove, "a device with this ID is placed"),
    Command("dump", (ANY_ID,), Field.dump, "a tag with this ID is placed"),
    Command("inbox", (ANY_ID,), Field.inbox, "a peer with this ID is placed"),
    Command("find", ()),
    Command("crowd", ()),
    Command("poll3", ()),
    Command("read", (ANY_ID,)),
    Command("write", (ANY_ID, MSG)),
    Command("read3", (T3_ID,)),
    Command("write3", (T3_ID, MSG)),
    Command("link", (NFCA_ID, MIU, RW)),
    Command("forge", (NFCA_ID, Payload()), most=16),
    Command("raw", (ANY_ID, Frame()), Field.raw, "at most one peer is placed", most=16),
    Command("put", (MSG,)),
    Command("get", (ACCEPTED, HEX)),
    Command("lookup", (Name(),)),
    Command("on put", (SLOT, Literally("put"), MSG)),
    Command("on get", (SLOT, Literally("get"), ACCEPTED, HEX)),
    Command("puts", (SlotPut(), SlotPut()), Field.puts, "no two puts are of one slot", most=7),
    Command("unlink", ()),
)
COMMANDS = {command.name: command for command in IN_ORDER}
PLACES = tuple(command.name.split(" ")[1] for command in IN_ORDER if command.name.startswith("place "))
VERBS = tuple(command.name.split(" ")[1] for command in IN_ORDER if command.name.startswith("on "))
FIRST_WORDS = tuple(dict.fromkeys(command.name.split(" ")[0] for command in IN_ORDER))
