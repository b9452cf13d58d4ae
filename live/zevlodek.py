"""The C library of this repository, from Python: readings, surveys and writings of tags as generators, the message of a dump, tags of Types 2, 4 and
5, both ends of ISO-DEP and NFC-DEP, and both ends of a link of LLCP and SNEP.

A job yields a command (bytes) and is sent the tag's answer: a pair of its bytes and of how many low bits of the last byte came (0: all). It
returns what it came to, or raises `Fault`. Where no answer comes the job is left as it is: `drive` raises `Gone` then, and sends nothing twice.
The texts and numbers of faults are the library's.
"""

from __future__ import annotations

import ctypes
import os
from dataclasses import dataclass
from pathlib import Path
from typing import Callable, Generator, Iterator, Optional

ROOT = Path(__file__).resolve().parent.parent
PLACES = ("crates/zevlodek_c/out/x86_64-unknown-linux-gnu/c/libzevlodek.so", "c/out/libzevlodek.so")
DONE, SEND, SILENT, ASLEEP, OPENED, RELEASED = range(6)
BAD_LOG, BAD_ARGUMENT, SHORT, REFUSED, TOO_LONG = -1, -2, -3, -108, -113
WHOLE, FRAME, DAMAGED, NOTHING, REPLY, PUT, GET, LOOKUP, CLOSE = range(9)
FIRST_ROOM = 4096
MOST_PAYLOAD, MOST_OFFER, MOST_ENTRY, MOST_ANSWER = 2178, 65535, 65535, 288

Answer = tuple[bytes, int]
Transceive = Callable[[bytes], Optional[Answer]]


class Told(ctypes.Structure):
    """`zev_told` of c/zevlodek.h."""

    _fields_ = [
        ("length", ctypes.c_size_t),
        ("capacity", ctypes.c_uint32),
        ("code", ctypes.c_uint16),
        ("writable", ctypes.c_uint8),
        ("bits", ctypes.c_uint8),
        ("anew", ctypes.c_uint8),
    ]


class General(ctypes.Structure):
    """`zev_general`: what an end of a link says of itself."""

    _fields_ = [("miu", ctypes.c_uint16), ("services", ctypes.c_uint16), ("version", ctypes.c_uint8)]


class Sizes(ctypes.Structure):
    """`zev_peer`: the sizes of a far end."""

    _fields_ = [("limit", ctypes.c_uint32), ("miu", ctypes.c_uint16), ("window", ctypes.c_uint8)]


class Standing4(ctypes.Structure):
    """`zev_t4_state`: where a Type 4 tag stands between two commands."""

    _fields_ = [("selected", ctypes.c_uint8), ("current", ctypes.c_uint8)]


class Standing5(ctypes.Structure):
    """`zev_t5_state`: where a Type 5 tag stands between two frames."""

    _fields_ = [(name, ctypes.c_uint8) for name in ("quiet", "in_round", "slot", "current")]


class NearSizes(ctypes.Structure):
    """`zev_near`: the sizes of a near end."""

    _fields_ = [("miu", ctypes.c_uint16), ("window", ctypes.c_uint8)]


class NamedFile(ctypes.Structure):
    """`zev_t4_file`: the file that a Type 4 tag's container names."""

    _fields_ = [(name, ctypes.c_uint16) for name in ("id", "size", "mle", "mlc")] + [("writable", ctypes.c_uint8)]


class Fault(Exception):
    """Why a job has no result: the library's number and text, the tag's code where it refused, and how much it takes."""

    def __init__(self, number: int, text: str, code: int = 0, capacity: int = 0):
        more = f" ({code:04X})" if number == REFUSED else f" ({capacity} bytes)" if number == TOO_LONG else ""
        super().__init__(text + more)
        self.number, self.code, self.capacity = number, code, capacity


class Gone(Exception):
    """A command had no answer."""

    def __init__(self, command: bytes):
        super().__init__("the tag gave no answer")
        self.command = command


@dataclass(frozen=True)
class Found:
    """The message of a tag, and whether it may be written."""

    message: bytes
    writable: bool


@dataclass(frozen=True)
class Ground:
    """How long a tag's message is and how long one may be, and whether it may be written."""

    length: int
    capacity: int
    writable: bool


@dataclass(frozen=True)
class LinkParams:
    """What an end of a link says of itself: its MIU, its well-known services as bits, and its version of LLCP."""

    miu: int = 128
    services: int = 0x13
    version: int = 0x13


@dataclass(frozen=True)
class Received:
    """A message that a server accepted, and the SAP of the other end that it came from."""

    source: int
    message: bytes


def library_path() -> str:
    """Where the shared library lies: as ZEVLODEK_LIBRARY says, where the gate built it, or where the system has it."""
    named = os.environ.get("ZEVLODEK_LIBRARY")
    if named:
        return named
    built = (ROOT / place for place in PLACES)
    return next((str(path) for path in built if path.exists()), "libzevlodek.so.0")


_loaded: dict[str, ctypes.CDLL] = {}


def library() -> ctypes.CDLL:
    """The library, loaded once; an OSError tells that it isn't there."""
    path = library_path()
    if path not in _loaded:
        loaded = ctypes.CDLL(path)
        loaded.zev_fault_text.restype = ctypes.c_char_p
        _loaded[path] = loaded
    return _loaded[path]


def lent(content: bytes) -> tuple[ctypes.Array, ctypes.c_size_t]:
    """Bytes as C takes them: a pointer, which is never null, and how many they are."""
    return (ctypes.c_uint8 * max(len(content), 1)).from_buffer_copy(content or b"\0"), ctypes.c_size_t(len(content))


def entry(command: bytes, answer: Answer) -> bytes:
    """What a turn adds to a log."""
    said, bits = answer
    if len(command) > 288 or len(said) > 288 or not 0 <= bits < 8:
        raise ValueError("a turn has at most 288 bytes each way, and 0 to 7 bits")
    return bytes([bits]) + len(command).to_bytes(2, "little") + command + len(said).to_bytes(2, "little") + said


def fault(number: int, told: Told) -> Fault:
    return Fault(number, library().zev_fault_text(number).decode(), told.code, told.capacity)


def steps(call: str, kind: int, ident: bytes, more: tuple) -> Generator[bytes, Answer, tuple[bytes, Told]]:
    """A job a command at a time: what stands in `out` at its end, and the numbers told."""
    function = getattr(library(), call)
    name = (ctypes.c_uint8 * 8).from_buffer_copy(ident.rjust(8, b"\0"))
    log, room, told = b"", FIRST_ROOM, Told()
    while True:
        out = (ctypes.c_uint8 * room)()
        said = function(ctypes.c_uint32(kind), name, *more, *lent(log), out, ctypes.c_size_t(room), ctypes.byref(told))
        if said == SHORT:
            room = told.length
        elif said == SEND:
            command = bytes(out[: told.length])
            answer = yield command
            log += entry(command, answer)
        elif said == DONE:
            return bytes(out[: min(told.length, room)]), told
        else:
            raise fault(said, told)


def read(kind: int, ident: bytes = b"") -> Generator[bytes, Answer, Found]:
    """Reads a tag of Type 2, 4 or 5; a Type 5 tag has an identifier of eight bytes, high byte first."""
    message, told = yield from steps("zev_read_next", kind, ident, ())
    return Found(message, told.writable == 1)


def survey(kind: int, ident: bytes = b"") -> Generator[bytes, Answer, Ground]:
    """Tells how long a message may be."""
    _, told = yield from steps("zev_survey_next", kind, ident, ())
    return Ground(told.length, told.capacity, told.writable == 1)


def write(kind: int, ident: bytes, message: bytes) -> Generator[bytes, Answer, None]:
    """Writes a message. Wherever it ends before, the tag reads as the old message, the empty one or the new one."""
    yield from steps("zev_write_next", kind, ident, lent(message))


def drive(job: Iterator, transceive: Transceive, tries: int = 1):
    """Runs a job over what sends a command and gives its answer, or none: what it came to. A command without an answer is sent so often in all."""
    try:
        command = next(job)
        while True:
            answer = next((told for told in (transceive(command) for _ in range(tries)) if told is not None), None)
            if answer is None:
                job.close()
                raise Gone(command)
            command = job.send(answer)
    except StopIteration as end:
        return end.value


def step_of(call: str, *words) -> Optional[Answer]:
    """A tag's answer to a command, or none where it is silent."""
    out, told = (ctypes.c_uint8 * MOST_ANSWER)(), Told()
    said = getattr(library(), call)(*words, out, ctypes.c_size_t(MOST_ANSWER), ctypes.byref(told))
    if said == SILENT:
        return None
    if said != DONE:
        raise fault(said, told)
    return bytes(out[: told.length]), told.bits


class Type2Tag:
    """A Type 2 tag in memory, whose steps the library makes."""

    def __init__(self, memory: bytes, locked: tuple[int, ...] = ()):
        self.memory = bytearray(memory)
        self.locks = bytes(block in locked for block in range(len(memory) // 4))

    def obey(self, command: bytes, bits: int = 0) -> Optional[Answer]:
        """Its answer to a command, or none where it is silent."""
        held, size = lent(bytes(self.memory))
        answer = step_of("zev_t2_tag", held, size, *lent(self.locks), *lent(command), ctypes.c_uint8(bits))
        self.memory = bytearray(held[: len(self.memory)])
        return answer


class Type4Tag:
    """A Type 4 tag in memory: its capability container and its NDEF file, one behind the other in `memory`."""

    def __init__(self, container: bytes, file: bytes):
        self.container, self.file, self.standing = container, bytearray(file), Standing4()

    @property
    def memory(self) -> bytes:
        return self.container + bytes(self.file)

    def obey(self, command: bytes, bits: int = 0) -> Optional[Answer]:
        """Its answer to the bytes of a command."""
        held, size = lent(bytes(self.file))
        answer = step_of("zev_t4_tag", *lent(self.container), held, size, ctypes.byref(self.standing), *lent(command))
        self.file = bytearray(held[: len(self.file)])
        return answer


class Type5Tag:
    """A Type 5 tag in memory, in blocks of so many bytes, with an identifier, high byte first."""

    def __init__(self, ident: bytes, memory: bytes, block: int = 4, locked: tuple[int, ...] = ()):
        self.ident, self.memory, self.block, self.standing = ident, bytearray(memory), block, Standing5()
        self.locks = bytes(number in locked for number in range(len(memory) // block))

    def obey(self, command: bytes, bits: int = 0) -> Optional[Answer]:
        """Its answer to a frame, or none where it is silent."""
        if bits:
            return None
        held, size = lent(bytes(self.memory))
        name = (ctypes.c_uint8 * 8).from_buffer_copy(self.ident)
        words = name, ctypes.c_uint32(self.block), held, size, *lent(self.locks), ctypes.byref(self.standing), *lent(command)
        answer = step_of("zev_t5_tag", *words)
        self.memory = bytearray(held[: len(self.memory)])
        return answer


def made(kind: type[ctypes.Structure], **numbers: int) -> ctypes.Structure:
    """A struct of these numbers; one that has no room there is a bad argument, and isn't cut."""
    struct = kind(**numbers)
    if any(getattr(struct, name) != number for name, number in numbers.items()):
        raise fault(BAD_ARGUMENT, Told())
    return struct


def filled(call: str, *words) -> tuple[bytes, Told]:
    """What a call puts into `out`, its last words but one, which is made as long as it takes; and the numbers told."""
    room, told = FIRST_ROOM, Told()
    while True:
        out = (ctypes.c_uint8 * room)()
        said = getattr(library(), call)(*words, out, ctypes.c_size_t(room), ctypes.byref(told))
        if said == DONE:
            return bytes(out[: told.length]), told
        if said != SHORT:
            raise fault(said, told)
        room = told.length


def write_general(params: LinkParams) -> bytes:
    """The general bytes of an end."""
    return filled("zev_general_write", ctypes.byref(made(General, miu=params.miu, services=params.services, version=params.version)))[0]


def read_general(content: bytes) -> LinkParams:
    """What general bytes say of the end that sent them."""
    told = General()
    said = library().zev_general_read(*lent(content), ctypes.byref(told))
    if said != DONE:
        raise fault(said, Told())
    return LinkParams(told.miu, told.services, told.version)


def counted(content: bytes, most: int) -> bytes:
    """Bytes behind their length."""
    if len(content) > most:
        raise ValueError(f"there may be {most} bytes")
    return len(content).to_bytes(2, "little") + content


class FarEnd:
    """The far end of a link of LLCP that began with these general bytes of the other end, with a SNEP server. `offers` are keys with the values
    that it gives for get."""

    def __init__(self, general: bytes, miu: int = 2175, window: int = 15, limit: int = 65536, offers: tuple[tuple[bytes, bytes], ...] = ()):
        self.sizes, self.general, self.log, self.anew = made(Sizes, limit=limit, miu=miu, window=window), general, b"", False
        self.offers = b"".join(counted(part, MOST_OFFER) for offer in offers for part in offer)

    def words(self) -> tuple:
        return ctypes.byref(self.sizes), *lent(self.offers), *lent(self.general), *lent(self.log)

    def answer(self, payload: bytes) -> bytes:
        """Takes a payload and gives the reply. Where there is a fault it counts as not taken."""
        before, self.log = self.log, self.log + counted(payload, MOST_PAYLOAD)
        try:
            reply, told = filled("zev_peer_reply", *self.words())
        except Fault:
            self.log = before
            raise
        self.anew = told.anew == 1
        return reply

    def begin_anew(self) -> bool:
        """Begins a new log where the last reply told that it may: the replies stay the same, and what was accepted so far is told no more."""
        if self.anew:
            self.log = b""
        return self.anew

    def count(self) -> int:
        """How many messages it accepted on this link."""
        told = Told()
        said = library().zev_peer_count(*self.words(), ctypes.byref(told))
        if said != DONE:
            raise fault(said, told)
        return told.length

    def received(self, index: int) -> Received:
        """One of them, counted from 0."""
        message, told = filled("zev_peer_message", *self.words(), ctypes.c_size_t(index))
        said = library().zev_peer_source(*self.words(), ctypes.c_size_t(index), ctypes.byref(told))
        if said != DONE:
            raise fault(said, told)
        return Received(told.code, message)


def dumped(kind: int, memory: bytes, block: int = 4) -> Found:
    """The message of a Type 2 or Type 5 tag's memory that was read out, from its first byte on."""
    size = () if kind == 2 else (ctypes.c_uint32(block),)
    message, told = filled(f"zev_t{kind}_message", *size, *lent(memory))
    return Found(message, told.writable == 1)


def ground_of(kind: int, memory: bytes, block: int = 4) -> Ground:
    """How long the message of such a memory is and how long one may be; the tag ends where its memory does."""
    size, told = () if kind == 2 else (ctypes.c_uint32(block),), Told()
    said = getattr(library(), f"zev_t{kind}_find")(*size, *lent(memory), ctypes.byref(told))
    if said != DONE:
        raise fault(said, told)
    return Ground(told.length, told.capacity, told.writable == 1)


def file_of(container: bytes) -> NamedFile:
    """The file that a Type 4 tag's capability container names."""
    named = NamedFile()
    said = library().zev_t4_container(*lent(container), ctypes.byref(named))
    if said != DONE:
        raise fault(said, Told())
    return named


def kept(kind: int, content: bytes) -> bytes:
    """What an entry adds to the log of an end of a link."""
    return bytes([kind]) + counted(content, MOST_ENTRY)


class Log:
    """An end of a link: a call of the library over the entries so far. An entry that the library doesn't take isn't kept."""

    def __init__(self, call: str, *words):
        self.call, self.more, self.log = call, words, b""

    def words(self) -> tuple:
        return (*self.more, *lent(self.log))

    def after(self, *entries: tuple[int, bytes]) -> tuple[int, bytes, Told]:
        """What the call tells behind these entries more: its answer, the bytes, and the numbers."""
        before, self.log = self.log, self.log + b"".join(kept(*one) for one in entries)
        room, told = FIRST_ROOM, Told()
        while True:
            out = (ctypes.c_uint8 * room)()
            said = getattr(library(), self.call)(*self.words(), out, ctypes.c_size_t(room), ctypes.byref(told))
            if said != SHORT:
                break
            room = told.length
        if said in (BAD_LOG, BAD_ARGUMENT):
            self.log = before
        return said, bytes(out[: told.length]) if said >= 0 else b"", told


Heard = Optional[Answer]
Frames = Generator[bytes, Heard, bytes]


class Asker:
    """The end of a link that asks: a job yields a frame and is sent the answer as a pair of its bytes and 0, `None` where nothing came in time, or
    `(b"", 1)` where what came was damaged."""

    def __init__(self, call: str, code: int):
        self.end = Log(call, ctypes.c_uint8(code))

    def exchange(self, content: bytes) -> Frames:
        """Sends a command or a payload: what is told in the end is the answer to it."""
        said, out, told = self.end.after((WHOLE, content))
        while said == SEND:
            heard = yield out
            came = (NOTHING, b"") if heard is None else (DAMAGED, b"") if heard[1] else (FRAME, heard[0])
            said, out, told = self.end.after(came)
        if said != DONE:
            raise fault(said, told)
        return out


class IsoReader(Asker):
    """The reader's end of ISO-DEP, with a card of this size code."""

    def __init__(self, code: int):
        super().__init__("zev_iso_reader_next", code)


class Initiator(Asker):
    """The initiator's end of NFC-DEP, with a target of this LR code."""

    def __init__(self, lr: int):
        super().__init__("zev_dep_initiator_next", lr)


class Answering:
    """The end of a link that answers: `owner` gives the reply to what it is handed."""

    def __init__(self, owner: Callable[[bytes], bytes], call: str, *words):
        self.end, self.owner, self.last = Log(call, *words), owner, SILENT

    def hear(self, frame: bytes) -> Optional[bytes]:
        """The answer to a frame that came whole, or none. `last` tells a last answer, and that a link begins."""
        said, out, told = self.end.after((FRAME, frame))
        if said == DONE:
            said, out, told = self.end.after((REPLY, self.owner(out)))
        if said < 0:
            raise fault(said, told)
        self.last = said
        return out if said != SILENT else None


class IsoCard(Answering):
    """The card's end of ISO-DEP, of this size code."""

    def __init__(self, code: int, owner: Callable[[bytes], bytes]):
        super().__init__(owner, "zev_iso_card_next", ctypes.c_uint8(code))


class Target(Answering):
    """The target's end of NFC-DEP, with its NFCID3, LR code and general bytes."""

    def __init__(self, ident: bytes, lr: int, general: bytes, owner: Callable[[bytes], bytes]):
        name = (ctypes.c_uint8 * 10).from_buffer_copy(ident)
        super().__init__(owner, "zev_dep_target_next", name, ctypes.c_uint8(lr), *lent(general))


def atr_request(ident: bytes, general: bytes) -> bytes:
    """The frame by which an initiator begins a link."""
    return filled("zev_dep_request", (ctypes.c_uint8 * 10).from_buffer_copy(ident), *lent(general))[0]


def told_by_atr(frame: bytes) -> tuple[int, bytes]:
    """The LR code and the general bytes of the end that sent ATR_REQ or ATR_RES."""
    general, told = filled("zev_dep_general", *lent(frame))
    return told.code, general


class NearEnd:
    """The near end of a link of LLCP that began with these general bytes of the other end: a client of its SNEP server. A call is a generator: it
    yields a payload and is sent the reply."""

    def __init__(self, general: bytes, miu: int = 2175, window: int = 15):
        self.sizes = made(NearSizes, miu=miu, window=window)
        self.end = Log("zev_client_next", ctypes.byref(self.sizes), *lent(general))

    def call(self, kind: int, content: bytes) -> Generator[bytes, bytes, tuple[bytes, Told]]:
        said, out, told = self.end.after((kind, content))
        while said == SEND:
            reply = yield out
            said, out, told = self.end.after((REPLY, reply))
        if said != DONE:
            raise fault(said, told)
        return out, told

    def put(self, message: bytes) -> Generator[bytes, bytes, None]:
        """Puts a message of at most 65,535 bytes."""
        yield from self.call(PUT, message)

    def get(self, key: bytes, most: int = 65536, slot: int = 0) -> Generator[bytes, bytes, bytes]:
        """The value of a key, of so many bytes at most, on the connection of a slot."""
        return (yield from self.call(GET, bytes([slot]) + most.to_bytes(4, "big") + key))[0]

    def lookup(self, name: str) -> Generator[bytes, bytes, int]:
        """The SAP of a service, 0 where there is none."""
        return (yield from self.call(LOOKUP, name.encode()))[1].code

    def close(self) -> Generator[bytes, bytes, None]:
        """Ends all connections."""
        yield from self.call(CLOSE, b"")


def carry(job: Iterator, swap: Callable[[bytes], object]):
    """Runs a job over what takes each thing that it yields and gives what came of it: what the job came to."""
    try:
        given = next(job)
        while True:
            given = job.send(swap(given))
    except StopIteration as end:
        return end.value
