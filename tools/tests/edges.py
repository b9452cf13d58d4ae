"""Scripts at each limit of the language, and just past it: a table for what chance seldom hits."""

from __future__ import annotations

from typing import Iterator

from script.grammar import COMMANDS, IN_ORDER
from script.kinds import Number

IDS = {"t2": "01020304", "t3": "0102030405060708", "t4": "02030405", "t5": "E004010203040506", "peer": "08010203"}
CONTAINER = "000F20003B00340406E1{:02X}{:04X}0000"
FIELD = [
    "place t2 01020304 16 -",
    "place t3 0102030405060708 4 -",
    f"place t4 02030405 8 {CONTAINER.format(4, 16)} -",
    "place t5 E004010203040506 4 8 -",
    "place peer 08010203 3 128 1 1024",
]
# A line of each command that is accepted in this field.
LEGAL = {
    "fates": "fates P",
    "place t2": "place t2 01010101 64 -",
    "place t3": "place t3 0101010101010101 14 -",
    "place t4": f"place t4 01010101 8 {CONTAINER.format(4, 16)} -",
    "place t5": "place t5 E001010101010101 4 4 -",
    "place peer": "place peer 01010101 3 128 1 1024",
    "lock": "lock 01020304 0",
    "busy": "busy 08010203 1 3",
    "offer": "offer 08010203 6B 01",
    "remove": "remove 01020304",
    "dump": "dump 01020304",
    "inbox": "inbox 08010203",
    "find": "find",
    "crowd": "crowd",
    "poll3": "poll3",
    "read": "read 02020202",
    "read3": "read3 0102030405060708",
    "write": "write 02020202 00",
    "write3": "write3 0102030405060708 00",
    "link": "link 02020202 128 1",
    "forge": "forge 02020202 1120",
    "raw": "raw 02020202 3000 26/7",
    "put": "put 00",
    "get": "get 1 6B",
    "lookup": "lookup a",
    "on put": "on 1 put 00",
    "on get": "on 1 get 1 6B",
    "puts": "puts 0:00 1:00",
    "unlink": "unlink",
}


def edges() -> list[bytes]:
    """The scripts, each with its line at a limit behind those that place a device of each kind."""
    made = ["\n".join([*FIELD, line, ""]) for line in lines()]
    return [script.encode("ascii") for script in [*made, *longer_scripts()]]


def lines() -> Iterator[str]:
    yield from LEGAL.values()
    for command in IN_ORDER:
        for place, kind in enumerate(command.kinds):
            if isinstance(kind, Number):
                yield from at_limits(command.name, place, kind)
    yield from on_each_device()
    yield from identifiers()
    yield from contents()


def at_limits(name: str, place: int, kind: Number) -> Iterator[str]:
    """The command with this number at its limits and just past them, and spelled as the language doesn't."""
    at = place + len(COMMANDS[name].first.split(" "))
    for value in (kind.least - 1, kind.least, kind.most, kind.most + 1, f"0{kind.least}", f"+{kind.least}", ""):
        words = LEGAL[name].split(" ")
        words[at] = str(value)
        yield " ".join(words)


def on_each_device() -> Iterator[str]:
    """Each command that names a device, on one of each kind; and the blocks that each has, and the one behind."""
    for name, line in LEGAL.items():
        if COMMANDS[name].kinds and COMMANDS[name].kinds[0].name == "ID":
            at = len(COMMANDS[name].first.split(" "))
            words = line.split(" ")
            yield from (" ".join(words[:at] + [ident] + words[at + 1 :]) for ident in (*IDS.values(), "0F0F0F0F"))
    for kind, last in (("t2", 15), ("t3", 3), ("t5", 3), ("t4", 0), ("peer", 0)):
        yield from (f"lock {IDS[kind]} {block}" for block in (0, last, last + 1))


def identifiers() -> Iterator[str]:
    for ident in ("", "-", "01", "88020304", "8802030405060708", "04112288445566", "88112233445566"):
        yield f"read {ident}"
        yield f"link {ident} 128 1"
        yield f"place t5 {ident} 4 4 -"
        yield f"place t3 {ident} 4 -"
        yield f"read3 {ident}"
    for length in range(3, 12):
        yield f"read {'0A' * length}"
        yield f"place t2 {'0A' * length} 4 -"


def contents() -> Iterator[str]:
    """Bytes that just fit, and one more; and what containers say of areas and files."""
    for count, size in ((1, 4), (4, 8), (2048, 32), (2049, 32), (8192, 8), (8193, 8), (4096, 16), (4097, 16)):
        head = "00" * min(count * size, 1500)
        yield f"place t5 E001010101010101 {count} {size} {head}"
        yield f"place t5 E001010101010101 {count} {size} {head}00"
    for blocks, named in ((1, 0), (1, 1), (13, 12), (13, 13), (14, 13), (256, 255), (255, 255), (1, 256)):
        attributes = bytes([0x10, 4, 1]) + named.to_bytes(2, "big") + bytes([0, 0, 0, 0, 0, 1, 0, 0, 0])
        for sum_of in (sum(attributes), sum(attributes) + 1):
            yield f"place t3 0101010101010101 {blocks} {(attributes + sum_of.to_bytes(2, 'big')).hex()}"
        yield f"place t3 0101010101010101 {blocks} {'00' * min(16 * blocks, 1500)}"
        yield f"place t3 0101010101010101 {blocks} {'00' * min(16 * blocks + 1, 1500)}"
    for blocks, area in ((4, 0), (5, 1), (6, 1), (16, 6), (15, 6), (256, 0x7E), (255, 0x7E), (4, 0x7F), (4, 0xFF)):
        yield f"place t2 01010101 {blocks} {'00' * 12}E110{area:02X}"
        yield f"place t2 01010101 {blocks} {'00' * 12}E210{area:02X}"
        yield f"place t2 01010101 {blocks} {'00' * (4 * blocks)}"
        yield f"place t2 01010101 {blocks} {'00' * (4 * blocks + 1)}"
    for size in (0, 1, 16, 0x7FFE, 0x7FFF, 0x8000, 0xFFFF):
        yield f"place t4 01010101 8 {CONTAINER.format(4, size)} -"
        yield f"place t4 01010101 8 {CONTAINER.format(4, size)} {'00' * (size % 0x7FFE)}"
        yield f"place t4 01010101 8 {CONTAINER.format(4, size)} {'00' * (size % 0x7FFE + 1)}"
    for length in (0, 13, 14, 15, 16, 63, 64, 65):
        yield f"place t4 01010101 8 {(CONTAINER.format(4, 16) + '00' * 60)[: 2 * length] or '-'} -"
    yield f"place t4 01010101 8 {CONTAINER.format(3, 16)} -"
    for length in (0, 1, 15, 16, 17):
        yield "forge 02020202" + " 1120" * length
    for payload in ("-", "0", "000", "00 -", "0G", "gen:1:1", "00" * 2033):
        yield f"forge 02020202 {payload}"
    for length in (0, 1, 15, 16, 17):
        yield "raw 02020202" + " 3000" * length
    for frame in ("-", "0", "00", "-/3", "-/", "/3", "26/7", "26/0", "26/8", "26/", "26/07", "26/7/7", "A6/7", "7F/7", "01/1", "02/1", "gen:1:1"):
        yield f"raw 02020202 {frame}"
        yield f"raw E004010203040506 00 {frame}"
    for count in (287, 288, 289):
        yield f"raw 02020202 {'00' * count}"
        yield f"raw 02020202 {'00' * count}/1"
    for puts in ("0:D1", "0:D1 0:D2", "8:D1 0:D2", "0: 1:D2", "00:D1 1:D2", "0:D1 1", ":D1 1:D2", "1:D1 0:gen:300:0", "7:- 0:gen:0:0", "0:gen:1 1:D2"):
        yield f"puts {puts}"
    for count in range(1, 10):
        yield "puts" + "".join(f" {slot}:D1" for slot in range(count))
    for words in ("0 put D1", "8 put D1", "01 put D1", "1 put", "1", "", "1 lookup x", "1 unlink", "put D1", "7 put gen:3:0", "7 get 65536 -", "1 get 1"):
        yield f"on {words}"
    for length in (0, 1, 63, 64, 65):
        yield f"lookup {'~' * length}"
    for length in (0, 1, 3999, 4000, 4001):
        yield f"fates {'PDLB'[: length % 4] + 'P' * (length - length % 4)}"
    for message in ("gen:0:0", "gen:65536:255", "gen:65537:0", "gen:0:256", "gen:00:0", "gen:0:00", "gen::", "gen:1"):
        yield f"put {message}"
        yield f"write 02020202 {message}"


def longer_scripts() -> Iterator[str]:
    """Devices, lines and bytes of a line at their limits."""
    for count in (15, 16, 17):
        yield "".join(f"place peer 0801{number:04X} 0 128 1 1024\n" for number in range(count))
    for count in (999, 1000, 1001):
        yield "find\n" + "\n" * (count - 1)
        yield "\n" * (count - 1) + "find"
    for length in (4095, 4096, 4097):
        yield "#" * length
        yield "#" * length + "\nfind\n"
        yield ("put " + "0" * (length - 4)) + "\n"
    for count in (0, 1, 2):
        yield "".join(f"place peer 0801{number:04X} 0 128 1 1024\n" for number in range(count)) + "raw 08010000 3000\nraw E004010203040506 02\n"
    yield "remove 01020304"
    yield "\n".join([*FIELD, "remove 01020304", "place t5 E001010101010101 1 4 -", "place peer 01020304 0 128 1 1024"])
    yield "place t5 0102030405060708 4 8 -\nplace t3 0102030405060708 4 -\n"
    yield "place t3 0102030405060708 4 -\nplace t5 0102030405060708 4 8 -\n"
    yield "\n".join([*FIELD, "remove 01020304", "remove 01020304"])
