"""Commands of Type 4 tags and their answers, whole ones, as ISO-DEP carries them (docs/tags.md, docs/reading.md)."""

from __future__ import annotations

from frames.words import counted, hexadecimal

SELECT, READ_BINARY, UPDATE_BINARY = 0xA4, 0xB0, 0xD6
APPLICATION = bytes.fromhex("D2760000850101")
CONTAINER = bytes.fromhex("E103")
STATUSES = {
    "9000": "obeyed",
    "6700": "wrong length",
    "6982": "access isn't free",
    "6A82": "not found, or no current file",
    "6B00": "wrong parameters or offset",
    "6D00": "unknown instruction",
    "6E00": "unknown class",
}


def command_text(command: bytes) -> str:
    """What the command is; one that no Type 4 tag knows is told by its first bytes."""
    if len(command) < 4:
        return f"command of {counted(len(command), 'byte')}, too short"
    named = {SELECT: select_text, READ_BINARY: read_text, UPDATE_BINARY: update_text}
    text = named[command[1]](command) if command[0] == 0 and command[1] in named else None
    return text or f"command {hexadecimal(command[:4])}, {counted(len(command), 'byte')}"


def select_text(command: bytes) -> str | None:
    """SELECT, by name or by a file's identifier, with or without a byte behind."""
    if len(command) < 6 or len(command) - 5 - command[4] not in (0, 1):
        return None
    wanted = command[5 : 5 + command[4]]
    if command[2:4] == b"\x04\x00":
        what = "the NDEF application" if wanted == APPLICATION else "application"
        return f"SELECT of {what} {hexadecimal(wanted)}"
    if command[2:4] == b"\x00\x0c" and len(wanted) == 2:
        what = "the container, file" if wanted == CONTAINER else "file"
        return f"SELECT of {what} {hexadecimal(wanted)}h"
    return None


def read_text(command: bytes) -> str | None:
    """READ BINARY; a length of 00h is 256."""
    if len(command) != 5:
        return None
    return f"READ BINARY of {counted(command[4] or 256, 'byte')} from offset {offset(command)}"


def update_text(command: bytes) -> str | None:
    """UPDATE BINARY with its bytes."""
    if len(command) < 6 or len(command) != 5 + command[4]:
        return None
    return f"UPDATE BINARY of {counted(command[4], 'byte')} at offset {offset(command)}: {hexadecimal(command[5:])}"


def offset(command: bytes) -> int:
    return 256 * command[2] + command[3]


def answer_text(answer: bytes) -> str:
    """The content, if any, and the two status bytes."""
    if len(answer) < 2:
        return f"answer of {counted(len(answer), 'byte')}, without status"
    status = hexadecimal(answer[-2:])
    meaning = f", {STATUSES[status]}" if status in STATUSES else ""
    content = f"{counted(len(answer) - 2, 'byte')}, " if len(answer) > 2 else ""
    return f"{content}status {status}h{meaning}"
