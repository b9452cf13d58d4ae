"""Frames a line each, to a program or over the standard streams: `> 3000` out, then `< HEX`, `< HEX/BITS` or `-` in, as reports spell them.

The other side stands for a tag that is selected. Which kind it is and its identifier is said by `--type` and `--id`. For a far end it stands for an
initiator of NFC-DEP that is a chip away: `> GENERAL` out and `< GENERAL` in begin a link, then `< PAYLOAD` comes in and `> REPLY` goes out, until `-`.
"""

from __future__ import annotations

import contextlib
import re
import shlex
import subprocess
import sys
from typing import Optional

from . import NoReader

ANSWER = re.compile(r"< (-|(?:[0-9A-F]{2})+)(?:/([1-7]))?")
MOST_FRAME, MOST_PAYLOAD, LONGEST = 288, 2178, 2 * 2178 + 4


def spelled(content: bytes, bits: int = 0) -> str:
    return (content.hex().upper() or "-") + (f"/{bits}" if bits else "")


def read_frame(line: str, most: int = MOST_FRAME) -> Optional[tuple[bytes, int]]:
    """What a line spells, and the bits of its last byte; none for `-`, for what spells nothing, and for more bytes than may be."""
    found = ANSWER.fullmatch(line.rstrip("\n"))
    content = bytes.fromhex(found[1].strip("-")) if found else b""
    return (content, int(found[2] or 0)) if found and len(content) <= most else None


def read_payload(line: str) -> Optional[bytes]:
    """The payload of a line; none for what spells none, and where its last byte isn't whole."""
    content, bits = read_frame(line, MOST_PAYLOAD) or (None, 0)
    return None if bits else content


class Reader:
    def __init__(self, program: str = "", kind: int = 2, ident: bytes = b""):
        self.kind, self.ident, self.child, self.out, self.into = kind, ident, None, sys.stdout, sys.stdin
        if program:
            try:
                self.child = subprocess.Popen(shlex.split(program), stdin=subprocess.PIPE, stdout=subprocess.PIPE, text=True, errors="replace")
            except OSError as fault:
                raise NoReader(f"{program} can't be started: {fault.strerror}") from None
            self.out, self.into = self.child.stdin, self.child.stdout

    def find(self) -> tuple[int, bytes]:
        return self.kind, self.ident

    def transceive(self, command: bytes) -> Optional[tuple[bytes, int]]:
        try:
            print(">", spelled(command), file=self.out, flush=True)
            return read_frame(self.into.readline(4096))
        except (BrokenPipeError, ValueError):
            return None

    def listen(self, general: bytes) -> Optional[bytes]:
        try:
            print(">", spelled(general), file=self.out, flush=True)
            came = map(read_payload, iter(lambda: self.into.readline(LONGEST), ""))
            return next((said for said in came if said is not None), None)
        except (BrokenPipeError, ValueError):
            return None

    def hand(self, reply: Optional[bytes]) -> Optional[bytes]:
        try:
            if reply is not None:
                print(">", spelled(reply), file=self.out, flush=True)
            return read_payload(self.into.readline(LONGEST))
        except (BrokenPipeError, ValueError):
            return None

    def close(self) -> None:
        if self.child:
            for stream in (self.child.stdin, self.child.stdout):
                with contextlib.suppress(BrokenPipeError):
                    stream.close()
            self.child.wait()
