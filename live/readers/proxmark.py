"""A Proxmark3 by its client `pm3`: `hf 14a raw` for Type 2 and `hf 15 raw` for Type 5 tags. Its text is read, a line of bytes for each answer.

The client adds and checks the check bytes. Its words and lines are written from memory: neither its
documentation nor the client was at hand, and no device was tried.
"""

from __future__ import annotations

import re
import shutil
import subprocess
from typing import Optional

from . import NoReader, NoTag

BYTES = re.compile(r"^(?:\[\+\] )?((?:[0-9A-Fa-f]{2} ?)+)(?:\[.*\])?$")
UID = re.compile(r"\bUID\b[ .:]*((?:[0-9A-Fa-f]{2} ?)+)")
CHECK_BYTES = 2


def bytes_of(lines: list[str]) -> Optional[bytes]:
    """The last line of bytes alone."""
    found = [match[1] for match in map(BYTES.match, (line.strip() for line in lines)) if match]
    return bytes.fromhex(found[-1]) if found else None


class Reader:
    def __init__(self, port: str = "", kind: int = 2, ident: bytes = b""):
        if not shutil.which("pm3"):
            raise NoReader("the program pm3 isn't installed")
        self.words, self.kind = ["pm3"] + (["-p", port] if port else []), kind

    def told(self, line: str) -> list[str]:
        ran = subprocess.run([*self.words, "-c", line], capture_output=True, text=True, errors="replace")
        return ran.stdout.split("\n")

    def find(self) -> tuple[int, bytes]:
        command = "hf 15 info -u *" if self.kind == 5 else "hf 14a reader -k"
        found = UID.search("\n".join(self.told(command)))
        if not found:
            raise NoTag()
        return self.kind, bytes.fromhex(found[1])

    def transceive(self, command: bytes) -> Optional[tuple[bytes, int]]:
        word = "hf 15 raw -c -d" if self.kind == 5 else "hf 14a raw -k -c"
        answer = bytes_of(self.told(f"{word} {command.hex().upper()}"))
        if answer is None:
            return None
        if self.kind == 2 and len(answer) == 1:
            return answer, 4
        return (answer[:-CHECK_BYTES], 0) if len(answer) > CHECK_BYTES else None

    def close(self) -> None:
        """Each command is a run of the client of its own."""
