"""Answers that were made once, kept as long as there is room; the ones asked for longest ago go first."""

from __future__ import annotations

import hashlib
from collections import OrderedDict
from threading import Lock
from typing import Any

EACH = 200


class Cache:
    """Keeps answers by the program and the script's text, and holds about so many bytes."""

    def __init__(self, room: int = 64 << 20) -> None:
        self.room = room
        self.held = 0
        self.lock = Lock()
        self.answers: OrderedDict[bytes, tuple[Any, int]] = OrderedDict()

    def get(self, key: tuple[Any, bytes]) -> Any:
        """The answer, none where it isn't kept."""
        with self.lock:
            name = named(key)
            if name not in self.answers:
                return None
            self.answers.move_to_end(name)
            return self.answers[name][0]

    def put(self, key: tuple[Any, bytes], answer: Any, size: int) -> None:
        with self.lock:
            self.drop(named(key))
            self.answers[named(key)] = answer, size + EACH
            self.held += size + EACH
            while self.held > self.room:
                self.drop(next(iter(self.answers)))

    def drop(self, name: bytes) -> None:
        _, size = self.answers.pop(name, (None, 0))
        self.held -= size


def named(key: tuple[Any, bytes]) -> bytes:
    """A short name of a program and a script."""
    program, script = key
    return hashlib.sha256(repr(program).encode() + b"\0" + script).digest()
