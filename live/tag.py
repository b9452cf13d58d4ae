#!/usr/bin/env python3
"""A tag behind the pipe of `zev`: its memory is a file, its steps are the proved library's.

    tag.py FILE [--type 2|4|5] [--id HEX] [--block SIZE] [--container SIZE] [--cut N] [--obeys] [--locked BLOCK ..]

The file of a Type 4 tag has its capability container, of so many bytes, and behind it the NDEF file; a Type 5 tag has an identifier, high byte first, and
blocks of so many bytes.
`> HEX` or `> HEX/BITS` comes by standard input, `< HEX`, `< HEX/BITS` or `-` goes by standard output. With `--cut N` the tag is gone at the command with
this number, counted from 0, which it still obeys with `--obeys`. The file has what the tag holds at each moment.
"""

from __future__ import annotations

import argparse
import re
import sys
from pathlib import Path

from readers.pipe import spelled
from zevlodek import Fault, Type2Tag, Type4Tag, Type5Tag

COMMAND = re.compile(r"> (-|(?:[0-9A-F]{2})+)(?:/([1-7]))?")


def tag_of(told: argparse.Namespace) -> Type2Tag | Type4Tag | Type5Tag:
    """The tag that the words name, as its file has it."""
    memory, locked = told.file.read_bytes(), tuple(told.locked)
    if told.type == 2:
        return Type2Tag(memory, locked)
    return Type4Tag(memory[: told.container], memory[told.container :]) if told.type == 4 else Type5Tag(bytes.fromhex(told.id), memory, told.block, locked)


def serve(path: Path, tag: Type2Tag | Type4Tag | Type5Tag, cut: int, obeys: bool) -> None:
    for number, line in enumerate(sys.stdin):
        found = COMMAND.fullmatch(line.rstrip("\n"))
        if number == cut and not obeys:
            return
        answer = None
        if found:
            content = b"" if found[1] == "-" else bytes.fromhex(found[1])
            answer = tag.obey(content, int(found[2] or 0)) if len(content) <= 288 else None
            path.write_bytes(tag.memory)
        if number == cut:
            return
        print(f"< {spelled(*answer)}" if answer else "-", flush=True)


def main() -> int:
    words = argparse.ArgumentParser(description=__doc__.split("\n")[0])
    words.add_argument("file", type=Path)
    words.add_argument("--type", type=int, choices=(2, 4, 5), default=2)
    words.add_argument("--id", default="E004010203040506")
    words.add_argument("--block", type=int, choices=(4, 8, 16, 32), default=4)
    words.add_argument("--container", type=int, default=15)
    words.add_argument("--cut", type=int, default=-1)
    words.add_argument("--obeys", action="store_true")
    words.add_argument("--locked", type=int, nargs="*", default=[])
    told = words.parse_args()
    try:
        serve(told.file, tag_of(told), told.cut, told.obeys)
    except (OSError, ValueError, Fault) as fault:
        print(f"tag.py: {fault}", file=sys.stderr)
        return 1
    except BrokenPipeError:
        pass
    return 0


if __name__ == "__main__":
    sys.exit(main())
