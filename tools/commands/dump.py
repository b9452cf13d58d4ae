"""writes what a tag holds, from a report's `store` line, as the file of a dump

    python3 tools/nfc.py dump [REPORT] --script SCRIPT --format flipper -o tag.nfc
    python3 tools/nfc.py dump [REPORT] --type t5 --id E004010203040506 --block-size 4 --format proxmark -o tag.json
    python3 tools/nfc.py dump [REPORT] -o tag.bin

A report tells the bytes alone. What tag they are of is told by the script, or by words; raw bytes need neither. A
report of several `store` lines needs --line. `place` makes the tag's line from the file again.
"""

from __future__ import annotations

import argparse
import re
import sys
from typing import Callable

from commands.given import Words, content_of, opened, report_lines
from dumps import flipper, proxmark
from dumps.dump import T2_BLOCK_SIZE, Dump, hex_bytes
from dumps.placing import T5_BLOCK_SIZES, nfca_ident, t5_ident
from faults import BadInput
from frames.words import either
from script.refusal import Line, read_script

STORE = re.compile(r"([0-9]+) store (-|(?:[0-9A-F]{2})+)")
WRITERS: dict[str, Callable[[Dump], str]] = {"flipper": flipper.write, "proxmark": proxmark.write}


def main(words: list[str]) -> int:
    options = parser_of().parse_args(words)
    number, memory = store_of(options.report, options.line)
    if options.format == "raw":
        return write(options.output, memory)
    tag = tag_of_script(options.script, number, memory) if options.script else tag_of_words(options, memory)
    return write(options.output, WRITERS[options.format](tag).encode("ascii"))


def parser_of() -> Words:
    parser = Words("dump", __doc__)
    parser.add_argument("report", nargs="?", default="-", help="the report; standard input where none is named")
    parser.add_argument("--line", type=int, help="the number of the `store` line, where there are several")
    parser.add_argument("--format", choices=("raw", *WRITERS), default="raw", help="raw where it isn't given")
    parser.add_argument("--script", help="the script of the report, which tells kind and identifier")
    parser.add_argument("--type", choices=("t2", "t5"), help="the kind, where no script tells it")
    parser.add_argument("--id", help="the identifier, where no script tells it; of Type 5 high byte first")
    parser.add_argument("--block-size", type=int, choices=T5_BLOCK_SIZES, default=4, help="of Type 5; 4 if not given")
    parser.add_argument("-o", "--output", default="-", help="the file; standard output where none is named")
    return parser


def store_of(report: str, wanted: int | None) -> tuple[int, bytes]:
    """The number of a `store` line, and the bytes that it tells."""
    with opened(report) as lines:
        found = [match for match in map(STORE.fullmatch, report_lines(lines)) if match]
    if not found:
        raise BadInput("the report has no `store` line: only a `dump` of a script makes one")
    chosen = found if wanted is None else [match for match in found if int(match[1]) == wanted]
    if len(chosen) != 1:
        raise BadInput(f"choose a `store` line by --line: {either(match[1] for match in found)}")
    return int(chosen[0][1]), hex_bytes(chosen[0][2].replace("-", ""), "store")


def tag_of_script(name: str, number: int, memory: bytes) -> Dump:
    """The tag that the script's `dump` of this line names, as it was placed last before."""
    lines = [line for line in read_script(content_of(name)).obeyed if line.number <= number]
    if not lines or lines[-1].number != number or lines[-1].command.name != "dump":
        raise BadInput(f"line {number} of the script is no `dump`, so the report isn't of this script")
    ident = lines[-1].values[0]
    places = [line for line in lines if line.command.name.startswith("place ") and line.values[0] == ident]
    return tag_placed(places[-1], memory)


def tag_placed(line: Line, memory: bytes) -> Dump:
    kind = line.command.name.removeprefix("place ")
    if kind == "t4":
        raise BadInput("of a Type 4 tag there is the NDEF file alone, as raw bytes: --format raw")
    size = line.values[2] if kind == "t5" else T2_BLOCK_SIZE
    return whole(Dump(memory, kind, line.values[0], size))


def tag_of_words(options: argparse.Namespace, memory: bytes) -> Dump:
    if options.type is None or options.id is None:
        raise BadInput(f"a {options.format} file tells kind and identifier: give --script, or --type and --id")
    ident = hex_bytes(options.id.replace(":", " "), "--id")
    if options.type == "t2":
        return whole(Dump(memory, "t2", nfca_ident(ident), T2_BLOCK_SIZE))
    return whole(Dump(memory, "t5", t5_ident(ident), options.block_size))


def whole(tag: Dump) -> Dump:
    if not tag.memory or len(tag.memory) % tag.block_size:
        raise BadInput(f"{len(tag.memory)} bytes aren't whole blocks of {tag.block_size}")
    return tag


def write(name: str, content: bytes) -> int:
    if name != "-":
        with open(name, "wb") as file:
            file.write(content)
    elif sys.stdout.isatty() and not content.isascii():
        raise BadInput("raw bytes aren't text for a terminal: name a file with -o")
    else:
        sys.stdout.buffer.write(content)
        sys.stdout.buffer.flush()
    return 0
