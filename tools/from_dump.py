#!/usr/bin/env python3
"""Makes the `place` line of a script (docs/script.md) from a dump of a real tag.

Usage, from the repository's root:

    python3 tools/from_dump.py ntag213.nfc
    python3 tools/from_dump.py --type t2 ultralight.bin
    python3 tools/from_dump.py --type t5 --id E004010203040506 --block-size 4 < icode.txt
    python3 tools/from_dump.py --type t4 --id 04112233445566 ndef-file.bin

The line goes to standard output. Where there is none, one line on standard error says why, and the exit status is 1. A
tag that isn't formatted for NDEF is no error: the bench tells it.

Formats, told by what the file holds:

  raw       the tag's bytes from the first one on: a file whose name ends in .bin, or bytes that are no text. The 56
            bytes that Proxmark puts before them in the .bin of a Type 2 tag are left out: they are there where the
            check bytes of an identifier fit behind them, and not without them. Such a file needs no --type.
  hex       hexadecimal digits of either case, with any space and line ends between them.
  Flipper   `Filetype: Flipper NFC device`. Of Type 2 `Device type: NTAG/Ultralight`, or in older files the tag's name
            as `NTAG215`, with `Page N:` lines; pages from `Pages read:` on count as missing. Of Type 5 `Device type:
            ISO15693-3` or `SLIX` with `Block Count:` (decimal), `Block Size:` (hexadecimal) and `Data Content:`.
  Proxmark  JSON with `"FileType": "mfu"` (Type 2) or one that begins with `15693` (Type 5), the hexadecimal blocks
            under `"blocks"` by their decimal numbers, and perhaps the identifier as `"UID"` or `"uid"` under `"Card"`.
  TagInfo   the text of NXP TagInfo's full scan, with a line `[00] * 04:A2:B3 9D (UID0-UID2, BCC0)` for each page. What
            stands behind the first page that wasn't read whole is left out. The identifier stands behind `ID:`.

The formats of Flipper, Proxmark and TagInfo were written down without devices at hand: the tests' dumps are made by
hand.

Raw and hexadecimal dumps need --type. The identifier is that of --id, else the one that the file names, else, of
Type 2, bytes 0 to 2 and 4 to 7 of the memory, where the check bytes 3 and 8 fit. One of Proxmark's Type 5 dumps that
ends in E0 and doesn't begin so is taken to stand low byte first.

Type 2: a real tag has more behind the data area: dynamic lock bytes, configuration, password and its answer. The
simulated tag has no such pages, so all behind the area that byte 14 names is cut off. Blocks 0 to 3 stay as they are,
the lock bytes too, but they lock nothing: `lock` lines do (docs/script.md). Where bytes 12 and 14 name no area of a
single sector, the whole dump is taken, such pages included.

Type 4: the dump is the NDEF file, its two bytes of length first, not the message alone. --code is the size code, 8
where it isn't given. --container is the capability container; where it isn't given, one is made for a file of exactly
this length that all may read and write.

Type 5: the dump is all blocks from block 0 on. --block-size tells their size of raw and hexadecimal dumps, 4 where it
isn't given. Locked blocks aren't carried over.

Zeros at the end of the memory or file are left out of the line, since the bench fills up with them.
"""

import argparse
import sys

from dumps.dump import DumpError
from dumps.placing import MOST_CODE, place_line
from dumps.reading import read_dump


def add_words(parser):
    """The words that the tool takes."""
    parser.add_argument("dump", nargs="?", default="-", help="the dump; standard input where none is named")
    parser.add_argument("--type", choices=("t2", "t4", "t5"), help="the tag's type, needed for raw and hexadecimal")
    parser.add_argument("--id", help="the identifier, hexadecimal; of Type 5 high byte first")
    parser.add_argument("--block-size", type=int, help="Type 5: bytes of a block, 4 where not given")
    parser.add_argument("--code", type=int, default=MOST_CODE, help="Type 4: the size code, 8 where not given")
    parser.add_argument("--container", help="Type 4: the capability container, hexadecimal")


def words_of(words):
    parser = argparse.ArgumentParser(description="Makes the place line of a script from a dump of a tag.")
    add_words(parser)
    return parser.parse_args(words)


def read_content(name):
    if name == "-":
        return sys.stdin.buffer.read()
    with open(name, "rb") as file:
        return file.read()


def run(options):
    dump = read_dump(read_content(options.dump), options.dump)
    print(place_line(dump, options))


def main(words=None):
    options = words_of(words)
    try:
        run(options)
    except OSError as error:
        print("from_dump: " + ": ".join(filter(None, [error.filename, error.strerror])), file=sys.stderr)
        return 1
    except DumpError as error:
        print(f"from_dump: {error}", file=sys.stderr)
        return 1
    return 0


if __name__ == "__main__":
    sys.exit(main())
