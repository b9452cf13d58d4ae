"""Files of Proxmark in JSON.

`"FileType": "mfu"` (Type 2) or one that begins with `15693` (Type 5), the hexadecimal blocks under `"blocks"` by their
decimal numbers, and perhaps the identifier as `"UID"` or `"uid"` under `"Card"`.
"""

import json
import re

from dumps.dump import T2_BLOCK_SIZE, Dump, DumpError, check_length, hex_bytes, high_first, joined


def is_text(text):
    return text.startswith("{")


def read(text):
    try:
        record = json.loads(text)
    except (ValueError, RecursionError):
        raise DumpError("unknown format: it begins like JSON and isn't") from None
    kind = kind_of(record.get("FileType"))
    parts = blocks_of(record.get("blocks"))
    memory = joined(parts, "block")
    size = T2_BLOCK_SIZE if kind == "t2" else len(parts[0])
    for number, part in parts.items():
        check_length(part, f"block {number}", size)
    ident = ident_of(record.get("Card"))
    return Dump(memory, kind, high_first(ident) if kind == "t5" else ident, size)


def kind_of(file_type):
    if file_type == "mfu":
        return "t2"
    if isinstance(file_type, str) and file_type.startswith("15693"):
        return "t5"
    if file_type is None:
        raise DumpError("unknown format: JSON without FileType")
    raise DumpError(f"FileType {file_type!r} is no Type 2 or Type 5 tag")


def blocks_of(blocks):
    if not isinstance(blocks, dict):
        raise DumpError("the dump has no blocks")
    parts = {}
    for key, value in blocks.items():
        if not re.fullmatch(r"[0-9]{1,6}", key) or not isinstance(value, str):
            raise DumpError(f"unknown format: block {key!r} isn't hexadecimal text under a number")
        parts[int(key)] = hex_bytes(value, f"block {key}")
    return parts


def ident_of(card):
    """The identifier, which stands under a name in large or in small letters."""
    named = [card[name] for name in ("UID", "uid") if name in card] if isinstance(card, dict) else []
    return hex_bytes(named[0], "UID") if named and isinstance(named[0], str) else None


def write(tag):
    """A file of a tag: its kind, identifier and blocks, and no more."""
    file_type, named = ("mfu", "UID") if tag.kind == "t2" else ("15693 v4", "uid")
    size = tag.block_size
    starts = range(0, len(tag.memory), size)
    blocks = {str(number): tag.memory[start : start + size].hex().upper() for number, start in enumerate(starts)}
    card = {named: tag.ident.hex().upper()}
    record = {"Created": "proxmark3", "FileType": file_type, "Card": card, "blocks": blocks}
    return json.dumps(record, indent=2) + "\n"
