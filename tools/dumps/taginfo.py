"""Texts of NXP TagInfo's full scan.

A line for each page, its number hexadecimal, then marks of what is locked, then its bytes, then what they are:

    [00] * 04:A2:B3 9D (UID0-UID2, BCC0)

Bytes that the reader didn't get stand as `XX`, and those that no one may use as `--`. From the first page with such a
byte on nothing is taken. The identifier stands behind `ID:`; one of eight bytes is that of a Type 5 tag.
"""

import re

from dumps.dump import T2_BLOCK_SIZE, Dump, DumpError, check_length, has_check_bytes, high_first, joined

BYTE = r"(?:[0-9A-Fa-f]{2}|XX|\?\?|--)"
MARKS = r"[^\s0-9A-Fa-f]\S{0,2}"
PAGE = re.compile(rf"^\[([0-9A-Fa-f]{{2,4}})\]\s+(?:{MARKS}\s+)?({BYTE}(?:[ :]{BYTE})*)(?!\w)", re.MULTILINE)
IDENT = re.compile(r"^\s*ID: *((?:[0-9A-Fa-f]{2}:)+[0-9A-Fa-f]{2})\s*$", re.MULTILINE)
T5_ID_LENGTH = 8


def is_text(text):
    return PAGE.search(text) is not None


def read(text):
    pages = pages_of(text)
    memory = joined(pages, "page")
    ident = ident_of(text)
    kind = kind_of(ident, memory)
    size = T2_BLOCK_SIZE if kind == "t2" else len(pages[0])
    for number, page in pages.items():
        check_length(page, f"page {number}", size)
    return Dump(memory, kind, ident, size)


def pages_of(text):
    """The pages by their numbers, up to the first that wasn't read whole."""
    shown = {int(number, 16): re.split("[ :]", marks) for number, marks in PAGE.findall(text)}
    unread = [number for number, marks in shown.items() if not re.fullmatch("[0-9A-Fa-f]*", "".join(marks))]
    last = min(unread, default=max(shown) + 1)
    return {number: bytes.fromhex("".join(marks)) for number, marks in shown.items() if number < last}


def ident_of(text):
    found = IDENT.search(text)
    return high_first(bytes.fromhex(found[1].replace(":", ""))) if found else None


def kind_of(ident, memory):
    """The kind by the identifier's length, or by its check bytes; none where neither says it."""
    if ident is not None:
        return "t5" if len(ident) == T5_ID_LENGTH else "t2"
    return "t2" if has_check_bytes(memory) else None
