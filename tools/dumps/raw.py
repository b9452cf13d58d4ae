"""Dumps that are the memory alone, as bytes or as hexadecimal digits."""

import re

from dumps.dump import Dump, has_check_bytes, hex_bytes

# What Proxmark puts before the memory in the .bin file of a Type 2 tag: version, signature, counters.
PROXMARK_HEADER = 56
DIGITS = re.compile(r"[0-9A-Fa-f\s]+")


def read_bytes(content):
    """The bytes of a tag, behind a header where the check bytes of an identifier stand behind one alone."""
    has_header = not has_check_bytes(content) and has_check_bytes(content[PROXMARK_HEADER:])
    return Dump(content, header=PROXMARK_HEADER if has_header else 0)


def is_digits(text):
    return DIGITS.fullmatch(text) is not None


def read_digits(text):
    return read_bytes(hex_bytes(text, "the dump"))
