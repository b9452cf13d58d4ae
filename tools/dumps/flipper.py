"""Files of the Flipper Zero.

`Filetype: Flipper NFC device`. Of Type 2 `Device type: NTAG/Ultralight`, or in older files the tag's name as
`NTAG215`, with `Page N:` lines; pages from `Pages read:` on count as missing. Of Type 5 `Device type: ISO15693-3` or
`SLIX` with `Block Count:` (decimal), `Block Size:` (hexadecimal) and `Data Content:`.
"""

import re

from dumps.dump import T2_BLOCK_SIZE, Dump, DumpError, check_length, hex_bytes, joined

FIRST_WORD = "Filetype:"
TITLE = "Filetype: Flipper NFC device"
T2_DEVICE = re.compile(r"NTAG.*|.*Ultralight.*")
T5_DEVICES = ("ISO15693-3", "SLIX")


def is_text(text):
    return text.startswith(FIRST_WORD)


def read(text):
    lines = text.splitlines()
    if lines[0].rstrip() != TITLE:
        raise DumpError("unknown format: a Flipper file of another kind")
    fields = {}
    for line in lines:
        key, colon, value = line.partition(":")
        if colon and not line.startswith("#"):
            fields[key.strip()] = value.strip()
    device = field_of(fields, "Device type")
    ident = hex_bytes(fields["UID"], "UID") if "UID" in fields else None
    if device in T5_DEVICES:
        return t5_dump(fields, ident)
    if T2_DEVICE.fullmatch(device):
        return Dump(pages_of(fields), "t2", ident)
    raise DumpError(f"{device} is no Type 2 or Type 5 tag")


def field_of(fields, key):
    if key not in fields:
        raise DumpError(f"the dump has no {key}")
    return fields[key]


def number_in(fields, key, base=10):
    value = field_of(fields, key)
    try:
        return int(value, base)
    except ValueError:
        raise DumpError(f"{key}: {value!r} is no number") from None


def pages_of(fields):
    read = number_in(fields, "Pages read") if "Pages read" in fields else None
    pages = {}
    for key, value in fields.items():
        match = re.fullmatch(r"Page ([0-9]{1,6})", key)
        if match and (read is None or int(match[1]) < read):
            page = pages[int(match[1])] = hex_bytes(value, key)
            check_length(page, key, T2_BLOCK_SIZE)
    return joined(pages, "page")


def t5_dump(fields, ident):
    count = number_in(fields, "Block Count")
    size = number_in(fields, "Block Size", 16)
    memory = hex_bytes(field_of(fields, "Data Content"), "Data Content")
    if len(memory) != count * size:
        raise DumpError(f"Data Content has {len(memory)} bytes, and {count} blocks of {size} have {count * size}")
    return Dump(memory, "t5", ident, size)


def write(tag):
    """A file of a tag that begins as the Flipper's own do, with what a simulated tag doesn't have as zeros."""
    fields = [("Version", "4"), *(t2_fields if tag.kind == "t2" else t5_fields)(tag)]
    return "".join([f"{TITLE}\n", *(f"{key}: {value}\n" for key, value in fields)])


def t2_fields(tag):
    size = T2_BLOCK_SIZE
    pages = [tag.memory[start : start + size] for start in range(0, len(tag.memory), size)]
    atqa = {4: "00 04", 7: "00 44", 10: "00 84"}[len(tag.ident)]
    counters = [field for number in range(3) for field in ((f"Counter {number}", "0"), (f"Tearing {number}", "00"))]
    return [
        ("Device type", "NTAG/Ultralight"),
        ("UID", spaced(tag.ident)),
        ("ATQA", atqa),
        ("SAK", "00"),
        ("Data format version", "2"),
        ("NTAG/Ultralight type", "Mifare Ultralight"),
        ("Signature", spaced(bytes(32))),
        ("Mifare version", spaced(bytes(8))),
        *counters,
        ("Pages total", len(pages)),
        ("Pages read", len(pages)),
        *((f"Page {number}", spaced(page)) for number, page in enumerate(pages)),
        ("Failed authentication attempts", "0"),
    ]


def t5_fields(tag):
    count = len(tag.memory) // tag.block_size
    return [
        ("Device type", "ISO15693-3"),
        ("UID", spaced(tag.ident)),
        ("DSFID", "00"),
        ("AFI", "00"),
        ("IC Reference", "00"),
        ("Lock DSFID", "false"),
        ("Lock AFI", "false"),
        ("Block Count", count),
        ("Block Size", f"{tag.block_size:02X}"),
        ("Data Content", spaced(tag.memory)),
        ("Security Status", spaced(bytes(count))),
    ]


def spaced(content):
    return content.hex(" ").upper()
