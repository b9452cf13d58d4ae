"""Which format a dump is in, told by what the file holds."""

from dumps import flipper, proxmark, raw, taginfo
from dumps.dump import DumpError


def read_dump(content, name=""):
    """Tells the format of a file's content, and reads it."""
    if not content:
        raise DumpError("the dump is empty")
    text = None if name.lower().endswith(".bin") else text_of(content)
    if text is None:
        return raw.read_bytes(content)
    for fits, read in READERS:
        if fits(text):
            return read(text)
    raise DumpError("unknown format")


READERS = (
    (flipper.is_text, flipper.read),
    (proxmark.is_text, proxmark.read),
    (raw.is_digits, raw.read_digits),
    (taginfo.is_text, taginfo.read),
)


def text_of(content):
    """The text that a content is, without space around it, or None where it is no text."""
    try:
        text = content.decode("utf-8-sig")
    except UnicodeDecodeError:
        return None
    is_text = all(mark.isprintable() or mark in "\t\r\n" for mark in text)
    return text.strip() if is_text else None
