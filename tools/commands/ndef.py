"""tells the records of a message, or makes a message of one record

    python3 tools/nfc.py ndef HEX
    python3 tools/nfc.py ndef uri https://example.com/
    python3 tools/nfc.py ndef text en Hello
    python3 tools/nfc.py ndef mime text/plain 48656C6C6F

HEX is what a report shows behind `message`, and `-` a message of no bytes. The other three write the HEX that `write`
and `put` of a script take. To the bench a message is bytes: it never looks whether they are records.
"""

from __future__ import annotations

from commands.given import Words
from dumps.dump import hex_bytes
from faults import BadInput
from ndef.records import MIME, WELL_KNOWN, NoMessage, Record
from ndef.telling import bytes_text, message_lines
from ndef.text import LENGTH_BITS, make_text
from ndef.uri import make_uri

LONGEST_TYPE = 255


def main(words: list[str]) -> int:
    parser = Words("ndef", __doc__)
    parser.add_argument("words", nargs="+", metavar="HEX", help="a message, or uri, text or mime and what is told")
    first, *behind = parser.parse_args(words).words
    check_text(words)
    if first in MAKERS:
        print(MAKERS[first](behind).encoded.hex().upper())
    else:
        print("\n".join(told("".join([first, *behind]))))
    return 0


def check_text(words: list[str]) -> None:
    """Words that a terminal gave in another encoding can't be written as UTF-8."""
    try:
        " ".join(words).encode("utf-8")
    except UnicodeEncodeError:
        raise BadInput("the words are no UTF-8") from None


def told(digits: str) -> list[str]:
    message = b"" if digits == "-" else hex_bytes(digits, "HEX")
    try:
        return message_lines(message)
    except NoMessage as fault:
        raise BadInput(f"this is no NDEF message: {fault} ({bytes_text(message)})") from None


def uri_record(words: list[str]) -> Record:
    if len(words) != 1 or not words[0]:
        raise BadInput("behind uri stands one URI")
    return Record(WELL_KNOWN, b"U", None, make_uri(words[0]))


def text_record(words: list[str]) -> Record:
    if len(words) < 2:
        raise BadInput("behind text stand a language, as en, and the text")
    language = words[0]
    if not (language.isascii() and language.isprintable() and 0 < len(language) <= LENGTH_BITS):
        raise BadInput(f"{language!r} is no code of a language: it has 1 to {LENGTH_BITS} characters of ASCII")
    return Record(WELL_KNOWN, b"T", None, make_text(language, " ".join(words[1:])))


def mime_record(words: list[str]) -> Record:
    if len(words) < 2:
        raise BadInput("behind mime stand a type, as text/plain, and HEX")
    kind, content = words[0], "".join(words[1:])
    if not (kind.isascii() and kind.isprintable() and "/" in kind and len(kind) <= LONGEST_TYPE):
        raise BadInput(f"{kind!r} is no MIME type")
    return Record(MIME, kind.encode("ascii"), None, b"" if content == "-" else hex_bytes(content, "HEX"))


MAKERS = {"uri": uri_record, "text": text_record, "mime": mime_record}
