"""Records of type Text (NFC Forum Text Record Type Definition): a status byte, a language code, then the text."""

from __future__ import annotations

IS_UTF_16, RESERVED_BIT, LENGTH_BITS = 0x80, 0x40, 0x3F
BYTE_ORDERS = {b"\xfe\xff": "utf-16-be", b"\xff\xfe": "utf-16-le"}


def read_text(payload: bytes) -> tuple[str, str, bool]:
    """Language, text, and whether it is in UTF-16; a ValueError tells why a payload says none."""
    if not payload:
        raise ValueError("the status byte is missing")
    status, behind = payload[0], payload[1:]
    if status & RESERVED_BIT:
        raise ValueError("the reserved bit of its status byte is set")
    length = status & LENGTH_BITS
    if length > len(behind):
        raise ValueError(f"it says {length} bytes of language, and {len(behind)} are there")
    is_wide = bool(status & IS_UTF_16)
    try:
        language = behind[:length].decode("ascii")
        return language, (wide_text if is_wide else narrow_text)(behind[length:]), is_wide
    except UnicodeDecodeError as fault:
        named = {"ascii": "its language is no ASCII", "utf-8": "it is no UTF-8"}
        raise ValueError(named.get(fault.encoding, "it is no UTF-16")) from None


def narrow_text(content: bytes) -> str:
    return content.decode("utf-8")


def wide_text(content: bytes) -> str:
    """UTF-16 by its byte order mark; high byte first where there is none."""
    order = BYTE_ORDERS.get(content[:2])
    return content[2:].decode(order) if order else content.decode("utf-16-be")


def make_text(language: str, text: str) -> bytes:
    code = language.encode("ascii")
    return bytes([len(code)]) + code + text.encode("utf-8")
