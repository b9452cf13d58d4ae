"""Records of type URI (NFC Forum URI Record Type Definition): a prefix by its code, then the rest."""

from __future__ import annotations

PREFIXES = (
    "",
    "http://www.",
    "https://www.",
    "http://",
    "https://",
    "tel:",
    "mailto:",
    "ftp://anonymous:anonymous@",
    "ftp://ftp.",
    "ftps://",
    "sftp://",
    "smb://",
    "nfs://",
    "ftp://",
    "dav://",
    "news:",
    "telnet://",
    "imap:",
    "rtsp://",
    "urn:",
    "pop:",
    "sip:",
    "sips:",
    "tftp:",
    "btspp://",
    "btl2cap://",
    "btgoep://",
    "tcpobex://",
    "irdaobex://",
    "file://",
    "urn:epc:id:",
    "urn:epc:tag:",
    "urn:epc:pat:",
    "urn:epc:raw:",
    "urn:epc:",
    "urn:nfc:",
)


def read_uri(payload: bytes) -> str:
    """The URI that a payload says; a ValueError tells why it says none."""
    if not payload:
        raise ValueError("the byte of the prefix is missing")
    if payload[0] >= len(PREFIXES):
        raise ValueError(f"prefix code {payload[0]:02X}h is reserved")
    try:
        return PREFIXES[payload[0]] + payload[1:].decode("utf-8")
    except UnicodeDecodeError:
        raise ValueError("it is no UTF-8") from None


def make_uri(uri: str) -> bytes:
    """The payload of a URI, with the prefix that leaves the least to say."""
    fitting = (code for code, prefix in enumerate(PREFIXES) if uri.startswith(prefix))
    code = max(fitting, key=lambda code: len(PREFIXES[code]))
    return bytes([code]) + uri[len(PREFIXES[code]) :].encode("utf-8")
