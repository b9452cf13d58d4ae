"""writes a report as a capture for Wireshark, each frame with its words

    python3 tools/nfc.py pcap [REPORT] [--crc] -o FILE.pcapng

The capture has each frame, damaged, lost and broken ones too, with a comment that says so. What Wireshark shows of it
by itself, and what with tools/wireshark/nfc_forum.lua: tools/README.md. The packets' form: tools/to_pcap.py.
"""

from __future__ import annotations

import to_pcap
from commands.given import Words


def main(words: list[str]) -> int:
    parser = Words("pcap", __doc__)
    to_pcap.add_words(parser)
    to_pcap.run(parser.parse_args(words))
    return 0
