"""makes the `place` line of a script from a dump of a real tag

    python3 tools/nfc.py place [DUMP]
"""

from __future__ import annotations

import from_dump
from commands.given import Words


def main(words: list[str]) -> int:
    parser = Words("place", __doc__)
    from_dump.add_words(parser)
    from_dump.run(parser.parse_args(words))
    return 0
