"""tells why a line of a script is refused, and which form was expected

    python3 tools/nfc.py why [SCRIPT]

The grammar is looked at first, then the conditions over the lines before. Nothing is run. The exit status is 2 where a
line is refused, as that of the run would be, and 0 where none is.
"""

from __future__ import annotations

from commands.given import Words, content_of
from frames.words import counted
from script.refusal import read_script


def main(words: list[str]) -> int:
    parser = Words("why", __doc__)
    parser.add_argument("script", nargs="?", default="-", help="the script; standard input where none is named")
    script = read_script(content_of(parser.parse_args(words).script))
    if script.refusal is None:
        print(f"no line is refused: {counted(len(script.obeyed), 'command')} in {counted(script.count, 'line')}")
        return 0
    print("\n".join(script.refusal.told))
    return 2
