"""Parts of pages that a script makes. Such a part stands between two marks, `<!-- made by .ci/NAME.py -->`
(with `, of ..` behind the name where a page has two of them) and `<!-- end -->`.

A script compares its part with the page, as the gate does; with the word `--write` behind its name it writes the part.
"""

import sys

from specs import ROOT

WRITE = "--write" in sys.argv[1:]


def keep(page, maker, lines, of=""):
    """Compares, or writes, the part of a page that `maker` makes of something. Answers what is wrong: nothing, or one line."""
    path = ROOT / page
    text = path.read_text()
    mark, end = f"<!-- made by .ci/{maker}{', of ' if of else ''}{of} -->\n", "<!-- end -->\n"
    if text.count(mark) != 1:
        return [f"{page}: the mark of {maker} stands there {text.count(mark)} times and not once"]
    before, _, rest = text.partition(mark)
    old, _, behind = rest.partition(end)
    new = "".join(line + "\n" for line in lines)
    if old == new:
        return []
    if WRITE:
        path.write_text(before + mark + new + end + behind)
        return []
    return [f"{page}: the part made by {maker} isn't what it makes now: run `python3 .ci/{maker} --write`"]


def finish(name, told, wrong):
    """Tells what a script found, and ends with its status."""
    print("\n".join(wrong + [f"{name}: {told}, {len(wrong)} wrong"]))
    sys.exit(1 if wrong else 0)
