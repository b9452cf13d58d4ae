#!/usr/bin/env python3
"""The table of docs/map.md that says what each file of definitions is about, from the file's first comment; `.ci/run` compares it."""

import re

from pages import finish, keep
from specs import CRATES, ROOT, Specs


def crates():
    lines = (ROOT / "crates.txt").read_text().splitlines()
    return [line.split(":")[0].split()[0] for line in lines if line.strip() and not line.startswith("#")]


def first_sentence(text):
    """As far as the first stop behind which a sentence begins; what stands in brackets at its end names documents, and is left out."""
    sentence = re.split(r"\. (?=[A-Z(])", text)[0].rstrip(".")
    if sentence.endswith(")") and sentence.count("(") == 1:
        sentence = sentence[:sentence.index("(")].rstrip()
    return sentence


def main():
    specs, lines, wrong, files = Specs(), [], [], 0
    for crate in crates():
        rows = []
        for path in sorted((CRATES / crate / "specs").rglob("*.antt")):
            if path.name == "Lib.antt":
                continue
            text = first_sentence(specs.file(path).first_comment())
            if not text:
                wrong.append(f"{path.relative_to(ROOT)}: it doesn't begin with a comment that says what it is about")
            rows.append(f"| `{path.relative_to(CRATES / crate / 'specs')}` | {text} |")
        if rows:
            lines += ["", f"### {crate}", "", "| File | Defines |", "|---|---|", *rows]
            files += len(rows)
    wrong += keep("docs/map.md", "map.py", [*lines, ""])
    finish("map", f"{files} files", wrong)


main()
