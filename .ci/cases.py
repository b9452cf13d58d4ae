#!/usr/bin/env python3
"""What a new command, and a new kind of tag, adds a case to: two tables of docs/extending.md, which `.ci/run` compares.

A definition or lemma goes by all commands where its cases name nine variants of `Command` or more. A file goes by kinds of tags where
it names one of Type 4 by a variant, outside the tag's own crate and tests.
"""

import re

from pages import finish, keep
from specs import CRATES, Specs

LEAST = 9
OF_TYPE_4 = re.compile(r"\b(?:T4|Type4|PlaceT4|T4Upper)\b")


def variants():
    text = (CRATES / "bench_script" / "src" / "command.rt").read_text()
    body = re.search(r"^pub enum Command \{\n(.*?)^\}", text, re.M | re.S).group(1)
    return set(re.findall(r"^    ([A-Z]\w*)", body, re.M))


def goes_by(definition, commands):
    """How many commands its cases name, left of the sign `=`."""
    heads = [line.split(" = ")[0] for line in definition.lines if line.lstrip().startswith(definition.name + " ")]
    return len({word for head in heads for word in re.findall(r"[A-Z]\w*", head)} & commands)


def by_commands(commands):
    specs, rows, count = Specs(), [], 0
    for folder in ("specs", "proofs"):
        for path in sorted(CRATES.glob(f"*/{folder}/**/*.antt")):
            names = [f"`{one.name}`" for one in specs.file(path).definitions.values() if goes_by(one, commands) >= LEAST]
            count += len(names)
            if names:
                rows.append(f"| `{path.relative_to(CRATES)}` | {', '.join(names)} |")
    return ["| File | Goes by all commands |", "|---|---|", *rows], count


def by_kinds():
    """A row for each folder src and specs of a crate; of its proofs the number of files alone."""
    rows, count = [], 0
    for crate in sorted(path.name for path in CRATES.iterdir() if path.name != "t4t_tag"):
        proofs = sum(1 for path in (CRATES / crate / "proofs").rglob("*.antt") if OF_TYPE_4.search(path.read_text()))
        for folder in ("src", "specs"):
            files = sorted((CRATES / crate / folder).rglob("*.*t*"))
            names = [f"`{path.name}`" for path in files if path.suffix in (".rt", ".antt") and "tests" not in path.name
                     and OF_TYPE_4.search(path.read_text())]
            count += len(names)
            if names:
                rows.append(f"| `{crate}/{folder}` | {', '.join(names)} | {proofs if folder == 'specs' else ''} |")
    return ["| Folder | Files with a case of Type 4 | Files of proofs |", "|---|---|---|", *rows], count


def main():
    commands, named = by_commands(variants())
    kinds, files = by_kinds()
    wrong = keep("docs/extending.md", "cases.py", commands, "commands") + keep("docs/extending.md", "cases.py", kinds, "kinds of tags")
    finish("cases", f"{named} definitions and lemmas go by all commands, {files} files by kinds of tags", wrong)


main()
