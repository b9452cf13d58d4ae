#!/usr/bin/env python3
"""What has to be believed: the definitions that a contract or a law rests on, name by name; `.ci/run` runs it.

Three are counted: the contract of the program's `run_bench`; the law of a write, given the images of a store; the law of links, given
a story. Definitions of std and of the kit's crates aren't counted, nor proofs, which nobody has to believe. A type of the code that
a definition names counts by its lines in src/. README.md has the numbers, and docs/laws.md begins with the definitions of both laws.
"""

import re

from pages import finish, keep
from specs import CRATES, Definition, Specs, imports_of

CONTRACT = ("nfc_bench/src/top.rt", "run_bench")
LAWS = [("the law of a write, of the images of a store", "tag_writer/specs/Law.antt", "WriteLaw"),
        ("the law of links, of the story of a link", "bench_world/specs/LinkLaw.antt", "KeepsLinkLaw")]


def contract_words(path, call):
    """The words of a call's clauses, what its file imports for them, and the line of its first `ensures`."""
    text = (CRATES / path).read_text()
    body = re.search(rf"^pub fn {call}\b.*?^{{$", text, re.M | re.S)
    one = Definition(CRATES / path, call)
    one.add(re.sub(r"^.*?(?=requires|ensures)", "", body.group(0), count=1, flags=re.S))
    at = text[:body.start()].count("\n") + body.group(0)[:body.group(0).index("ensures")].count("\n") + 1
    return one.uses(), imports_of(text)[0], at


def below_contract(specs, path, call):
    words, names, at = contract_words(path, call)
    return specs.below([specs.find(*names[word]) for word in words if word in names]), at


def count(found):
    lines = sum(len(one.lines) for one in found)
    return f"{len(found):,} definitions, {lines:,} lines, {len({one.path for one in found})} files"


def file_rows(found):
    """The definitions of each file, in the order in which they are met."""
    by_file = {}
    for one in found:
        by_file.setdefault(one.path, []).append(f"`{one.name}`")
    return [f"| `{path.relative_to(CRATES)}` | {', '.join(names)} |" for path, names in by_file.items()]


def lost(specs):
    """The names that a file of definitions takes from a file of this repository, and that aren't found there."""
    wrong = []
    for path in sorted(CRATES.glob("*/specs/**/*.antt")):
        for module, name in specs.file(path).names.values():
            ours = name and (CRATES / module.split(".")[0]).exists() and ".specs.contracts." not in module
            found = specs.find(module, name) if ours else None
            if ours and not (found and found.lines):
                wrong.append(f"{path.relative_to(CRATES)}: `{name}` of {module} isn't found, so what it rests on isn't counted")
    return wrong


def main():
    specs = Specs()
    found, at = below_contract(specs, *CONTRACT)
    told = [count(found)]
    rows = ["| What to read | Where it stands, under `crates/` | It rests on |", "|---|---|---|",
            f"| the contract of `{CONTRACT[1]}`, all of the program | `{CONTRACT[0]}:{at}` | {told[0]} |"]
    parts = []
    for title, path, name in LAWS:
        law = specs.below([specs.file(CRATES / path).definitions[name]])
        told.append(count(law))
        rows.append(f"| {title}: `{name}` | `{path}` | {told[-1]} |")
        parts += ["", f"**{title[0].upper() + title[1:]}** (`{name}`): {told[-1]}.", "", "| File | Definitions |", "|---|---|",
                  *file_rows(law)]
    wrong = lost(specs) + keep("README.md", "trust.py", rows) + keep("docs/laws.md", "trust.py", parts[1:])
    finish("trust", "; ".join(told), wrong)


main()
