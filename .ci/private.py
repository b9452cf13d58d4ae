#!/usr/bin/env python3
"""Sees that a reader of public contracts needs nothing of specs/private; `.ci/run` runs it.

The definitions below the contract of each call that a crate exports are followed, and none of them may stand in a folder specs/private.
A call is exported where its crate's root names it, or the type whose method it is, in a `pub use`.
"""

import re
import sys

from specs import CRATES, Definition, Specs, imports_of

CALL = re.compile(r"^( *)pub fn (\w+)\b(.*?)^\1\{$", re.M | re.S)
OWNER = re.compile(r"^impl(?:<[^{]*?>)? (?:\w+ for )?(\w+)", re.M)


def exported_names(crate):
    """The names in the `pub use` lines of a crate's root."""
    roots = [crate / "src" / name for name in ("lib.rt", "main.rt")]
    text = "".join(root.read_text() for root in roots if root.exists())
    return set(re.findall(r"\w+", " ".join(re.findall(r"pub use [^;]*;", text))))


def public_calls(path, exported):
    """The exported calls of a file that have clauses: name and clauses of each."""
    text = path.read_text()
    for match in CALL.finditer(text):
        indent, name, head = match.groups()
        owners = OWNER.findall(text[:match.start()])
        shown = name in exported if not indent else bool(owners) and owners[-1] in exported
        if shown and re.search(r"requires|ensures", head):
            yield name, re.sub(r"^.*?(?=requires|ensures)", "", head, count=1, flags=re.S)


def reached(specs, path, name, clauses):
    """The definitions below the clauses of a call."""
    call = Definition(path, name)
    call.add(clauses)
    names = imports_of(path.read_text())[0]
    found = [specs.find(*names[word]) for word in call.uses() if word in names]
    return specs.below([one for one in found if one])


def main():
    specs, calls, wrong = Specs(), 0, []
    for crate in sorted(CRATES.iterdir()):
        exported = exported_names(crate)
        for path in sorted(crate.glob("src/**/*.rt")):
            for name, clauses in public_calls(path, exported):
                calls += 1
                wrong += [f"{path.relative_to(CRATES)}: `{name}` rests on `{one.name}` of {one.path.relative_to(CRATES)}"
                          for one in reached(specs, path, name, clauses) if "private" in one.path.relative_to(CRATES).parts]
    print("\n".join([*wrong, f"private: {calls} calls, {len(wrong)} wrong"]))
    sys.exit(1 if wrong else 0)


main()
