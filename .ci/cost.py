#!/usr/bin/env python3
"""Runs the gate of the proofs, `rt ci`, and tells its cost crate by crate in processor-minutes; nothing in `.ci/run` needs it.

    python3 .ci/cost.py [WORDS ..]

At the top of the repository. WORDS go to `rt ci`: with none it does what was never done on this machine, with `--anew` all of it,
with names of crates these and those below them. While it runs, /proc is read twice a second: each process of the prover below
`rt ci` has the crate in its words, `--test` where it proves that crate's tests, and stands in a folder of its own where it tries
a wrong body. What such a process spent in its last half second isn't seen, so a sum is a little too small.

The table that it prints stands in docs/extending.md, with its date and machine. A crate whose line grows by half is something
that a reviewer asks about.
"""

import collections
import os
import subprocess
import sys
import time

TICKS = os.sysconf("SC_CLK_TCK")
KINDS = ("crate", "tests", "wrong bodies")


def processes():
    """Of each process its number, its parent's, when it began, its seconds of processor time, its words and its folder."""
    for name in filter(str.isdigit, os.listdir("/proc")):
        try:
            with open(f"/proc/{name}/stat", encoding="utf-8", errors="replace") as file:
                fields = file.read().rsplit(")", 1)[1].split()
            with open(f"/proc/{name}/cmdline", encoding="utf-8", errors="replace") as file:
                words = file.read().split("\0")
            folder = os.readlink(f"/proc/{name}/cwd")
        except OSError:
            continue  # it has ended, or isn't ours
        yield int(name), int(fields[1]), fields[19], (int(fields[11]) + int(fields[12])) / TICKS, words, folder


def is_below(number, top, parents):
    """Whether a process was begun by the one at the top, or by one that it began."""
    while number in parents and number != top:
        number = parents[number]
    return number == top


def kind_of(words, folder):
    """What the prover does: prove a crate, prove its tests, or try a wrong body (or what all wrong bodies of a crate begin with)."""
    if "rt-edit" in folder:
        return "wrong bodies"
    return "tests" if "--test" in words else "crate"


def look(top, spent):
    """Notes what each process of the prover has spent until now."""
    found = list(processes())
    parents = {number: parent for number, parent, *_ in found}
    for number, _, begun, seconds, words, folder in found:
        if os.path.basename(words[0]) == "rattle" and "--crate-name" in words and is_below(number, top, parents):
            crate = words[words.index("--crate-name") + 1]
            spent[number, begun] = (crate, kind_of(words, folder), seconds)


def table(spent):
    """A row a crate, the dearest first, and their sum."""
    sums = collections.defaultdict(lambda: dict.fromkeys(KINDS, 0.0))
    for crate, kind, seconds in spent.values():
        sums[crate][kind] += seconds / 60
    rows = sorted(sums.items(), key=lambda row: -sum(row[1].values()))
    whole = {kind: sum(row[kind] for _, row in rows) for kind in KINDS}
    yield f"| Crate | {' | '.join(KINDS)} | in all |"
    yield "|---|---|---|---|---|"
    for crate, row in [*((f"`{crate}`", row) for crate, row in rows), ("all", whole)]:
        yield f"| {crate} | {' | '.join(f'{row[kind]:.1f}' for kind in KINDS)} | {sum(row.values()):.1f} |"


def main(words):
    spent, began = {}, time.time()
    with subprocess.Popen(["rt", "ci", *words]) as run:
        while run.poll() is None:
            look(run.pid, spent)
            time.sleep(0.5)
    print(f"cost: {(time.time() - began) / 60:.0f} minutes by the clock, on {os.cpu_count()} processors; processor-minutes:")
    print("\n".join(table(spent)))
    return run.returncode


if __name__ == "__main__":
    sys.exit(main(sys.argv[1:]))
