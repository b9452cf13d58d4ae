#!/usr/bin/env python3
"""Each stored script under tests/cases/ and examples/ through the program that was proved: what it writes, byte for byte, and the status
that it ends with.

`NAME.script` with `NAME.script.stdout` in `examples/`, or `NAME` with `NAME.stdout` in a folder of `tests/cases/`; `NAME.args` has other
words than `run`, one a line. Those of `tests/cases/sweep` are swept, and those of `tests/cases/audit` audited. The status is the number in
the fault line that ends the report, 1 where that is the line of an audit which found a fault, and else 0.
"""

import re
import subprocess
import sys
from concurrent.futures import ThreadPoolExecutor
from pathlib import Path

ROOT = Path(__file__).resolve().parent.parent
LIMIT = 120
# The folders whose scripts are run by another word.
WORDS = {"sweep": "sweep", "audit": "audit"}


def stored_scripts():
    """Each stored script, the words of its run, and the file of its report."""
    for report in sorted(ROOT.glob("tests/cases/*/*.stdout")) + sorted(ROOT.glob("examples/*.stdout")):
        script = report.with_suffix("")
        words = Path(f"{script}.args")
        said = words.read_text().split() if words.exists() else []
        yield script, [WORDS.get(script.parent.name, "run"), *said], report


def status_of(report):
    fault = re.search(rb"(?:^|\n)fault (\d) [^\n]*\n\Z", report)
    if fault:
        return int(fault[1])
    return 1 if re.fullmatch(rb"faulty line \d+\n", report) else 0


def check(program, script, words, report):
    """What differs, if anything does."""
    with open(script, "rb") as source:
        ran = subprocess.run([program, *words], stdin=source, stdout=subprocess.PIPE, timeout=LIMIT, check=False)
    wanted = report.read_bytes()
    if ran.stdout != wanted:
        return f"{script.relative_to(ROOT)}: another report"
    if ran.returncode != status_of(wanted):
        return f"{script.relative_to(ROOT)}: ended with {ran.returncode} and not with {status_of(wanted)}"
    return None


def main():
    program = str(Path(sys.argv[1]).resolve())
    scripts = list(stored_scripts())
    with ThreadPoolExecutor(2) as pool:
        wrong = [it for it in pool.map(lambda row: check(program, *row), scripts) if it]
    print(*wrong, sep="\n", end="\n" * bool(wrong))
    print(f"cases: {len(scripts) - len(wrong)} passed, {len(wrong)} failed")
    # A script without a report beside it would be run by nobody.
    kinds = (".stdout", ".args")
    alone = [it for it in ROOT.glob("tests/cases/*/*") if it.suffix not in kinds and not Path(f"{it}.stdout").exists()]
    print(*(f"{it.relative_to(ROOT)}: a script without a report" for it in alone), sep="\n", end="\n" * bool(alone))
    return 1 if wrong or alone or not scripts else 0


if __name__ == "__main__":
    sys.exit(main())
