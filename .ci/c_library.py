#!/usr/bin/env python3
"""The C library: builds the static library of `zevlodek_c` over the libraries that the gate proved, and runs what is written in C.

`rt ci` proves a static library and builds none, and `rt lib` would prove all below it once more; so the kit's compiler is called here with the
words that `rt lib` gives it. It proves the crate itself again, once for both targets: the second takes what the first proved. For aarch64 the library is built,
and run only where a compiler of C and an emulator for it are there.
"""

import os
import re
import shutil
import subprocess
import sys
from pathlib import Path

ROOT = Path(__file__).resolve().parent.parent
KIT = Path(shutil.which("rt") or "rt").resolve().parent.parent
NAME = "zevlodek_c"
NEEDED = {"memcpy", "memmove", "memset", "rattle_alloc", "rattle_realloc", "rattle_dealloc"}
CROSS = "aarch64-linux-gnu-gcc"
TARGETS = ["x86_64-unknown-linux-gnu", "aarch64-unknown-linux-gnu"]


def lines_of_crates():
    """What each crate stands on, by its line of crates.txt."""
    rows = {}
    for line in (ROOT / "crates.txt").read_text().split("\n"):
        head, _, rest = line.partition("#")[0].partition(":")
        if head.strip():
            rows[head.split()[0]] = rest.split()
    return rows


def below(rows, name, found):
    for one in rows.get(name, []):
        if one in rows and one not in found:
            found.append(one)
            below(rows, one, found)
    return found


def words(target, archive):
    """The call of the compiler."""
    rows = lines_of_crates()
    rlib = {one: ROOT / "crates" / one / "out/rlib" / f"{one}.rlib" for one in below(rows, NAME, [])}
    told = [KIT / "bin/rattle", "build", "--crate-name", NAME, "src/lib.rt"]
    for one in ["std", *(one for one in rows[NAME] if one not in rows)]:
        told += ["--extern", f"{one}={KIT}/rlibs/{one}.rlib"]
    told += ["-L", f"dependency={KIT}/rlibs"]
    for one in rows[NAME]:
        told += ["--extern", f"{one}={rlib[one]}"] if one in rlib else []
    for path in rlib.values():
        told += ["-L", f"dependency={path.parent}"]
    told += ["--antt-project", KIT / "rattle/logic/antt-project.json", "--logic-built", KIT / "logic_built", "--links", f"{NAME}="]
    told += ["--incremental", ROOT / "crates" / NAME / "out/incremental"]
    told += ["--crate-type", "staticlib", "--target", target, "--backend", "llvm", "--toolchain", KIT / "toolchain", "-o", archive]
    return told


def built(target):
    """The archive of a target, or none where the compiler refuses."""
    archive = ROOT / "crates" / NAME / "out" / target / f"lib{NAME}.a"
    archive.parent.mkdir(parents=True, exist_ok=True)
    ran = subprocess.run(words(target, archive), cwd=ROOT / "crates" / NAME, stdin=subprocess.DEVNULL, capture_output=True, text=True, errors="replace")
    if ran.returncode:
        print(f"c_library: {NAME} isn't built for {target}\n{(ran.stdout + ran.stderr)[-2000:]}")
        return None
    return archive


def wrong_symbols(archive):
    """What the archive shows beside its calls, and what it needs beside six functions."""
    told = subprocess.run(["nm", "-g", archive], capture_output=True, text=True, check=True).stdout
    shown = set(re.findall(r" [TDBRV] (\S+)$", told, re.M))
    wanted = set(re.findall(r" U (\S+)$", told, re.M)) - shown
    own = {one for one in shown if not one.startswith("zev_")}
    return [f"{archive.parent.name}: it shows {one}" for one in sorted(own)] + [f"{archive.parent.name}: it needs {one}" for one in sorted(wanted - NEEDED)]


def run_c(archive, goal, *more):
    """Runs what is written in C over an archive: true where all of it passes."""
    return subprocess.run(["make", "-s", "-C", ROOT / "c", goal, f"PROVED={archive}", f"OUT={archive.parent / 'c'}", *more]).returncode == 0


def by_emulator(archive):
    """The same on aarch64, where a compiler of C and an emulator for it are there; true where they aren't."""
    emulator = shutil.which("qemu-aarch64-static") or shutil.which("qemu-aarch64")
    if not emulator or not shutil.which(CROSS):
        print(f"c_library: {archive.parent.name} isn't run")
        return True
    return run_c(archive, "plain", f"CC={CROSS} -static", f"AR={CROSS.replace('gcc', 'ar')}", f"RUN={emulator}")


def main():
    wrong = []
    for target in TARGETS:
        archive = built(target)
        if archive is None:
            wrong.append(f"{target}: not built")
            continue
        wrong += wrong_symbols(archive)
        passed = run_c(archive, "check") if target == f"{os.uname().machine}-unknown-linux-gnu" else by_emulator(archive)
        wrong += [f"{target}: what is written in C failed"] * (not passed)
    for one in wrong:
        print(f"c_library: {one}")
    print(f"c_library: {len(TARGETS)} targets, {len(wrong)} wrong")
    return 1 if wrong else 0


sys.exit(main())
