#!/usr/bin/env python3
"""Runs the bench short of memory: memory.py PROGRAM.

Each script below is run with each request for memory refused in turn. Each of these runs has to end as the one with ample memory does, or with
status 5 and the report of the first lines that were obeyed, whole entries, behind which the fault stands. Where the words couldn't be taken nothing
is written. It tells how many requests each line makes. It needs a C compiler, `cc` or what CC names, for what stands between the program and its
memory; the gate runs without one, so it leaves this out.
"""

import os
import subprocess
import sys
import tempfile
import time
from pathlib import Path

from ends import SCRIPT

# How many seconds one run may take.
LIMIT = 120
MEMORY_FAULT = 5
FAULT_LINE = b"fault 5 memory\n"
ZEROS = "0" * 24
PEER = "place peer 08010203 3 128 1 1024"
LINK = "link 08010203 128 1"
# Writes of a Type 2 and of a Type 4 tag, puts of many units and gets.
SCRIPTS = {
    "a Type 2 tag": [
        f"place t2 01020304 16 {ZEROS}E11006000300FE",
        "write 01020304 gen:46:0",
        "write 01020304 gen:47:0",
    ],
    "a Type 4 tag": [
        "place t4 02030405 8 000F20003B000D0406E10402000000 0003D00000",
        "read 02030405",
        "write 02030405 gen:300:0",
    ],
    "puts": [PEER, LINK, "put gen:1024:0", "put gen:1025:0", "put D00000"],
    "every kind of line": SCRIPT.decode().splitlines(),
    "gets": [PEER, "offer 08010203 6B31 A1A2A3", LINK, "get 16 6B31", "get 2 6B31", "get 16 6B32"],
}
# Refuses the request of the program whose number REFUSED names, and writes to TOLD at its end how many it made. What the C library asks for itself
# isn't counted.
BETWEEN = r"""
#define _GNU_SOURCE
#include <errno.h>
#include <link.h>
#include <stdint.h>
#include <stdio.h>
#include <stdlib.h>

extern void *__libc_malloc(size_t);
extern void *__libc_calloc(size_t, size_t);
extern void *__libc_realloc(void *, size_t);
extern void *__libc_memalign(size_t, size_t);

static uintptr_t program_begins, program_ends;
static long refused, asked;
static int told;

static int find_program(struct dl_phdr_info *object, size_t size, void *data) {
    for (int i = 0; i < object->dlpi_phnum; i++) {
        uintptr_t begins = object->dlpi_addr + object->dlpi_phdr[i].p_vaddr;
        uintptr_t ends = begins + object->dlpi_phdr[i].p_memsz;
        if (object->dlpi_phdr[i].p_type != PT_LOAD) continue;
        if (!program_begins || begins < program_begins) program_begins = begins;
        if (ends > program_ends) program_ends = ends;
    }
    return 1;
}

__attribute__((constructor)) static void begin(void) {
    dl_iterate_phdr(find_program, NULL);
    refused = atol(getenv("REFUSED"));
    told = atoi(getenv("TOLD"));
}

static int is_refused(void *caller) {
    uintptr_t from = (uintptr_t)caller;
    if (from < program_begins || from >= program_ends || ++asked != refused) return 0;
    errno = ENOMEM;
    return 1;
}

__attribute__((destructor)) static void end(void) { dprintf(told, "%ld", asked); }

#define CALLER __builtin_return_address(0)
void *malloc(size_t size) { return is_refused(CALLER) ? NULL : __libc_malloc(size); }
void *calloc(size_t count, size_t size) { return is_refused(CALLER) ? NULL : __libc_calloc(count, size); }
void *realloc(void *old, size_t size) { return is_refused(CALLER) ? NULL : __libc_realloc(old, size); }
void *memalign(size_t align, size_t size) { return is_refused(CALLER) ? NULL : __libc_memalign(align, size); }
void *aligned_alloc(size_t align, size_t size) { return is_refused(CALLER) ? NULL : __libc_memalign(align, size); }
int posix_memalign(void **at, size_t align, size_t size) {
    if (is_refused(CALLER)) return ENOMEM;
    *at = __libc_memalign(align, size);
    return *at ? 0 : ENOMEM;
}
"""


def build(folder):
    """The library that stands between the program and its memory."""
    source, library = Path(folder, "between.c"), Path(folder, "between.so")
    source.write_text(BETWEEN)
    compiler = os.environ.get("CC", "cc")
    subprocess.run([compiler, "-O1", "-fPIC", "-shared", "-o", library, source], check=True)
    return library


def run(program, library, lines, refused=0):
    """The status and the output of a run whose request of this number is refused, none where it is 0, and how many it made."""
    ours, told = os.pipe()
    environment = {"LD_PRELOAD": str(library), "REFUSED": str(refused), "TOLD": str(told)}
    script = "".join(f"{line}\n" for line in lines).encode()
    ended = subprocess.run(
        [program, "run"], input=script, stdout=subprocess.PIPE, env=environment, pass_fds=[told], timeout=LIMIT
    )
    os.close(told)
    made = int(os.read(ours, 64) or -1)
    os.close(ours)
    return ended.returncode, ended.stdout, made


def fronts(report):
    """What the report of the first lines that were obeyed may be."""
    lines = report.splitlines(keepends=True)
    numbers = [line.split()[0] for line in lines]
    return {b"".join(lines[:i]) for i in range(len(lines) + 1) if i in (0, len(lines)) or numbers[i] != numbers[i - 1]}


def by_line(program, library, lines):
    """How many requests each line makes."""
    counts = [run(program, library, lines[:count])[2] for count in range(len(lines) + 1)]
    return [after - before for before, after in zip(counts, counts[1:])]


def wrong_ends(program, library, lines):
    """What is wrong where a request is refused, each in turn."""
    status, report, made = run(program, library, lines)
    short = {front + FAULT_LINE for front in fronts(report)} | {b""}
    for number in range(1, made + 1):
        ended, written, _ = run(program, library, lines, number)
        if (ended, written) != (status, report) and (ended != MEMORY_FAULT or written not in short):
            yield f"request {number} is refused: status {ended}, {written[-60:]!r}"
    if made < 1:
        yield "no request"


def main(program):
    wrong = 0
    with tempfile.TemporaryDirectory() as folder:
        library = build(folder)
        for name, lines in SCRIPTS.items():
            began = time.monotonic()
            faults = list(wrong_ends(program, library, lines))
            counts = " ".join(map(str, by_line(program, library, lines)))
            print(f"memory: {name}: {len(faults)} wrong, {time.monotonic() - began:.0f} s, requests by line {counts}")
            for fault in faults:
                print(f"memory: {name}: {fault}")
            wrong += len(faults)
    return bool(wrong)


if __name__ == "__main__":
    sys.exit(main(sys.argv[1]))
