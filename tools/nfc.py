#!/usr/bin/env python3
"""One command for the tools beside the bench.

    python3 tools/nfc.py WORD ..

`--help` lists the words, and `WORD --help` tells each. The exit status is 0 where what was asked is done, and 2 for
bad input or wrong words, with one sentence on standard error. `run` ends with the program's own status
(docs/script.md), and with 1 where there is no program to run.
"""

from __future__ import annotations

import os
import sys

import commands
from faults import BadInput


def overview() -> str:
    """What `--help` writes: each word that there is, with its first line."""
    told = [f"  {word:<{commands.WIDTH}}  {commands.summary(word)}" for word in commands.words()]
    usage = "usage: nfc.py WORD .., where WORD is one of"
    behind = "nfc.py WORD --help tells each."
    return "\n".join([usage, "", *told, "", behind])


def close_output() -> None:
    """Nobody reads any longer: what is still to be written goes nowhere, and Python says nothing at its end."""
    os.dup2(os.open(os.devnull, os.O_WRONLY), sys.stdout.fileno())


def obeyed(words: list[str]) -> int:
    """The status of the word that stands first, with the words behind it."""
    if not words:
        print(overview(), file=sys.stderr)
        return 2
    if words[0] in ("-h", "--help"):
        print(overview())
        return 0
    if words[0] not in commands.words():
        raise BadInput(f"there is no word {words[0]!r}; the words are {', '.join(commands.words())}")
    return commands.obey(words[0], words[1:])


def main(words: list[str] | None = None) -> int:
    """The exit status. Bad input is one sentence, and never a traceback."""
    words = sys.argv[1:] if words is None else words
    try:
        status = obeyed(words)
        sys.stdout.flush()
        return status
    except BrokenPipeError:
        close_output()
        return 0
    except KeyboardInterrupt:
        return 130
    except BadInput as problem:
        sentence = str(problem)
    except OSError as problem:
        sentence = ": ".join(filter(None, [problem.filename, problem.strerror])) or str(problem)
    known = [word for word in words[:1] if word in commands.words()]
    print(f"{' '.join(['nfc', *known])}: {sentence}", file=sys.stderr)
    return 2


if __name__ == "__main__":
    sys.stdout = sys.stdout or open(os.devnull, "w")
    sys.stdout.reconfigure(errors="backslashreplace")
    sys.exit(main())
