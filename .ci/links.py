#!/usr/bin/env python3
"""Compares what a peer accepts with what was put: links.py PROGRAM.

Puts and new links are made under every list of eight fates out of damaged, lost and passed, with the field lost at each transmission in
turn, and at random; by one client, and by several at once. Of each client on each link, by the report alone: what the inbox tells of it is a
first part of its messages that are within the peer's limit, it covers all that were told `success`, and it is longer than those by one
message at most, that of its last put, at which the link ended. `puts` tells its outcomes in the line's order, each message that is within the
limit `success` and each longer one `reject`, unless the link ended. `.ci/run` runs it on the program that the gate has built.
"""

import itertools
import random
import subprocess
import sys
from collections import defaultdict
from dataclasses import dataclass, field

# How many seconds one run may take.
TIME = 120
# How many lines a script may have at most.
LINES = 1000
# The SAP of the client of slot 0; those of the others follow.
CLIENT_SAP = 32
PEER = "08010203"
LIMIT = 1024
PLACE = f"place peer {PEER} 3 128 1 {LIMIT}"
LINK = f"link {PEER} 128 1"


@dataclass
class Link:
    """The puts of one client on a link, each a message and its answer, and what the peer accepted of it there."""

    puts: list = field(default_factory=list)
    accepted: list = field(default_factory=list)


def counted(length, first):
    """So many bytes, counted on from the first one."""
    return bytes((first + i) % 256 for i in range(length))


def put(length, first):
    """A line that puts such a message."""
    return f"put gen:{length}:{first}"


def on(slot, length, first):
    """A line by which the client of a slot puts such a message."""
    return put(length, first) if slot == 0 else f"on {slot} put gen:{length}:{first}"


def puts(*words):
    """A line by which several clients put, each a slot and such a message."""
    return "puts " + " ".join(f"{slot}:gen:{length}:{first}" for slot, length, first in words)


def message_of(word):
    """The message that a word spells."""
    return counted(*map(int, word.split(":")[1:]))


def told_of(line, answer):
    """The puts of a line: of each its slot, its message, and what it was told."""
    words = line.split(" ")
    if words[0] == "put":
        return [(0, message_of(words[1]), answer)]
    if words[0] == "on":
        return [(int(words[1]), message_of(words[3]), answer)]
    outcomes = answer.split(" ")[1:] if answer.startswith("puts ") else [answer] * len(words)
    parts = [word.split(":", 1) for word in words[1:]]
    return [(int(slot), message_of(message), outcome.removeprefix(f"{slot}:")) for (slot, message), outcome in zip(parts, outcomes)]


def run(program, script):
    """The answers of a run, by the numbers of their lines."""
    ended = subprocess.run([program, "run", "quiet"], input="\n".join(script) + "\n", capture_output=True, text=True, timeout=TIME)
    if ended.returncode:
        raise RuntimeError(f"status {ended.returncode}: {ended.stdout[-200:]}")
    return {int(number): answer for number, answer in (line.split(" ", 1) for line in ended.stdout.splitlines())}


def links_of(script, answers):
    """The clients' links of a run, by their numbers and slots; those are told alone by the answers."""
    links = defaultdict(Link)
    here = None
    for number, line in enumerate(script, 1):
        answer = answers[number]
        word = line.split(" ")[0]
        if word == "link":
            here = int(answer.split(" ")[1]) if answer.startswith("linked ") else None
        elif word in ("put", "on", "puts") and here is not None:
            for slot, message, told in told_of(line, answer):
                links[here, slot].puts.append((message, told))
        elif word == "inbox":
            for told in answer.split(" ")[2:]:
                origin, message = told.split(":")
                link, _, sap = origin.partition(".")
                links[int(link), int(sap or CLIENT_SAP) - CLIENT_SAP].accepted.append(b"" if message == "-" else bytes.fromhex(message))
        if answer.startswith("link ended") or word in ("find", "unlink"):
            here = None
    return links


def is_prefix(prefix, whole):
    """Whether the whole list begins so."""
    return whole[: len(prefix)] == prefix


def breaks_law(link):
    """Whether the peer accepted on a link what it must not, or not what was told; or an outcome is another than the message's."""
    if any(not answer.startswith("link ended") and answer != ("success" if len(message) <= LIMIT else "reject") for message, answer in link.puts):
        return True
    fitting = [message for message, _ in link.puts if len(message) <= LIMIT]
    told = [message for message, answer in link.puts if answer == "success"]
    if not (is_prefix(link.accepted, fitting) and is_prefix(told, link.accepted)):
        return True
    if len(link.accepted) == len(told):
        return False
    message, answer = link.puts[-1]
    return len(link.accepted) > len(told) + 1 or link.accepted[-1] != message or not answer.startswith("link ended")


def faults_of(program, script):
    """The links of a script that break the law."""
    links = links_of(script, run(program, script))
    return [f"link {number}, slot {slot} of {script}" for (number, slot), link in sorted(links.items()) if breaks_law(link)]


def all_letters():
    """Behind a link each list of eight fates meets a put of two units and a small one."""
    for seed, fates in enumerate(itertools.product("DLP", repeat=8)):
        yield [LINK, "fates " + "".join(fates), put(200, seed % 256), put(1, seed % 256), "find"]


def each_break():
    """The field is lost at each transmission of a link, a put of three units and a small one in turn."""
    for place in range(90):
        yield ["fates " + "P" * place + "B", LINK, put(300, place), put(1, place), put(LIMIT + 1, place), LINK, put(3, place), "find"]


def several_letters():
    """Behind a link each list of eight fates meets two puts of two units at once, and a third behind them."""
    for seed, fates in enumerate(itertools.product("DLP", repeat=8)):
        yield [LINK, "fates " + "".join(fates), puts((0, 200, seed % 256), (1, 200, (seed + 9) % 256)), on(1, 3, seed % 256), "find"]


def several_breaks():
    """The field is lost at each transmission of puts by three clients and of two behind them in turn."""
    for place in range(110):
        yield ["fates " + "P" * place + "B", LINK, puts((3, 200, place), (0, 130, place), (7, LIMIT + 1, place)), on(3, 2, place), put(1, place), LINK, on(7, 3, place), "find"]


def each_silence():
    """From each transmission of two puts on, nothing passes for a while, or no answer does."""
    for place in range(40):
        for fates in ("D" * 12, "L" * 12, "PL" * 7, "PD" * 7, "P" + "L" * 12):
            yield [LINK, "fates " + "P" * place + fates, put(300, place), put(1, place), LINK, put(2, place), "find"]


def at_random(chosen):
    """Puts, losses and new links."""
    for _ in range(3000):
        fates = "".join(chosen.choices("PPPPPPDLLLB", weights=[1] * 10 + [0.2], k=chosen.randint(1, 30)))
        yield [LINK, f"fates {fates}", put(chosen.randint(0, LIMIT + 40), chosen.randint(0, 255)), chosen.choice([LINK, "unlink", put(0, 0), put(LIMIT, 7)])]


def several_at_random(chosen):
    """Puts by several clients, losses and new links."""
    for _ in range(2000):
        fates = "".join(chosen.choices("PPPPPPDLLLB", weights=[1] * 10 + [0.2], k=chosen.randint(1, 30)))
        slots = chosen.sample(range(8), chosen.randint(2, 8))
        words = [(slot, chosen.choice((0, 1, 122, 123, 300, LIMIT, LIMIT + 1)), chosen.randint(0, 255)) for slot in slots]
        yield [LINK, f"fates {fates}", puts(*words), on(chosen.randint(0, 7), chosen.randint(0, 200), 5), chosen.choice([LINK, "unlink", puts(*reversed(words))])]


def scripts(parts):
    """As many parts in each script as it has room for; an inbox ends it."""
    script = [PLACE]
    for part in parts:
        if len(script) + len(part) >= LINES:
            yield [*script, f"inbox {PEER}"]
            script = [PLACE]
        script += part
    yield [*script, f"inbox {PEER}"]


def main(program):
    chosen = random.Random(1)
    parts = itertools.chain(
        all_letters(), each_break(), each_silence(), at_random(chosen), several_letters(), several_breaks(), several_at_random(chosen)
    )
    faults = [fault for script in scripts(parts) for fault in faults_of(program, script)]
    for fault in faults[:10]:
        print(f"links: {fault}")
    if not faults:
        print("links: what a peer accepts is a prefix of what was put, and covers what was told")
    return bool(faults)


if __name__ == "__main__":
    sys.exit(main(sys.argv[1]))
