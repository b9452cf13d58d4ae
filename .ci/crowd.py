#!/usr/bin/env python3
"""Compares what a search for Type 5 tags tells with the tags that are there: crowd.py PROGRAM.

Three tags, two of which share a slot, are searched for with each transmission lost, damaged, and the field lost at it, and with each
pair of them lost; then random sets of tags under ten thousand random lists of fates. Of each search, by the report alone: what it
lists are tags that are there, ascending; one is missing only where noise met each of the last four questions who is left, and none
where a pass met no noise; each pass is short; it is disturbed exactly where four passes were answered, and only where each met noise;
the field is lost exactly where a Break was used. `.ci/run` runs it on the program that the gate has built.
"""

import itertools
import random
import subprocess
import sys
from dataclasses import dataclass

# How many seconds one run may take.
TIME = 120
QUESTION = "260100"
MOST_PASSES = 4
MOST_ROUNDS = 121
SLOTS_BEHIND_THE_FIRST = 15
THREE = ("E004010203040506", "E004010203040516", "E004010203040507")
TRANSMISSIONS = 43


@dataclass
class Turn:
    """A request with its fate, and the fate of what came back, if anything did."""

    request: str
    fate: str
    back: str = ""

    @property
    def is_noisy(self):
        return self.fate != "pass" or self.back not in ("", "pass")

    @property
    def is_answered_question(self):
        return self.request == QUESTION and self.back in ("pass", "damage")


def passes_of(turns):
    """The turns pass by pass: a pass ends with a question that is answered."""
    passes = [[]]
    for turn in turns:
        passes[-1].append(turn)
        if turn.is_answered_question:
            passes.append([])
    return [each for each in passes if each]


def is_short(turns):
    """Whether a pass has no more rounds, and no more slots, than a crowd needs."""
    rounds = sum(turn.request.startswith("06") for turn in turns)
    slots = sum(turn.request == "-" for turn in turns)
    return rounds <= MOST_ROUNDS and slots <= SLOTS_BEHIND_THE_FIRST * MOST_ROUNDS


def is_lost(turns):
    return any("break" in (turn.fate, turn.back) for turn in turns)


def breaks_law(placed, turns, answer):
    """What is wrong with an answer, if anything is."""
    passes = passes_of(turns)
    answered = sum(turn.is_answered_question for turn in turns)
    noisy = [any(turn.is_noisy for turn in each) for each in passes]
    if not all(map(is_short, passes)):
        return "a pass is too long"
    if (answer == "field lost") != is_lost(turns):
        return "the field is lost where no Break was used, or the other way"
    if (answer == "disturbed") != (answered == MOST_PASSES) or (answer == "disturbed" and not all(noisy)):
        return "disturbed by no noise, or not told"
    if answer in ("field lost", "disturbed"):
        return ""
    word, count, *listed = answer.split(" ")
    if word != "crowd" or int(count) != len(listed) or listed != sorted(set(listed)) or not set(listed) <= set(placed):
        return "what is listed aren't placed tags, ascending"
    if set(listed) == set(placed):
        return ""
    if not all(noisy):
        return "one is missing behind a pass without noise"
    last = turns[-4:]
    return "" if all(turn.request == QUESTION and turn.is_noisy for turn in last) else "one is missing without noise at the last questions"


def entries(report):
    """Of each line of a script its turns and its answer."""
    turns = []
    for line in report.splitlines():
        _, mark, *rest = line.split(" ")
        if mark == ">":
            turns.append(Turn(*rest))
        elif mark in ("<", "*"):
            turns[-1].back = rest[-1]
        elif mark != "!":
            yield turns, line.split(" ", 1)[1]
            turns = []


def faults_of(program, placed, lists):
    """The searches of a script, one under each list of fates, that break the law. Fates that are left go on into the next one."""
    places = [f"place t5 {tag} 4 4 E14001000300FE" for tag in placed]
    script = places + [line for fates in lists for line in ([f"fates {fates}"] if fates else []) + ["crowd"]]
    ended = subprocess.run([program, "run"], input="\n".join(script) + "\n", capture_output=True, text=True, timeout=TIME)
    if ended.returncode:
        raise RuntimeError(f"status {ended.returncode}: {ended.stdout[-200:]}")
    told = zip(script, entries(ended.stdout), strict=True)
    for line, (turns, answer) in told:
        fault = breaks_law(placed, turns, answer) if line == "crowd" else ""
        if fault:
            yield f"{fault}: {placed}, {' '.join(turn.fate[0] for turn in turns)}"


def with_letter(letter, *places):
    """Fates in which these transmissions have this one, and those before the last of them pass."""
    return "".join(letter if place in places else "P" for place in range(max(places) + 1))


def of_three():
    """Each transmission of a search for three tags, and each pair of them."""
    singles = [with_letter(letter, place) for letter in "LDB" for place in range(TRANSMISSIONS)]
    pairs = [with_letter("L", *places) for places in itertools.combinations(range(TRANSMISSIONS), 2)]
    return ["", *singles, *pairs]


def random_tags(chosen):
    """Up to sixteen identifiers, each of which shares some last digits with one before."""
    tags = []
    for _ in range(chosen.randint(0, 16)):
        digits = "".join(chosen.choices("0123456789ABCDEF", k=14))
        if tags and chosen.random() < 0.8:
            shared = chosen.randint(1, 13)
            digits = digits[:-shared] + chosen.choice(tags)[-shared:]
        tags.append("E0" + digits)
    return tuple(dict.fromkeys(tags))


def random_fates(chosen):
    """A list of fates, from quiet to very noisy."""
    noise = chosen.choice((0, 0.02, 0.1, 0.3, 0.7))
    letters = chosen.choices("PDLB", weights=[1 - noise, noise / 2, noise / 2, noise / 40], k=chosen.randint(1, 120))
    return "".join(letters)


def main(program):
    chosen = random.Random(1)
    three = of_three()
    scripts = [(THREE, three[at : at + 400]) for at in range(0, len(three), 400)]
    scripts += [(random_tags(chosen), [random_fates(chosen) for _ in range(100)]) for _ in range(100)]
    faults = [fault for placed, lists in scripts for fault in faults_of(program, placed, lists)]
    for fault in faults[:10]:
        print(f"crowd: {fault}")
    if not faults:
        print("crowd: a search lists the tags that are there, and one is missing only by the noise at the end")
    return bool(faults)


if __name__ == "__main__":
    sys.exit(main(sys.argv[1]))
