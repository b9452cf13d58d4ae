"""The links of the stored scripts, as far as no noise met them: the payloads that the client sent, and the peer's replies."""

from __future__ import annotations

import re
from dataclasses import dataclass, field
from pathlib import Path
from typing import Iterator, Optional

ATR, ATR_ANSWER, EXCHANGE, EXCHANGED = b"\xd4\x00", b"\xd5\x01", b"\xd4\x06", b"\xd5\x07"
MORE, KIND = 0x10, 0xE0
HEX = re.compile(r"[0-9A-F]+")
CALLS = ("put", "get", "lookup", "unlink", "on", "puts", "raw", "close")


@dataclass
class Peer:
    """A peer by its MIU, window and limit, and what it offers."""

    sizes: tuple[int, int, int]
    offers: list[tuple[bytes, bytes]] = field(default_factory=list)


@dataclass
class Link:
    """A link that a line opened, with the peer's general bytes and the sizes of the client's end; of each put on it the slot of its client, the message and
    what was told; and the lines on it."""

    name: str
    peer: Peer
    general: bytes
    payloads: list[bytes] = field(default_factory=list)
    replies: list[bytes] = field(default_factory=list)
    puts: list[tuple[int, bytes, str]] = field(default_factory=list)
    theirs: bytes = b""
    sizes: tuple[int, int] = (128, 1)
    calls: list[list[str]] = field(default_factory=list)


def bytes_of(word: str) -> bytes:
    if word.startswith("gen:"):
        count, _, start = word[4:].partition(":")
        return bytes((int(start or 0) + i) % 256 for i in range(int(count)))
    return bytes.fromhex("" if word == "-" else word)


def puts_of(words: list[str], answer: str) -> list[tuple[int, bytes, str]]:
    """The puts of a line, each with the slot of its client."""
    if words[0] == "put":
        return [(0, bytes_of(words[1]), answer)]
    if words[0] == "on" and words[2] == "put":
        return [(int(words[1]), bytes_of(words[3]), answer)]
    if words[0] == "puts" and answer.startswith("puts "):
        told = [(word.split(":", 1), outcome.split(":")[1]) for word, outcome in zip(words[1:], answer.split(" ")[1:])]
        return [(int(slot), bytes_of(message), outcome) for (slot, message), outcome in told]
    return []


class Following:
    """The pieces of payloads and replies, joined, of one link after the other."""

    def __init__(self):
        self.link: Optional[Link] = None
        self.general, self.chains = b"", {EXCHANGE: b"", EXCHANGED: b""}

    def frame(self, name: str, peer: Optional[Peer], sizes: tuple[int, int], content: bytes) -> None:
        """A frame that came whole. What isn't of NFC-DEP, or no information, says nothing of payloads."""
        if content[:1] != b"\xf0" or len(content) < 4:
            return
        kind, rest = content[2:4], content[4:]
        if kind == ATR:
            self.general = rest[14:]
        elif kind == ATR_ANSWER and peer:
            self.link = Link(name, Peer(peer.sizes, list(peer.offers)), self.general, theirs=rest[15:], sizes=sizes)
            self.chains = {EXCHANGE: b"", EXCHANGED: b""}
        elif self.link and kind in self.chains and rest[0] & KIND == 0:
            self.chains[kind] += rest[1:]
            if not rest[0] & MORE:
                (self.link.payloads if kind == EXCHANGE else self.link.replies).append(self.chains[kind])
                self.chains[kind] = b""

    def over(self) -> Iterator[Link]:
        if self.link and self.link.replies:
            yield self.link
        self.link = None


def report_of(script: Path) -> dict[int, list[str]]:
    report: dict[int, list[str]] = {}
    for line in script.with_name(script.name + ".stdout").read_text(errors="replace").split("\n"):
        number, _, text = line.partition(" ")
        if number.isdigit():
            report.setdefault(int(number), []).append(text)
    return report


def links_of(script: Path) -> Iterator[Link]:
    """A link is followed to its end, to the first noise, and to the first line that changes what the peer offers."""
    report, peers, following = report_of(script), {}, Following()
    for number, line in enumerate(script.read_text(errors="replace").split("\n"), 1):
        words, (*passed, answer) = line.split(" "), report.get(number, [""])
        if answer == "ok" and words[:2] == ["place", "peer"]:
            peers[words[2]] = Peer((int(words[4]), int(words[5]), int(words[6])))
        elif answer == "ok" and words[0] == "offer":
            yield from following.over()
            peers[words[1]].offers.append((bytes_of(words[2]), bytes_of(words[3])))
        if following.link and words[0] in CALLS:
            following.link.calls.append(words)
        for text in passed:
            sign, word, *fate = text.split(" ")
            if sign == "!" or fate != ["pass"]:
                yield from following.over()
            elif HEX.fullmatch(word):
                peer, sizes = (peers.get(words[1]), (int(words[2]), int(words[3]))) if words[0] == "link" else (None, (128, 1))
                following.frame(f"{script.parent.name}/{script.name} {number}", peer, sizes, bytes.fromhex(word))
        if following.link:
            following.link.puts += puts_of(words, answer)
    yield from following.over()
