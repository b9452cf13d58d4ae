#!/usr/bin/env python3
"""Writes what went over the air in a report as a capture that Wireshark opens, each frame with its words.

Usage, from the repository's root:

    python3 tools/nfc.py pcap examples/one-tag.script.stdout -o one-tag.pcapng
    nfc_bench run < examples/one-tag.script | python3 tools/to_pcap.py > one-tag.pcapng

It reads a report (docs/report.md) from a file or from standard input. A report of `run quiet` holds no frames, and
gives a capture without packets. What is no report gives one line on standard error and exit status 2.

The capture is a pcapng file with two interfaces. Each packet has a comment: the line of the script, the frame's fate,
and what annotate.py tells of it, as in `line 6, lose: DEP_REQ: ATTENTION (nobody heard it)`.

Interface 0, `NFC-A`, has link type 264, LINKTYPE_ISO_14443. A packet is one byte of version (0), one byte that names
the event, two bytes of length, high byte first, and the data. The events are numbered as in the dissector of Wireshark
4.0 (epan/dissectors/packet-iso14443.c).

Interface 1, `NFC-V and clashes`, has link type 147, LINKTYPE_USER0. A packet is four bytes and the data:

  byte 0   the version of this header, 0
  byte 1   what it is: 0 a request of the reader, 1 an answer, 2 a clash, of which the data are the common first bits
  byte 2   the technology: 0 NFC-A, 1 NFC-V, 2 NFC-F
  byte 3   how many low bits of the last byte were sent, 1 to 7; 0 for all of them

What becomes of the lines:

  ! reset   two packets of interface 0 without data, field off and field on.
  > <       one packet each, as it was sent, whatever its fate. With the fate `break` a field off follows.
  * (clash) one packet of interface 1.
  NFC-V     one packet each of interface 1, and of NFC-F too. A report doesn't print a frame's technology; annotate.py
            tells it.

A frame of NFC-A without a bit goes to interface 1 too: the other one has no event for it.

Frames of a report have no check bytes (docs/air.md). So a frame of NFC-A that has a CRC on a real air gets the event
"CRC bytes were dropped"; short frames, SENS_RES, SDD_REQ, SDD_RES and answers of four bits have none, and get the
plain event. With --crc the check bytes of NFC-A are computed and appended, and the event is the plain one. Use it for
ISO-DEP: without its check bytes an R-block or S(DESELECT) of the reader is one byte, which the dissector takes for a
short frame.

On interface 0 a packet has whole bytes. Of a frame that ends within a byte (`/k` in the report) the last byte stands
whole, its unsent bits 0. Wireshark alone has no SDD_REQ with known bits: it reads one as a SEL_REQ that ends too early,
and an answer to it of at most three bytes as a SEL_RES. With tools/wireshark/nfc_forum.lua it doesn't.

The simulated air has no time: packets are 1 ms apart, the first at 0.
"""

from __future__ import annotations

import argparse
import struct
import sys
from typing import Iterable, NamedTuple

from commands.given import BadInput, opened, report_lines
from frames.entries import Event, entries
from frames.line import Frame

LINKTYPE_ISO_14443, LINKTYPE_USER0 = 264, 147
NFC_A, OTHER = 0, 1
NFC_F = 2
INTERFACES = ((LINKTYPE_ISO_14443, "NFC-A"), (LINKTYPE_USER0, "NFC-V and clashes"))
SNAPLEN = 0
STEP_US = 1000

# The events of the pseudo header, as packet-iso14443.c numbers them: a card is the PICC, a reader the PCD.
PICC_TO_PCD = 0xFF
PCD_TO_PICC = 0xFE
FIELD_OFF = 0xFD
FIELD_ON = 0xFC
PICC_TO_PCD_CRC_DROPPED = 0xFB
PCD_TO_PICC_CRC_DROPPED = 0xFA

KINDS = {">": 0, "<": 1, "*": 2}

SECTION_HEADER, INTERFACE_DESCRIPTION, ENHANCED_PACKET = 0x0A0D0D0A, 1, 6
BYTE_ORDER, UNKNOWN_LENGTH = 0x1A2B3C4D, -1
END_OF_OPTIONS, COMMENT, INTERFACE_NAME = 0, 1, 2

SDD_CODES = (0x93, 0x95, 0x97)
SEL_PAR_SELECT = 0x70


class Packet(NamedTuple):
    """What Wireshark shows as one packet."""

    interface: int
    content: bytes
    comment: str


def turn_has_crc(request: Frame) -> bool:
    """Whether a real request of NFC-A has check bytes; its answer of whole bytes has them exactly then."""
    if not request.is_whole or not request.data:
        return False
    is_sdd = request.data[0] in SDD_CODES and request.data[1:2] != bytes([SEL_PAR_SELECT])
    return not is_sdd


def crc_a(data: bytes) -> bytes:
    """The two check bytes of NFC-A (ISO/IEC 14443-3, CRC_A), low byte first."""
    crc = 0x6363
    for byte in data:
        crc ^= byte
        for _ in range(8):
            crc = crc >> 1 ^ (0x8408 if crc & 1 else 0)
    return struct.pack("<H", crc)


class Converter:
    """Turns the events of a report into packets."""

    def __init__(self, with_crc: bool = False) -> None:
        self.with_crc = with_crc
        self.request = Frame(b"")

    def packets(self, event: Event) -> list[Packet]:
        if event.mark == "!":
            told = f"line {event.line}: reset, the field"
            return [field_packet(FIELD_OFF, f"{told} is dark"), field_packet(FIELD_ON, f"{told} is lit")]
        if event.mark == ">":
            self.request = event.frame
        comment = f"line {event.line}, {event.fate}: {event.told}"
        packets = [self.transmission(event, comment)]
        if event.fate == "break":
            packets.append(field_packet(FIELD_OFF, f"line {event.line}: the field is lost"))
        return packets

    def transmission(self, event: Event, comment: str) -> Packet:
        if event.is_nfcv or event.is_nfcf or event.mark == "*" or not event.frame.data:
            technology = NFC_F if event.is_nfcf else int(event.is_nfcv)
            header = bytes([0, KINDS[event.mark], technology, event.frame.tail])
            return Packet(OTHER, header + event.frame.data, comment)
        return Packet(NFC_A, self.nfca_content(event.mark == ">", event.frame), comment)

    def nfca_content(self, from_reader: bool, frame: Frame) -> bytes:
        has_crc = turn_has_crc(self.request) and frame.is_whole
        if has_crc and not self.with_crc:
            return nfca_packet(PCD_TO_PICC_CRC_DROPPED if from_reader else PICC_TO_PCD_CRC_DROPPED, frame.data)
        data = frame.data + crc_a(frame.data) if has_crc else frame.data
        return nfca_packet(PCD_TO_PICC if from_reader else PICC_TO_PCD, data)


def nfca_packet(event: int, data: bytes) -> bytes:
    return struct.pack(">BBH", 0, event, len(data)) + data


def field_packet(event: int, comment: str) -> Packet:
    return Packet(NFC_A, nfca_packet(event, b""), comment)


def convert(lines: Iterable[str], with_crc: bool = False) -> list[Packet]:
    """The packets of a report's lines."""
    converter = Converter(with_crc)
    return [packet for entry in entries(lines) for event in entry.events for packet in converter.packets(event)]


def capture(packets: Iterable[Packet]) -> bytes:
    """The bytes of a pcapng file with these packets."""
    section = struct.pack("<IHHq", BYTE_ORDER, 1, 0, UNKNOWN_LENGTH)
    blocks = [block(SECTION_HEADER, section)]
    for link_type, name in INTERFACES:
        description = struct.pack("<HHI", link_type, 0, SNAPLEN)
        blocks.append(block(INTERFACE_DESCRIPTION, description + options(INTERFACE_NAME, name)))
    blocks += [packet_block(packet, place * STEP_US) for place, packet in enumerate(packets)]
    return b"".join(blocks)


def packet_block(packet: Packet, micros: int) -> bytes:
    length = len(packet.content)
    head = struct.pack("<IIIII", packet.interface, micros >> 32, micros & 0xFFFFFFFF, length, length)
    return block(ENHANCED_PACKET, head + padded(packet.content) + options(COMMENT, packet.comment))


def block(kind: int, body: bytes) -> bytes:
    """A block of pcapng: its length stands before its body and behind it."""
    length = struct.pack("<I", 12 + len(body))
    return struct.pack("<I", kind) + length + body + length


def options(code: int, text: str) -> bytes:
    """One option with a text, and the end of the options."""
    value = text.encode("utf-8")
    return struct.pack("<HH", code, len(value)) + padded(value) + struct.pack("<HH", END_OF_OPTIONS, 0)


def padded(content: bytes) -> bytes:
    return content + bytes(-len(content) % 4)


def write_capture(name: str, content: bytes) -> None:
    if name != "-":
        with open(name, "wb") as file:
            file.write(content)
    elif sys.stdout.isatty():
        raise BadInput("a capture isn't text for a terminal: name a file with -o")
    else:
        sys.stdout.buffer.write(content)
        sys.stdout.buffer.flush()


def add_words(parser: argparse.ArgumentParser) -> None:
    parser.add_argument("report", nargs="?", default="-", help="the report; standard input where none is named")
    parser.add_argument("-o", "--output", default="-", help="the capture; standard output where none is named")
    parser.add_argument("--crc", action="store_true", help="compute and append the check bytes of frames of NFC-A")


def run(chosen: argparse.Namespace) -> None:
    """Nothing is written before the whole report was read."""
    with opened(chosen.report) as report:
        packets = convert(report_lines(report), chosen.crc)
    write_capture(chosen.output, capture(packets))


def main(words: list[str] | None = None) -> int:
    parser = argparse.ArgumentParser(description="Writes the frames of a report as a capture for Wireshark.")
    add_words(parser)
    chosen = parser.parse_args(words)
    try:
        run(chosen)
    except BadInput as problem:
        print(f"to_pcap: {problem}", file=sys.stderr)
        return 2
    except OSError as problem:
        print("to_pcap: " + ": ".join(filter(None, [problem.filename, problem.strerror])), file=sys.stderr)
        return 2
    return 0


if __name__ == "__main__":
    sys.exit(main())
