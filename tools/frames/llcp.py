"""LLCP, which two peers speak over NFC-DEP: PDUs, parameters, general bytes (docs/llcp.md)."""

from __future__ import annotations

from frames.snep import Snep
from frames.words import code, counted, hexadecimal

SYMM, AGF, UI, CONNECT, DISC, CC, DM, FRMR, SNL, I_PDU, RR, RNR = 0, 2, 3, 4, 5, 6, 7, 8, 9, 12, 13, 14
NAMES = {
    SYMM: "SYMM",
    AGF: "AGF",
    UI: "UI",
    CONNECT: "CONNECT",
    DISC: "DISC",
    CC: "CC",
    DM: "DM",
    FRMR: "FRMR",
    SNL: "SNL",
    I_PDU: "I",
    RR: "RR",
    RNR: "RNR",
}
FIXED_SAPS = {SYMM: (0, 0), AGF: (0, 0), SNL: (1, 1)}
FIXED_LENGTHS = {DM: 1, FRMR: 4, I_PDU: 1, RR: 1, RNR: 1}
ENDS_THERE = (SYMM, DISC, DM, FRMR, RR, RNR)
SNEP_SAP = 4

VERSION, MIUX, WKS, LTO, RW, SN, OPT, SDREQ, SDRES = range(1, 10)
PARAMETER_LENGTHS = {VERSION: 1, MIUX: 2, WKS: 2, LTO: 1, RW: 1, OPT: 1, SDRES: 2}
LEAST_MIU = 128
MAGIC = b"Ffm"


class Refused(ValueError):
    """Bytes that are no PDU: what is wrong with them, and at which place."""

    def __init__(self, kind: str, place: int) -> None:
        super().__init__(f"refused, {kind} at place {place}")


class Llcp:
    """The PDUs of a link. SNEP goes over the connections with its well-known service access point."""

    def __init__(self) -> None:
        self.connections: dict[frozenset[int], Snep] = {}

    def text(self, payload: bytes, up: bool) -> str:
        """What the payload is; `up` for one from target to initiator. One that is no PDU is told so as a whole."""
        try:
            check_pdu(payload, 0, len(payload), False)
        except Refused as refusal:
            return f"LLCP {refusal}"
        return f"LLCP {self.pdu_text(payload, up)}"

    def pdu_text(self, pdu: bytes, up: bool) -> str:
        target, kind, source = header(pdu)
        rest = pdu[2:]
        if kind == SYMM:
            return "SYMM"
        if kind == AGF:
            return f"AGF: {'; '.join(self.pdu_text(inner, up) for inner in inner_pdus(rest)) or 'nothing'}"
        if kind == SNL:
            return f"SNL{parameters_text(rest)}"
        if kind in (CONNECT, CC, DISC, DM, FRMR):
            self.connections.pop(frozenset((target, source)), None)
        return f"{NAMES[kind]} from {source} to {target}{self.rest_text(kind, rest, target, source, up)}"

    def rest_text(self, kind: int, rest: bytes, target: int, source: int, up: bool) -> str:
        if kind in (CONNECT, CC):
            return parameters_text(rest)
        if kind == UI:
            return f", {counted(len(rest), 'byte')}"
        if kind == DM:
            return f", reason {code(rest[0])}"
        if kind == FRMR:
            return f": {reject_text(rest)}"
        if kind in (RR, RNR):
            return f", N(R) {rest[0] & 15}"
        if kind != I_PDU:
            return ""
        numbers = f", N(S) {rest[0] >> 4}, N(R) {rest[0] & 15}"
        return f"{numbers}, {self.information_text(rest[1:], target, source, up)}"

    def information_text(self, information: bytes, target: int, source: int, up: bool) -> str:
        if SNEP_SAP not in (target, source):
            return counted(len(information), "byte")
        connection = self.connections.setdefault(frozenset((target, source)), Snep())
        return connection.text(information, up)


def header(pdu: bytes) -> tuple[int, int, int]:
    """DSAP, PTYPE and SSAP."""
    return pdu[0] >> 2, (pdu[0] & 3) << 2 | pdu[1] >> 6, pdu[1] & 63


def inner_pdus(rest: bytes) -> list[bytes]:
    """The PDUs of a well-formed AGF, each behind two bytes with its length."""
    inner = []
    while rest:
        end = 2 + int.from_bytes(rest[:2], "big")
        inner.append(rest[2:end])
        rest = rest[end:]
    return inner


def check_pdu(data: bytes, start: int, end: int, is_inner: bool) -> None:
    """Refuses the bytes from `start` to `end` by their first fault, if they are no PDU."""
    if end - start < 2:
        raise Refused("Short", end)
    target, kind, source = header(data[start:end])
    if kind not in NAMES:
        raise Refused("Ptype", start)
    if kind == AGF and is_inner:
        raise Refused("Nested", start - 2)
    if FIXED_SAPS.get(kind, (target, source)) != (target, source):
        raise Refused("Sap", start)
    behind = start + 2 + FIXED_LENGTHS.get(kind, 0)
    if behind > end:
        raise Refused("Short", end)
    if kind in ENDS_THERE and behind < end:
        raise Refused("Trailing", behind)
    if kind == AGF:
        check_inner(data, behind, end)
    if kind in (CONNECT, CC, SNL):
        check_parameters(data, behind, end)


def check_inner(data: bytes, start: int, end: int) -> None:
    """Refuses what an AGF holds, if one of its PDUs or lengths has a fault."""
    while start < end:
        behind = start + 2 + int.from_bytes(data[start : start + 2], "big")
        if start + 2 > end or behind > end:
            raise Refused("Short", end)
        check_pdu(data, start + 2, behind, True)
        start = behind


def check_parameters(data: bytes, start: int, end: int) -> None:
    """Refuses parameters without a length, longer than what is left, or known ones of another length."""
    while start < end:
        if start + 2 > end or start + 2 + data[start + 1] > end:
            raise Refused("Parameter", start)
        kind, length = data[start], data[start + 1]
        if PARAMETER_LENGTHS.get(kind, length) != length or (kind == SDREQ and length == 0):
            raise Refused("Parameter", start)
        start += 2 + length


def parameters(data: bytes) -> list[tuple[int, bytes]]:
    """Well-formed parameters with their values, in their order."""
    found = []
    while data:
        end = 2 + data[1]
        found.append((data[0], data[2:end]))
        data = data[end:]
    return found


def parameters_text(data: bytes) -> str:
    """Each known parameter, with a comma in front."""
    known = (parameter_text(kind, value) for kind, value in parameters(data) if kind in range(VERSION, SDRES + 1))
    return "".join(f", {text}" for text in known)


def parameter_text(kind: int, value: bytes) -> str:
    if kind == VERSION:
        return f"version {value[0] >> 4}.{value[0] & 15}"
    if kind == MIUX:
        return f"MIU {miu(value)}"
    if kind == WKS:
        return f"services {hexadecimal(value)}h"
    if kind == LTO:
        return f"link timeout {10 * value[0]} ms"
    if kind == RW:
        return f"RW {value[0] & 15}"
    if kind == SN:
        return f"SN {name_text(value)}"
    if kind == OPT:
        return f"options {code(value[0])}"
    if kind == SDREQ:
        return f"SDREQ {value[0]} {name_text(value[1:])}"
    return f"SDRES {value[0]} SAP {value[1]}"


def miu(value: bytes) -> int:
    """The low eleven bits of a MIUX, on top of the least MIU."""
    return LEAST_MIU + (int.from_bytes(value, "big") & 0x7FF)


def name_text(name: bytes) -> str:
    """A service's name; one that isn't plain text in hexadecimal."""
    is_plain = bool(name) and all(0x21 <= byte <= 0x7E for byte in name)
    return name.decode("ascii") if is_plain else hexadecimal(name)


def reject_text(rest: bytes) -> str:
    """What a FRMR rejects, and the numbers of the end that does."""
    flags = "".join(name for bit, name in ((0x80, "W"), (0x40, "I"), (0x20, "R"), (0x10, "S")) if rest[0] & bit)
    kind = NAMES.get(rest[0] & 15, f"PTYPE {rest[0] & 15}")
    sequence = f" with N(S) {rest[1] >> 4} and N(R) {rest[1] & 15}" if rest[0] & 15 == I_PDU else ""
    numbers = zip(("V(S)", "V(R)", "V(SA)", "V(RA)"), (rest[2] >> 4, rest[2] & 15, rest[3] >> 4, rest[3] & 15))
    return f"{flags or 'no flag'} of {kind}{sequence}, {', '.join(f'{name} {number}' for name, number in numbers)}"


def general_text(general: bytes) -> str:
    """What an end's general bytes say: version, MIU and services, or by which fault they aren't LLCP's."""
    told = counted(len(general), "general byte")
    if not general.startswith(MAGIC):
        return f"{told}, NoMagic"
    try:
        check_parameters(general, len(MAGIC), len(general))
    except Refused:
        return f"{told}, Malformed"
    last = dict(parameters(general[len(MAGIC) :]))
    if VERSION not in last:
        return f"{told}, NoVersion"
    if last[VERSION][0] >> 4 != 1:
        return f"{told}, OtherMajor"
    version, extension, services = last[VERSION][0], last.get(MIUX, bytes(2)), last.get(WKS, bytes(2))
    return f"LLCP {version >> 4}.{version & 15}, MIU {miu(extension)}, services {hexadecimal(services)}h"
