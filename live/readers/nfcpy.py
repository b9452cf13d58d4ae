"""Readers that nfcpy knows. The chip finds and selects a tag, and does ISO-DEP; `exchange` carries a command and its answer.

nfcpy gives bytes alone: a Type 2 tag's acknowledgement of four bits comes as one byte, so one byte is taken for four bits there. A command
without an answer raises a TimeoutError, a damaged one a CommunicationError. As a target of NFC-DEP (`nfc.dep.Target`) the chip cuts and joins
payloads: `activate` gives the initiator's general bytes, `exchange` sends a reply and gives the next payload. Written from memory of nfcpy, whose
documentation wasn't at hand; tried neither with that library nor with a reader.
"""

from __future__ import annotations

from typing import Optional

from . import NoReader, NoTag

TECHNOLOGIES = ("106A",)


def is_type4(target) -> bool:
    """Whether SEL_RES says that the tag speaks ISO-DEP."""
    return bool(target.sel_res) and bool(target.sel_res[0] & 0x20)


class Reader:
    def __init__(self, path: str = "usb", kind: int = 0, ident: bytes = b"", seconds: float = 1.0):
        try:
            import nfc
            import nfc.clf
            import nfc.dep
            import nfc.tag
        except ImportError:
            raise NoReader("the library nfcpy isn't installed") from None
        self.nfc, self.seconds, self.kind = nfc, seconds, 0
        try:
            self.device = nfc.ContactlessFrontend(path)
        except OSError as fault:
            raise NoReader(f"no reader is at {path}: {fault.strerror or fault}") from None

    def find(self) -> tuple[int, bytes]:
        targets = [self.nfc.clf.RemoteTarget(name) for name in TECHNOLOGIES]
        target = self.device.sense(*targets, iterations=5, interval=0.2)
        if target is None:
            raise NoTag()
        self.kind = 4 if is_type4(target) else 2
        if self.kind == 4:
            self.tag = self.nfc.tag.activate(self.device, target)
            if self.tag is None:
                raise NoTag("the tag doesn't answer")
        return self.kind, bytes(target.sdd_res or b"")

    def transceive(self, command: bytes) -> Optional[tuple[bytes, int]]:
        try:
            if self.kind == 4:
                return bytes(self.tag.transceive(bytearray(command))), 0
            answer = bytes(self.device.exchange(bytearray(command), self.seconds))
        except (self.nfc.clf.CommunicationError, self.nfc.tag.TagCommandError):
            return None
        return answer, 4 if len(answer) == 1 else 0

    def listen(self, general: bytes) -> Optional[bytes]:
        while True:
            self.target = self.nfc.dep.Target(self.device)
            said = self.target.activate(timeout=1.0, gbt=general)
            if said is not None:
                return bytes(said)

    def hand(self, reply: Optional[bytes]) -> Optional[bytes]:
        try:
            payload = self.target.exchange(reply, self.seconds)
        except self.nfc.clf.CommunicationError:
            return None
        return None if payload is None else bytes(payload)

    def close(self) -> None:
        self.device.close()
