"""What carries frames: a file a reader, each with a class `Reader` of three calls.

    find() -> (kind, identifier)              a tag of kind 2, 4 or 5, selected; `NoTag` where there is none
    transceive(command) -> (answer, bits)     or None where no answer came, or it was damaged
    close()

One that can also be a target of NFC-DEP has two more:

    listen(general) -> other's                the general bytes of an initiator that opened a link, to which these were said; None where no more come
    hand(reply) -> payload                    the reply goes out, None at first; then the payload that comes, or None where the link is over
"""


class NoReader(Exception):
    """Why there is no such reader here, in one sentence."""


class NoTag(Exception):
    """No tag is there."""

    def __init__(self, text: str = "no tag is there"):
        super().__init__(text)
