"""What the tools raise where something can't be done."""


class BadInput(Exception):
    """Why something can't be done, in one sentence."""
