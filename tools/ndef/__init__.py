"""NDEF messages in words, and some of them from words (NFC Forum NDEF 1.0 and its record types).

To the bench a message is bytes, and it never looks into them. What stands here is beside it.
"""
