"""Texts as the bytes that are handed over, and the word that several calls know."""

from lokwurmi.errors import WrongType

WHILE_RUNNING = "--while-running"
"""The word of `chain` by which each task reads only while it runs."""


def bytes_of(text: str) -> bytes:
    """The bytes of a text; those that were no UTF-8 are what they were. Other halves of pairs have none."""
    try:
        return text.encode("utf-8", "surrogateescape")
    except UnicodeEncodeError as fault:
        raise WrongType(f"{text[fault.start]!r} is half of a pair of UTF-16, which no text has") from fault


def text_of(read: bytes) -> str:
    """The text that bytes are; those that are no UTF-8 stay recognisable."""
    return read.decode("utf-8", "surrogateescape")
