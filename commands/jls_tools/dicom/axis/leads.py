"""Bytes before the preamble of a copy: the header of an archive, of a message, or the rest of a block. They are no part of the file.

They are cut where another copy shows how the file begins (PS3.10, 7.1), and most of it is equal then. What all copies have there stays.
"""
from __future__ import annotations

from collections.abc import Sequence

from jls_tools.dicom.axis.media import MOST_LOST
from jls_tools.dicom.read.elements import has_prefix
from jls_tools.dicom.read.tags import FIRST, PREAMBLE, PREFIX

BEHIND, EQUAL = 512, 0.75  # of so many bytes behind DICM such a share is equal in both copies
BLOCK = 64


def leads(texts: Sequence[bytes]) -> dict[int, int]:
    """{a copy that has bytes before its preamble: how many}."""
    found = {}
    for at, text in enumerate(texts):
        models = [other for number, other in enumerate(texts) if number != at and has_prefix(other)]
        sizes = [] if any(is_alike(text, 0, model) for model in models) else [lead_of(text, model) for model in models]
        if any(sizes):
            found[at] = next(filter(None, sizes))
    return found


def is_alike(text: bytes, at: int, model: bytes) -> bool:
    """Whether a copy begins here as another one does."""
    own, other = text[at + FIRST : at + FIRST + BEHIND], model[FIRST : FIRST + BEHIND]
    return sum(one == two for one, two in zip(own, other)) >= EQUAL * len(other)


def is_mostly(text: bytes, begin: int, model: bytes) -> bool:
    """Whether most blocks of a file are equal in a copy, if it begins there. A foreign file over sectors has its beginning alone."""
    places = range(FIRST, len(model) - BLOCK + 1, BLOCK)
    return sum(text[begin + at : begin + at + BLOCK] == model[at : at + BLOCK] for at in places) * 2 > len(places)


def lead_of(text: bytes, model: bytes) -> int:
    """How many bytes stand before the first place where a copy begins as another one does; 0 if it does so nowhere."""
    at = text.find(PREFIX, FIRST, FIRST + MOST_LOST)
    while at >= 0:
        size = at - PREAMBLE
        if is_alike(text, size, model) and is_mostly(text, size, model):
            return size
        at = text.find(PREFIX, at + 1, FIRST + MOST_LOST)
    return 0
