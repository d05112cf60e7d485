"""Sectors that one byte value or one text fills, again and again: a disk, or a rescue, wrote them."""
from __future__ import annotations

import re

TEXT_BEGIN = re.compile(rb"[\t\n\r\x20-\x7e]{64}")
TEXT = re.compile(rb"[\t\n\r\x20-\x7e]+\Z")
LONGEST_TEXT = 128  # bytes, after which a fill text begins anew
KNOWN_BY = 16  # so many bytes of a text are sought behind it


def period_of(sector: bytes) -> int:
    """After how many bytes a sector repeats, if it is one value, 1, or one short text again and again; else 0."""
    if sector.count(sector[:1]) == len(sector):
        return 1
    if not TEXT_BEGIN.match(sector):
        return 0
    period = sector.find(sector[:KNOWN_BY], 1, LONGEST_TEXT + KNOWN_BY)
    is_again = period > 0 and sector[period:] == sector[:-period] and bool(TEXT.match(sector))
    return period if is_again else 0
