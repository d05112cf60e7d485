"""A sector that was taken, and that another copy has too at a wrong place, with a few other bytes: then each of both can be the true one.

Files of one series have nearly the same sectors. So one of another file can stand over the one copy, where the other has it exchanged.
"""
from __future__ import annotations

import itertools
from collections.abc import Iterator
from typing import TYPE_CHECKING, Optional

from jls_tools.dicom.axis.align import Copy
from jls_tools.dicom.axis.media import SECTOR
from jls_tools.dicom.evidence.doubtful import places_of
from jls_tools.dicom.evidence.misplaced import MOST_LOOKS

if TYPE_CHECKING:
    from jls_tools.dicom.evidence.header import Header

SHARED = 4  # of a sector at a wrong place all but one byte in so many are equal
LEAST_ALIKE = 64  # and so many of these, at least, are neither zeros nor blanks
FILLERS = b"\0 "


def stands_otherwise(header: Header, data: bytes) -> Optional[int]:
    """Where a sector outside of frames begins of which a copy has another reading elsewhere."""
    borders = sorted({place // SECTOR * SECTOR for begin, end in header.outside(0, len(data)) for place in range(begin, end, SECTOR)})
    wrong = (sector for copy in header.copies for sector in not_taken(copy, data))
    for other in itertools.islice(wrong, MOST_LOOKS):
        alike = [border for border in borders if are_alike(data[border : border + SECTOR], other)]
        if len(alike) == 1 and next(places_of(other, data), None) is None:  # what is like several is like any other of its kind
            return alike[0]
    return None


def not_taken(copy: Copy, data: bytes) -> Iterator[bytes]:
    """The sectors of a copy of which most was not taken."""
    for border in range(0, len(data) - SECTOR + 1, SECTOR):
        own, taken = copy.data[border : border + SECTOR], data[border : border + SECTOR]
        if own != taken and apart(own, taken) * 2 > SECTOR and not copy.lacks(border, border + SECTOR):
            yield own


def apart(one: bytes, other: bytes) -> int:
    """How many bytes of two sectors differ."""
    mask = int.from_bytes(one, "big") ^ int.from_bytes(other, "big")
    return SECTOR - mask.to_bytes(SECTOR, "big").count(0)


def are_alike(one: bytes, other: bytes) -> bool:
    """Whether two sectors differ in a few bytes, and have many in common that fill nothing."""
    if len(one) != len(other) or apart(one, other) * SHARED > SECTOR:
        return False
    return sum(left == right and left not in FILLERS for left, right in zip(one, other)) >= LEAST_ALIKE
