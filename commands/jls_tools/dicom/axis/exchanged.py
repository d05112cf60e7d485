"""Sectors in which one copy has the bytes of each pair of another one exchanged: a wrong order of bytes makes all of a sector so.

One of both has all of it right. So what differs there is one range: elements that go on in one copy don't go over to the other.
"""
from __future__ import annotations

import itertools
from collections.abc import Iterator, Sequence

from jls_tools.dicom.axis.align import Copy
from jls_tools.dicom.axis.apart import are_exchanged
from jls_tools.dicom.axis.bad_places import Range, in_both
from jls_tools.dicom.axis.inserted import place_in
from jls_tools.dicom.axis.media import SECTOR


def of_one_copy(copies: Sequence[Copy], ranges: Sequence[Range]) -> list[Range]:
    """What of the ranges in which copies differ stands in such sectors, that of each as one range."""
    parts = (in_both(ranges, [sector]) for sector in sorted(set(sectors_of(copies, ranges))))
    found: list[Range] = []
    for begin, end in ((part[0][0], part[-1][1]) for part in parts):
        if not found or found[-1][1] <= begin:
            found.append((begin, end))
    return found


def sectors_of(copies: Sequence[Copy], ranges: Sequence[Range]) -> Iterator[Range]:
    """The sectors of any copy, by its own offsets, in which another one has the bytes of each pair exchanged."""
    for copy, other in itertools.permutations(copies, 2):
        begins = (begin for begin, _ in ranges if not copy.lacks(begin, begin + 1))
        for border in sorted({begin - place_in(copy, begin) % SECTOR for begin in begins}):
            end = min(border + SECTOR, len(copy.data))
            if border >= 0 and are_exchanged(copy.data[border:end], other.data[border:end]):
                yield border, end
