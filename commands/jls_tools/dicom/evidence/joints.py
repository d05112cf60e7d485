"""A sector of a copy that is of another place, as shows where it begins and ends: there no text goes on that the file has elsewhere.

The other copy goes on over these borders as the file often does elsewhere. Most of the sector has to differ, from its first to its last
bytes, and copies have to be equal beside it. A sector of another file of the series goes on as the true one, or is equal in most.
"""
from __future__ import annotations

import itertools
from collections.abc import Iterator
from operator import ne
from typing import TYPE_CHECKING

from jls_tools.dicom.axis.inserted import place_in
from jls_tools.dicom.axis.media import SECTOR
from jls_tools.dicom.axis.sectors import BESIDE, NEAR
from jls_tools.dicom.evidence.elsewhere import AROUND, KINDS, LEAST
from jls_tools.dicom.evidence.misplaced import MOST_LOOKS, drop, looks_well

if TYPE_CHECKING:
    from jls_tools.dicom.evidence.header import Header

GOES_ON = "others don't go on over the borders of their sector as the file does elsewhere"


def by_joints(header: Header) -> None:
    """Drops what a copy alone has in such a sector, unless a place in it was decided for it."""
    for own, other in itertools.permutations(range(len(header.copies)), 2):
        if not header.open_runs():
            return
        data = bytes(header.merged())
        known = b"".join(data[begin:end] for begin, end in header.outside(0, len(data)))
        for border in itertools.islice(borders_of(header, own), MOST_LOOKS):
            if is_replaced(header, own, other, border) and all(looks_well(header, copy, border, data) for copy in (own, other)):
                counts = [sum(joints(header.copies[copy].data, border, data, known)) for copy in (own, other)]
                if counts[0] == 0 and counts[1] >= LEAST:
                    drop(header, own, border, GOES_ON)


def borders_of(header: Header, own: int) -> Iterator[int]:
    """Where the sectors of a copy begin, by its own offsets, in which places are open."""
    copy = header.copies[own]
    begins = (header.runs.runs[number].begin for number in header.open_runs())
    yield from sorted({begin - place_in(copy, begin) % SECTOR for begin in begins if not copy.lacks(begin, begin + 1)})


def is_replaced(header: Header, own: int, other: int, border: int) -> bool:
    """Whether most of a sector differs in two copies, from its first to its last bytes, and nothing beside it."""
    end = border + SECTOR
    one, two = (header.copies[copy].data[border:end] for copy in (own, other))
    if border <= 0 or len(one) < SECTOR or any(header.copies[copy].lacks(border - BESIDE, end + BESIDE) for copy in (own, other)):
        return False
    beside = [data[border - BESIDE : border] + data[end : end + BESIDE] for data in (header.copies[own].data, header.copies[other].data)]
    reaches = one[:NEAR] != two[:NEAR] and one[-NEAR:] != two[-NEAR:]
    return beside[0] == beside[1] and reaches and sum(map(ne, one, two)) * 2 > SECTOR


def joints(own: bytes, border: int, data: bytes, known: bytes) -> Iterator[int]:
    """How often the bytes before and behind both borders of a sector of a copy stand elsewhere in the file outside of frames."""
    for place in (border, border + SECTOR):
        counts = [0]
        for before, behind in AROUND:
            part = slice(place - before, place + behind)
            if len(set(own[part])) >= KINDS:
                counts.append(known.count(own[part]) - (data[part] == own[part]))
        yield max(counts)
