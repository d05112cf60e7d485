"""Sectors that one copy alone has, and over whose borders no text goes on as it does anywhere else in the file.

They can be of another file, or of another place. Where most borders of sectors are in texts that the file has elsewhere too, two borders
of one sector are seldom both new.
"""
from __future__ import annotations

from collections.abc import Iterator, Sequence
from operator import ne
from typing import Optional

from jls_tools.dicom.axis.align import Copy
from jls_tools.dicom.axis.bad_places import Range
from jls_tools.dicom.axis.media import SECTOR, SECTORS
from jls_tools.dicom.axis.periods import TEXT

AROUND = ((2, 1), (1, 2))  # so many bytes of a text before and behind a border are sought elsewhere
MOST = 2  # bytes of these on one side
LEAST_BORDERS = 32  # so many borders in texts, at least, show what is usual
SHARE_USUAL = 4  # one of so many of them, at most, is new


def goes_on_nowhere(copies: Sequence[Copy], data: bytes, parts: Sequence[Range]) -> Optional[int]:
    """Where such a sector begins, or such sectors. `data` is the file with what was taken, `parts` what of it no frame has."""
    inside = [at for begin, end in parts for at in borders_in(begin, end - SECTOR) if is_alone(copies, data, at)]
    new = set(new_borders(data, parts)) if inside else set()
    return next((at for at, end in blocks_of(inside) if {at, end} <= new), None)


def borders_in(begin: int, end: int) -> range:
    """The borders of sectors that have bytes of a range on both sides."""
    return range(-(-(begin + MOST) // SECTOR) * SECTOR, end - MOST + 1, SECTOR)


def is_alone(copies: Sequence[Copy], data: bytes, border: int) -> bool:
    """Whether one copy has a sector as it was taken, and each other one that has it has most bytes otherwise."""
    end = border + SECTOR
    taken = data[border:end]
    there = [copy.data[border:end] for copy in copies if not copy.lacks(border, end)]
    return len(there) > 1 and sum(sum(map(ne, own, taken)) * 2 <= SECTOR for own in there) == 1


def blocks_of(borders: Sequence[int]) -> Iterator[tuple[int, int]]:
    """The sectors of each size that are there as a whole: where each begins and ends."""
    known = set(borders)
    for size in SECTORS:
        whole = (at for at in borders if at % size == 0 and all(each in known for each in range(at, at + size, SECTOR)))
        yield from ((at, at + size) for at in whole)


def new_borders(data: bytes, parts: Sequence[Range]) -> Iterator[int]:
    """The borders of sectors that lie in texts which no other place of the file has. None where many are so."""
    known = b"".join(data[begin:end] for begin, end in parts)
    borders = [at for begin, end in parts for at in borders_in(begin, end)]
    inner = [at for at in borders if TEXT.match(data[at - MOST : at + MOST])]
    found = [at for at in inner if any(known.count(data[at - before : at + behind]) < 2 for before, behind in AROUND)]
    if len(inner) >= LEAST_BORDERS and len(found) * SHARE_USUAL <= len(inner):
        yield from found
