"""A sector of a copy that stands at another place of the file too, where nothing is open: a disk has written it to a wrong place.

No file has a sector twice, but for what is of one value, or of one text again and again. The other copy has to look well there.
"""
from __future__ import annotations

import itertools
from typing import TYPE_CHECKING

from jls_tools.dicom.axis.media import SECTOR
from jls_tools.dicom.axis.periods import period_of
from jls_tools.dicom.axis.sectors import is_noise
from jls_tools.dicom.evidence.doubtful import places_of

if TYPE_CHECKING:
    from jls_tools.dicom.evidence.header import Header

KINDS = 16  # so many different bytes has a sector, at least, that stands twice by no chance
MOST_LOOKS = 256  # sectors that are sought in the file
MISPLACED = "others have a sector of another place here"


def by_place(header: Header) -> None:
    """Drops what a copy alone has in such a sector, unless a place in it was decided for it, or the other copy's stands twice too."""
    for own, other in itertools.permutations(range(len(header.copies)), 2):
        data = bytes(header.merged())
        for border in sorted({header.runs.runs[number].begin // SECTOR * SECTOR for number in header.open_runs()})[:MOST_LOOKS]:
            if stands_elsewhere(header, own, border, data) and looks_well(header, other, border, data):
                drop(header, own, border, MISPLACED)


def stands_elsewhere(header: Header, copy: int, border: int, data: bytes) -> bool:
    """Whether a sector of a copy stands in the file at another border, where all is decided."""
    sector = header.copies[copy].data[border : border + SECTOR]
    if len(sector) < SECTOR or len(set(sector)) < KINDS or period_of(sector) or header.copies[copy].lacks(border, border + SECTOR):
        return False
    return any(at != border and not header.open_runs(at, at + SECTOR) for at in places_of(sector, data))


def looks_well(header: Header, copy: int, border: int, data: bytes) -> bool:
    """Whether a sector of a copy is neither filled nor noise, and stands nowhere else."""
    sector = header.copies[copy].data[border : border + SECTOR]
    is_there = not header.copies[copy].lacks(border, border + SECTOR)
    return is_there and not period_of(sector) and not is_noise(sector) and not stands_elsewhere(header, copy, border, data)


def drop(header: Header, own: int, border: int, why: str) -> None:
    numbers = [number for number in header.runs.touching(border, border + SECTOR) if number in header.left]
    if any(len(header.left[number]) == 1 and own in header.holders(number) for number in numbers):
        return
    for number in numbers:
        run = header.runs.runs[number]
        header.keep(number, {way for way in header.left[number] if set(run.holders[way]) - {own}}, why)
