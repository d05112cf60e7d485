"""Damage that no copy contradicts and that shows by itself.

- Sectors look lost in each copy.
- A text that one copy alone has has a hole.
- Most copies lack the same bytes, so that the others may have too many.
- A copy ends as a file does, ahead of what was found.
- A sector that was taken stands elsewhere in the file too.
- What was taken changes from one copy to another where these differ throughout. Then damage of both has to end at one place, as it does at
  borders of sectors alone.
"""
from __future__ import annotations

import re
from collections import Counter
from collections.abc import Iterable, Iterator, Sequence
from operator import ne
from typing import TYPE_CHECKING, Optional

from jls_tools.dicom.axis.align import Copy
from jls_tools.dicom.axis.bad_places import Range, in_both, outside
from jls_tools.dicom.axis.media import SECTOR
from jls_tools.dicom.axis.periods import period_of
from jls_tools.dicom.axis.placed import in_no_copy
from jls_tools.dicom.axis.runs import Run
from jls_tools.dicom.axis.transfers import lost_returns
from jls_tools.dicom.read.elements import DELIMITER
from jls_tools.dicom.result import Place

if TYPE_CHECKING:
    from jls_tools.dicom.evidence.header import Header

# One value that is no letter, sixteen times and more, with a text of 32 letters on both sides
HOLE = re.compile(rb"(?<=[\t\n\r\x20-\x7e]{32})([\0\x7f-\xff])\1{15,}(?=[\t\n\r\x20-\x7e]{32})", re.S)
NEAR = 8  # so many equal bytes between two places, at least, show that damage ends there
LONG = 16  # bytes on each side of a change
LEAST_REST = 64  # bytes of a sector that the file ends in, at least, if it is compared with others
DAMAGED = 4  # one byte in so many of a sector of frames, at most, can be damaged where it is seen to be at its place
BESIDE = SECTOR + 64  # bytes of the file beside a place, in which a hole and the text around it stand


def lost_in_each(copies: Sequence[Copy], frames: Sequence[Range], data: bytes) -> Optional[int]:
    """Where sectors outside of frames look filled, from border to border, in each copy that has them. Values of a file end elsewhere.

    `data` is the file with what was decided: beside the sectors a copy can have damage that hides that its values go on.
    """
    common = outside(in_no_copy(copies, True), frames)
    for copy in copies:
        for begin, end in in_both(copy.seen, common):
            if (begin, end) in copy.seen and end - begin >= SECTOR and ends_at_borders(data, begin, end):
                return begin
    return None


def ends_at_borders(data: bytes, begin: int, end: int) -> bool:
    """Whether what fills a range goes on neither before nor after it."""
    if begin == 0 or end == len(data):
        return False
    first, last = period_of(data[begin : begin + SECTOR]), period_of(data[end - SECTOR : end])
    goes_on = first > 0 and data[begin - 1] == data[begin - 1 + first] or last > 0 and data[end] == data[end - last]
    return not goes_on


def hole_in_text(places: Iterable[Place], data: bytes) -> Optional[int]:
    """Where a hole stands in a text, in what was taken of one copy alone or beside it, where another copy lost it too."""
    for place in places:
        if place.taken is None or len(place.values) < 2 or len(place.values[place.taken][0]) != 1:
            continue
        first = max(0, place.offset - BESIDE)
        for found in HOLE.finditer(data[first : place.offset + place.length + BESIDE]):
            begin, end = first + found.start(), first + found.end()
            if begin <= place.offset + place.length and place.offset <= end:
                return begin
    return None


def lost_in_most(copies: Sequence[Copy]) -> Optional[int]:
    """Where most copies lost the same bytes, and go on after them: a foreign file that stands over another copy can have moved it.

    Those that lost carriage returns to a transfer as text lack the same ones, and the others have them all.
    """
    damaged = (copy for copy in copies if not lost_returns(copy, copies))
    inner = (pair for copy in damaged for pair in copy.lost if 0 < pair[0] and pair[1] < len(copy.data) and not in_both([pair], copy.bad))
    for (begin, _), count in Counter(inner).items():
        if count > 1 and count * 2 > len(copies):
            return begin
    return None


def ends_before(copies: Sequence[Copy], end: int) -> Optional[int]:
    """Where a copy ends with the delimiter of Pixel Data, as a file does, ahead of `end`, where Pixel Data ends in what was found."""
    for copy in copies:
        first, last = copy.absent[-1] if copy.absent else (end, end)
        begin = first - len(DELIMITER)
        if last == len(copy.data) and first < end and copy.data[begin:first] == DELIMITER and not copy.lacks(begin, first):
            return first
    return None


def stands_twice(header: Header, data: bytes) -> Optional[int]:
    """Where a sector begins in which copies differ and that the file has elsewhere too, as if a disk had written it to a wrong place.

    Where most of it is of frames, and two copies have it or nearly so, the frames show that it is at its place.
    """
    for border in sorted({begin // SECTOR * SECTOR for parts in header.parts.values() for begin, _ in parts}):
        sector = data[border : border + SECTOR]
        is_twice = len(sector) >= LEAST_REST and not period_of(sector) and any(at != border for at in places_of(sector, data))
        if is_twice and not are_frames(header, border, sector):
            return border
    return None


def are_frames(header: Header, border: int, sector: bytes) -> bool:
    """Whether most of a sector is of frames, and two copies have it, of which one may have damage in a part of it."""
    beside = sum(last - first for first, last in header.outside(border, border + len(sector)))
    return beside * 2 < len(sector) and sum(is_nearly(copy.has_only(border, border + SECTOR), sector) for copy in header.copies) > 1


def is_nearly(own: bytes, sector: bytes) -> bool:
    return len(own) == len(sector) and sum(map(ne, own, sector)) * DAMAGED <= len(sector)


def places_of(sector: bytes, data: bytes) -> Iterator[int]:
    """The borders of sectors at which some bytes stand."""
    at = data.find(sector)
    while at >= 0:
        if at % SECTOR == 0:
            yield at
        at = data.find(sector, at + 1)


class Taken:
    """Runs side by side of which one copy or more have all that was taken: `holders`. `first` are the copies that have the first run."""

    def __init__(self, run: Run, own: set[int]) -> None:
        self.begin = run.begin
        self.end = run.end
        self.first = self.holders = own
        self.ends = [(run.end, own)]

    def add(self, run: Run, own: set[int]) -> None:
        self.end = run.end
        self.holders = self.holders & own
        self.ends.append((run.end, own))

    def end_against(self, others: set[int]) -> int:
        """Where the last run ends that none of other copies has: those after it were damaged in neither."""
        return next((end for end, own in reversed(self.ends) if not own & others), self.begin)


def change_at(header: Header) -> Optional[int]:
    """Where what was taken changes from one copy to another inside of a stretch in which they differ, and at no border of sectors."""
    chosen, runs = header.chosen(), header.runs.runs
    parts: list[Taken] = []
    for number in sorted(header.parts):
        run, own = runs[number], header.holders(number) if number in chosen else set()
        if parts and run.begin - parts[-1].end < NEAR and parts[-1].holders & own:
            parts[-1].add(run, own)
        else:
            parts.append(Taken(run, own))
    for one, other in zip(parts, parts[1:]):
        border, begin = one.end_against(other.first), other.begin
        is_beside = begin - border < NEAR and bool(one.holders) and bool(other.holders)
        is_long = border - one.begin >= LONG and other.end - begin >= LONG
        if is_beside and is_long and border // SECTOR == begin // SECTOR and border % SECTOR and begin % SECTOR:
            return begin
    return None
