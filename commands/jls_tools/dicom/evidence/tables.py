"""Offset tables of Pixel Data (PS3.5, A.4): what the frames say that they have, and what no table can have."""
from __future__ import annotations

from collections.abc import Collection
from typing import TYPE_CHECKING, Optional

from jls_tools.dicom.axis.media import BESIDE_TABLE
from jls_tools.dicom.read.tags import EXTENDED_TABLE, PIXEL_DATA
from jls_tools.dicom.result import Place

if TYPE_CHECKING:
    from jls_tools.dicom.evidence.header import Header

FRAMES_BEGIN = "there the frames begin"
WITHIN = "others lead beyond the file"
FIRST_FRAME = "the first frame begins there, and others count from nowhere"
Table = dict[Optional[int], tuple[int, bytes]]  # what tables should have, by tag; None is that of the basic one, with where it begins
Numbers = list[tuple[int, dict[int, int]]]  # (a number that can stand at a place, {run: way})


class Tables:
    """Decides what a Header has in offset tables. `places` has a Place for each part of one of which no copy has each byte."""

    def __init__(self, header: Header) -> None:
        self.header = header
        self.runs = header.runs
        self.left = header.left
        self.places: list[Place] = []

    def decide(self, table: Table) -> None:
        """`table` has what tables should have, by tag; None is the tag of the basic one, with where it begins."""
        elements = self.header.elements
        for tag, expected in table.items():
            begin, numbers = expected
            if tag is None:
                self.keep_bytes(begin, begin + len(numbers), numbers)
                self.by_reach(begin, begin + len(numbers), 4)
                self.by_origins(begin, numbers)
            elif tag in elements and elements[tag].length == len(numbers):
                self.keep_bytes(elements[tag].value, elements[tag].end, numbers)
                if tag == EXTENDED_TABLE:
                    self.by_reach(elements[tag].value, elements[tag].end, 8)

    def open_readings(self, begin: int, end: int) -> Numbers:
        """[(the number that stands there, {run: way})] if something there is open."""
        readings = self.header.readings(begin, end) if self.header.open_runs(begin, end) else []
        return [(int.from_bytes(value, "little"), ways) for value, ways in readings]

    def keep(self, readings: Numbers, numbers: Collection[int], why: str) -> None:
        self.header.keep_readings([(number, ways) for number, ways in readings if number in numbers], why)

    def by_reach(self, begin: int, end: int, size: int) -> None:
        """Leaves for each entry what leads to a place in the file, from wherever a writer counts."""
        for at in range(begin, end, size):
            readings = self.open_readings(at, at + size)
            self.keep(readings, {number for number, _ in readings if number < len(self.runs.data)}, WITHIN)

    def by_origins(self, begin: int, expected: bytes) -> None:
        """A table of one entry: leaves 0, if another number counts from nowhere, and is of copies that were damaged beside it."""
        readings = self.open_readings(begin, begin + 4) if len(expected) == 4 else []
        others = [(number, ways) for number, ways in readings if number != 0]
        if len(others) == len(readings) or PIXEL_DATA not in self.header.elements:
            return
        starts = (self.header.elements[PIXEL_DATA].start, begin - 8, begin, begin + 4, 0)
        ends = (begin + 4, begin + 12)  # where the item of the frame begins, and its value
        if any(number == end - start for number, _ in others for start in starts for end in ends):
            return
        if all(any(self.is_beside_damage(*choice) for choice in ways.items()) for _, ways in others):
            self.keep(readings, {0}, FIRST_FRAME)

    def is_beside_damage(self, number: int, way: int) -> bool:
        """Whether the bytes just before or after a run were decided against all copies that have this way."""
        run = self.runs.runs[number]
        beside = self.runs.touching(run.begin - 1, run.end + 1)
        decided = [each for each in beside if each != number and len(self.left.get(each, ())) == 1]
        return any(not self.header.holders(each) & set(run.holders[way]) for each in decided)

    def keep_bytes(self, begin: int, end: int, expected: bytes) -> None:
        """Leaves for each run in a range the ways that have these bytes, if all is so where the copies agree."""
        if not self.agrees(begin, end, expected):
            return
        for number in self.runs.touching(begin, end):
            run = self.runs.runs[number]
            first, last = max(begin, run.begin), min(end, run.end)
            wanted = expected[first - begin : last - begin]
            if number in self.left:
                self.header.keep(number, {way for way in self.left[number] if run.part(way, begin, end) == wanted}, FRAMES_BEGIN)
            if number in self.left and all(run.part(way, begin, end) != wanted for way in self.left[number]):
                is_taken = self.by_bytes(first, wanted)
                if is_taken and begin <= run.begin and run.end <= end:
                    self.header.keep(number, self.left[number][:1], FRAMES_BEGIN)

    def agrees(self, begin: int, end: int, expected: bytes) -> bool:
        """Whether a table can be what it should: some writers count from elsewhere. Zeros beside lost places say nothing."""
        numbers, wanted = self.runs.touching(begin, end), bytearray(expected)
        for number in numbers:
            run = self.runs.runs[number]
            first, last = max(0, run.begin - begin), min(end, run.end) - begin
            wanted[first:last] = self.runs.data[begin + first : begin + last]
        if wanted != self.runs.data[begin:end]:
            return False
        apart = [number for number in numbers if number in self.left]
        return expected.strip(b"\0") != b"" or not any(self.is_beside_lost(number, way) for number in apart for way in self.left[number])

    def is_beside_lost(self, number: int, way: int) -> bool:
        """Whether zeros of a run are of copies that lost what stands beside it."""
        run = self.runs.runs[number]
        if run.ways[way].strip(b"\0"):
            return False
        beside = self.runs.touching(run.begin - BESIDE_TABLE, run.end + BESIDE_TABLE)
        decided = [each for each in beside if each != number and len(self.left.get(each, ())) == 1]
        return any(not self.header.holders(each) & set(run.holders[way]) for each in decided)

    def by_bytes(self, begin: int, wanted: bytes) -> bool:
        """Takes what a table has to have, if some copy has each byte of it, but none all of them; answers whether it is so."""
        end = begin + len(wanted)
        values = [(copy.path, copy.data[begin:end]) for copy in self.header.copies if not copy.lacks(begin, end)]
        if not values or any(true not in of_all for true, of_all in zip(wanted, zip(*(value for _, value in values)))):
            return False
        names = [([path for path, value in values if value == own], own) for own in dict.fromkeys([wanted, *dict(values).values()])]
        self.places.append(Place(begin, len(wanted), self.header.name_at(begin), names, 0, FRAMES_BEGIN))
        return True
