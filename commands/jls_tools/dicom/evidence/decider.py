"""Takes what one copy has at open places where another copy lost sectors, or has noise: axis/sectors.py says where that is so."""
from __future__ import annotations

import itertools
from collections.abc import Iterator, Sequence
from typing import TYPE_CHECKING, Optional

from jls_tools.dicom.axis.inserted import place_in
from jls_tools.dicom.axis.media import NEAR_PLACES, SECTOR
from jls_tools.dicom.axis.runs import Run
from jls_tools.dicom.axis.sectors import BESIDE, IS_NOISE, NEAR, Pair, is_noise_alone

if TYPE_CHECKING:
    from jls_tools.dicom.evidence.header import Header

DECIDED = 3  # so many places of a range were decided, at least, where others go with them
IS_EXCHANGED = "others have the two bytes of each pair exchanged in this sector"
IS_COMPANY = "the places around it in its sector are of that copy"
IS_PATCH = "others are noise, and what stands around them is none"
IS_SECTOR = "the copy lost this sector"
IS_ONE_RUN = "others are part of a run of one value that was written over places beside it"


class Decider:
    """Takes from a Header what a copy has where it lost sectors, or has noise."""

    def __init__(self, header: Header) -> None:
        self.header = header
        self.runs = header.runs

    def decide(self) -> None:
        """For each two copies, unless nothing is open."""
        header = self.header
        for own, other in itertools.permutations(range(len(header.copies)), 2):
            if not header.open_runs():
                return
            pair = Pair(header.copies[own].data, header.copies[other].data, header.leaves)
            for begin, end, why, is_doubted in pair.lost([begin for begin, _ in self.stretches()]):
                self.drop(own, other, begin, end, why, DECIDED if is_doubted else 0)
            for begin, end in self.wholes():
                if pair.is_patch(begin, end):
                    self.drop(own, other, begin, end, IS_PATCH)
            self.by_exchanged_bytes(pair, own, other)
            self.by_noise(pair, own, other)
            self.by_company(pair, own, other)
            self.by_runs_of_one_value(pair, own, other)
            self.by_sectors(pair, own, other)

    def wholes(self) -> list[tuple[int, int]]:
        """The ranges that were cut at borders of sectors, with each of their parts, of which one is open."""
        wholes: dict[int, list[int]] = {}
        for number in sorted(self.header.left):
            wholes.setdefault(self.runs.runs[number].whole, []).append(number)
        is_open = set(self.header.open_runs())
        parts = [numbers for numbers in wholes.values() if is_open & set(numbers)]
        return [(self.runs.runs[numbers[0]].begin, self.runs.runs[numbers[-1]].end) for numbers in parts]

    def stretches(self) -> list[tuple[int, int]]:
        """The ranges of open runs, those together that were cut at a border of sectors."""
        wholes: dict[int, list[Run]] = {}
        for number in self.header.open_runs():
            wholes.setdefault(self.runs.runs[number].whole, []).append(self.runs.runs[number])
        return [(runs[0].begin, runs[-1].end) for runs in wholes.values()]

    def drop(self, own: int, other: int, begin: int, end: int, why: str, least: int = 0) -> None:
        """Drops what a copy alone has of a range in which it was damaged, unless some of it was decided for it and against the other."""
        header = self.header
        if any(header.copies[copy].lacks(begin, end) for copy in (own, other)):
            return
        numbers = [number for number in self.runs.touching(begin, end) if number in header.left]
        if any(self.is_for(number, own, other) for number in numbers):
            return
        if sum(self.is_for(number, other, own) for number in numbers) < least:
            return
        for number in numbers:
            run = self.runs.runs[number]
            if not is_noise_alone(header.copies[other].data, run.begin, run.end):  # else the other copy lost it too
                header.keep(number, {way for way in header.left[number] if set(run.holders[way]) - {own}}, why)

    def is_for(self, number: int, one: int, two: int) -> bool:
        """Whether a run was decided for one copy and against another one."""
        if len(self.header.left[number]) > 1:
            return False
        holders = self.header.holders(number)
        return one in holders and two not in holders

    def by_exchanged_bytes(self, pair: Pair, own: int, other: int) -> None:
        """Open sectors of a copy in which the bytes of each pair are exchanged: a place of them was decided so, or the other one fits."""
        copy = self.header.copies[own]
        begins = (self.runs.runs[number].begin for number in self.header.open_runs())
        for border in sorted({begin - place_in(copy, begin) % SECTOR for begin in begins if not copy.lacks(begin, begin + 1)}):
            end = min(border + SECTOR, len(copy.data))
            if pair.are_exchanged(border, end):
                numbers = [number for number in self.runs.touching(border, end) if number in self.header.left]
                if any(self.is_for(number, other, own) for number in numbers) or pair.fits_less(border, end):
                    self.drop(own, other, border, end, IS_EXCHANGED)

    def by_noise(self, pair: Pair, own: int, other: int) -> None:
        """Open sectors next to others of noise, in which places were decided against a copy: that one lost all of them."""
        for border in sorted({self.runs.runs[number].begin // SECTOR * SECTOR for number in self.header.open_runs()}):
            if not pair.is_noise_alone(border) or pair.is_cut_out(border):
                continue
            first, last = border, border + SECTOR
            while pair.is_noise_alone(first - SECTOR):
                first -= SECTOR
            while pair.is_noise_alone(last):
                last += SECTOR
            numbers = [number for number in self.runs.touching(first, last) if number in self.header.left]
            against = [number for number in numbers if self.is_for(number, other, own)]
            if sum(self.length(number) for number in against) >= BESIDE and not any(self.is_for(each, own, other) for each in numbers):
                self.drop(own, other, border, border + SECTOR, IS_NOISE)

    def by_company(self, pair: Pair, own: int, other: int) -> None:
        """Open places between others of one sector, all of which were decided against a copy: that one lost the sector there."""
        for border in sorted({self.runs.runs[number].begin // SECTOR * SECTOR for number in self.header.open_runs()}):
            numbers = [number for number in self.runs.touching(border, border + SECTOR) if number in self.header.left]
            against = [number for number in numbers if self.is_for(number, other, own)]
            if len(against) < DECIDED and sum(self.length(number) for number in against) < BESIDE:
                continue
            if any(self.is_for(number, own, other) for number in numbers):
                continue
            for number in numbers:
                before, behind = self.around(pair, number, against, border)
                if before is not None and behind is not None and pair.is_lost_between(before, behind):
                    self.drop(own, other, self.runs.runs[number].begin, self.runs.runs[number].end, IS_COMPANY)

    def around(self, pair: Pair, number: int, against: Sequence[int], border: int) -> tuple[Optional[int], Optional[int]]:
        """Where the places end and begin between which a run lies, or the borders of its sector if it reaches them; else nothing."""
        run, runs = self.runs.runs[number], self.runs.runs
        before = max((runs[each].end for each in against if each < number), default=None)
        behind = min((runs[each].begin for each in against if each > number), default=None)
        if before is None and run.begin <= border + NEAR and pair.agree(border - BESIDE, border):
            before = run.begin
        if behind is None and run.end >= border + SECTOR - NEAR and pair.agree(border + SECTOR, border + SECTOR + BESIDE):
            behind = run.end
        return before, behind

    def by_runs_of_one_value(self, pair: Pair, own: int, other: int) -> None:
        """Open places in a run of one value that was written over places near them, before and after: true zeros can follow lost ones."""
        waiting = self.header.open_runs()
        for number in waiting + waiting[::-1]:
            run = self.runs.runs[number]
            around = pair.run_around(run.begin, run.end) if len(self.header.left[number]) > 1 else None
            if around is None or not self.is_between(number, around, own, other):
                continue
            numbers = [each for each in self.runs.touching(*around) if each in self.header.left]
            against = sum(self.is_for(each, other, own) for each in numbers)
            if against >= DECIDED and not any(self.is_for(each, own, other) for each in numbers):
                self.drop(own, other, run.begin, run.end, IS_ONE_RUN)

    def is_between(self, number: int, around: tuple[int, int], own: int, other: int) -> bool:
        """Whether places of a range near a run, before and after it, were decided against a copy."""
        inside = self.runs.touching(*around)
        sides = range(number - 1, inside.start - 1, -1), range(number + 1, inside.stop)
        return all(any(self.is_for(each, other, own) for each in self.near(number, side)) for side in sides)

    def near(self, number: int, others: Sequence[int]) -> Iterator[int]:
        """The runs near a run, of others that lie on one side of it, the nearest first."""
        for each in others:
            if self.distance(each, self.runs.runs[number]) > NEAR_PLACES:
                return
            if each in self.header.left:
                yield each

    def by_sectors(self, pair: Pair, own: int, other: int) -> None:
        """Open places in sectors that a copy lost as a whole: enough places in them were decided against it, and none for it."""
        for border in sorted({self.runs.runs[number].begin // SECTOR * SECTOR for number in self.header.open_runs()}):
            first, last = pair.lost_around(border)
            numbers, inner = (
                [number for number in self.runs.touching(*part) if number in self.header.left]
                for part in ((first, last), (border, border + SECTOR))
            )
            against = [number for number in numbers if self.is_for(number, other, own)]
            is_enough = len(against) >= DECIDED or sum(map(self.length, against)) >= BESIDE
            if not is_enough or not set(against) & set(inner) or any(self.is_for(number, own, other) for number in numbers):
                continue
            if pair.begins_or_ends(first, last) or self.is_replaced(pair, inner, against, border):
                self.drop(own, other, border, border + SECTOR, IS_SECTOR)

    def is_replaced(self, pair: Pair, numbers: Sequence[int], against: Sequence[int], border: int) -> bool:
        """Whether all of a sector differs from its first to its last bytes, both of which were decided against a copy."""
        end = border + SECTOR
        if not {numbers[0], numbers[-1]} <= set(against) or sum(map(self.length, against)) < BESIDE:
            return False
        is_from, is_until = self.runs.runs[numbers[0]].begin <= border + NEAR, self.runs.runs[numbers[-1]].end >= end - NEAR
        return is_from and is_until and pair.agree_beside(border, end)

    def length(self, number: int) -> int:
        return self.runs.runs[number].end - self.runs.runs[number].begin

    def distance(self, number: int, run: Run) -> int:
        other = self.runs.runs[number]
        return max(other.begin - run.end, run.begin - other.end)
