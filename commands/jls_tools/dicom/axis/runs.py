"""Runs: the ranges of the axis in which copies differ, and the ways that they go there."""
from __future__ import annotations

import bisect
from collections.abc import Iterator, Mapping, Sequence
from dataclasses import dataclass
from typing import TYPE_CHECKING, Optional

from jls_tools.dicom.axis.align import Copy
from jls_tools.dicom.axis.apart import differing
from jls_tools.dicom.axis.media import SECTOR

if TYPE_CHECKING:
    from jls_tools.dicom.evidence.most import Agreed

GAP = 8  # ranges nearer than that are one run, where most of it differs
LEAST = 8  # so many bytes have to differ in a run of several ranges
ZEROS = 8
FINEST = 20000  # so many bytes may differ where each of them is made a run of its own


@dataclass
class Run:
    """A range in which copies differ. `ways` are the different bytes, `holders` for each way the copies that have it themselves."""

    begin: int
    end: int
    ways: list[bytes]
    holders: list[list[int]]
    zeros: list[bool]  # for each way whether it is to be dropped as a run of zeros
    whole: int  # the number of the cluster that it is a part of
    firm: Optional[int] = None  # the way of most copies, where their headers agree

    def part(self, way: int, begin: int, end: int) -> bytes:
        """What a way has in a range, as far as the run goes."""
        return self.ways[way][max(begin, self.begin) - self.begin : min(end, self.end) - self.begin]


def is_zeroed(data: bytes, begin: int, end: int, whole: tuple[int, int]) -> bool:
    """Whether a range is nothing but zeros, which look written over what was there: they end about where the copies differ no more.

    `whole` is the range before it was cut at borders of sectors. Zeros that go on far from there are more likely true, and the other
    copy is damaged. But damage by sectors leaves zeros up to a border, whatever stood there.
    """
    if end - begin < ZEROS or data[begin:end].strip(b"\0"):
        return False
    first, last = whole
    while first > 0 and first > whole[0] - SECTOR and data[first - 1] == 0:
        first -= 1
    while last < len(data) and last < whole[1] + SECTOR and data[last] == 0:
        last += 1
    is_near = whole[0] - first <= 2 * ZEROS or has_border(first, whole[0])
    return is_near and (last - whole[1] <= 2 * ZEROS or has_border(whole[1], last))


def has_border(begin: int, end: int) -> bool:
    """Whether this range of zeros begins or ends at a border of sectors."""
    return begin % SECTOR == 0 or end % SECTOR == 0


def clusters(ranges: list[tuple[int, int]]) -> Iterator[tuple[int, int]]:
    """Ranges near each other, together if most of what they span differs; else each by itself."""
    group: list[tuple[int, int]] = []
    for begin, end in ranges + [(1 << 62, 1 << 62)]:
        if group and begin - group[-1][1] > GAP:
            span, apart = group[-1][1] - group[0][0], sum(last - first for first, last in group)
            if apart >= LEAST and apart * 3 >= span:
                yield group[0][0], group[-1][1]
            else:
                yield from group
            group = []
        group.append((begin, end))


def cut_at_sectors(begin: int, end: int) -> Iterator[tuple[int, int]]:
    """The parts of a range between borders of sectors: damage often ends there."""
    while begin < end:
        border = min(end, (begin // SECTOR + 1) * SECTOR)
        yield begin, border
        begin = border


def split_where_others_differ(copies: Sequence[Copy], begin: int, end: int) -> Iterator[tuple[int, int]]:
    """The parts of a range in which three copies or more differ: one lost it, and others differ in places of it, or lack a part."""
    texts = [copy.data[begin:end] for copy in copies]
    others = (differing(texts[:at] + texts[at + 1 :]) for at in range(len(texts))) if len(texts) > 2 else ()
    apart = list(clusters(min(others, key=size_of, default=[])))
    if 2 * size_of(apart) > end - begin:
        apart = []
    lacks = [border for copy in copies for each in copy.absent for border in each if begin < border < end] if apart else []
    borders = sorted({begin, *(begin + border for place in apart for border in place), *lacks, end})
    yield from zip(borders, borders[1:])


def size_of(ranges: Sequence[tuple[int, int]]) -> int:
    return sum(end - begin for begin, end in ranges)


def run_at(copies: Sequence[Copy], begin: int, end: int, whole: tuple[int, int], number_of_whole: int) -> Run:
    found: dict[bytes, list[int]] = {}
    for number, copy in enumerate(copies):
        holders = found.setdefault(copy.data[begin:end], [])
        if not copy.lacks(begin, end):
            holders.append(number)
    ways = sorted(found, key=lambda way: (found[way] or [len(copies)])[0])
    zeros = [is_zeroed(copies[(found[way] or [0])[0]].data, begin, end, whole) for way in ways]
    if all(zeros):
        zeros = [False] * len(ways)
    return Run(begin, end, ways, [found[way] for way in ways], zeros, number_of_whole)


class Runs:
    """All runs of copies on one axis, in order. `fineness` 0 joins near ranges, 1 does not, and 2 makes each byte a run of its own.

    `exchanged` are sectors in which one copy has the bytes of each pair exchanged.
    """

    def __init__(
        self,
        copies: Sequence[Copy],
        fineness: int,
        ranges: Optional[list[tuple[int, int]]] = None,
        agreed: Optional[Agreed] = None,
        exchanged: Sequence[tuple[int, int]] = (),
    ) -> None:
        self.exchanged = exchanged
        ranges = differing([copy.data for copy in copies]) if ranges is None else ranges
        wholes = list(clusters(ranges))
        begins = [begin for begin, _ in wholes]
        if fineness == 0:
            ranges = wholes
        elif fineness == 2:
            ranges = [(at, at + 1) for begin, end in ranges for at in range(begin, end)]
        self.runs = [
            run_at(copies, first, last, (begin, end), bisect.bisect_right(begins, begin) - 1)
            for begin, end in ranges
            for border, next_border in cut_at_sectors(begin, end)
            for first, last in split_where_others_differ(copies, border, next_border)
        ]
        for run in self.runs:
            if agreed is not None and agreed.begin <= run.begin and run.end <= agreed.until:
                run.firm = next((way for way, holders in enumerate(run.holders) if agreed.copies <= set(holders)), None)
        self.begins = [run.begin for run in self.runs]
        self.data = copies[0].data

    def touching(self, begin: int, end: int) -> range:
        """The numbers of the runs that have a byte in this range."""
        first = bisect.bisect_right(self.begins, begin) - 1
        if first < 0 or self.runs[first].end <= begin:
            first += 1
        return range(first, bisect.bisect_left(self.begins, end))

    def has_exchanged(self, begin: int, end: int) -> bool:
        """Whether a sector of exchanged bytes has a byte in this range."""
        return any(first < end and begin < last for first, last in self.exchanged)

    def ways_of(self, number: int) -> Sequence[int]:
        """The ways of a run that can be true."""
        run = self.runs[number]
        return range(len(run.ways)) if run.firm is None else (run.firm,)

    def bytes_with(self, begin: int, end: int, chosen: Mapping[int, int]) -> bytes:
        """The bytes of a range where runs go as `chosen` says, {run: way}; others go as the first copy does."""
        found = bytearray(self.data[begin:end])
        for number in self.touching(begin, end):
            if number in chosen:
                run = self.runs[number]
                first = max(begin, run.begin)
                part = run.part(chosen[number], begin, end)
                found[first - begin : first - begin + len(part)] = part
        return bytes(found)
