"""What most copies have, or the one from which the bytes around a place were taken."""
from __future__ import annotations

import bisect
import itertools
import re
from collections.abc import Collection, Mapping, Sequence
from typing import TYPE_CHECKING, Optional

from jls_tools.dicom.axis.bad_places import clipped
from jls_tools.dicom.axis.media import SECTOR, SECTORS
from jls_tools.dicom.axis.sectors import is_noise_alone
from jls_tools.dicom.axis.seven_bits import sent_of_each
from jls_tools.dicom.evidence.decider import DECIDED, IS_SECTOR
from jls_tools.dicom.evidence.most import BY_MOST, are_lost_alike, has_other
from jls_tools.dicom.evidence.sources import sources_of
from jls_tools.dicom.evidence.uids import is_flip, of_series
from jls_tools.dicom.read.elements import text_of
from jls_tools.dicom.read.tags import INSTANCE, INSTANCE_IN_META

if TYPE_CHECKING:
    from jls_tools.dicom.evidence.header import Header

NUMBER = re.compile(rb"[0-9.+-]+\Z")
IN_FRAMES = "what is left differs in frames alone"


def by_neighbours(header: Header) -> None:
    """A range that was cut at borders of sectors, decided before and after a piece: the piece goes with them."""
    wholes: dict[int, list[int]] = {}
    for number in sorted(header.parts):
        wholes.setdefault(header.runs.runs[number].whole, []).append(number)
    for numbers in wholes.values():
        settled = [number for number in numbers if len(header.left[number]) == 1]
        for number in numbers:
            at = bisect.bisect_left(settled, number)
            if len(header.left[number]) > 1 and 0 < at < len(settled):
                by_both(header, number, settled[at - 1], settled[at])


def by_both(header: Header, number: int, before: int, after: int) -> None:
    """Leaves the one way of a run that the copies have from which the runs around it were taken."""
    both = header.holders(before) & header.holders(after)
    ways = {way for way in header.left[number] if set(header.runs.runs[number].holders[way]) & both}
    if len(ways) == 1 and not looks_lost(header, number, ways):
        header.keep(number, ways, "the bytes around it are of that copy")


def looks_lost(header: Header, number: int, ways: set[int]) -> bool:
    """Whether eight bytes or more of one value would be kept, where another way has more values; or noise that stands alone."""
    run = header.runs.runs[number]
    if all(is_noise_alone(header.copies[copy].data, run.begin, run.end) for way in ways for copy in run.holders[way]):
        return True
    plain = {way for way in header.left[number] if not run.ways[way].strip(run.ways[way][:1])}
    return run.end - run.begin >= 8 and ways <= plain and plain != set(header.left[number])


def by_most(header: Header) -> None:
    """Three copies or more: what most of them have, unless these lost the sector together.

    A copy with another file's UID says nothing of numbers, which files of a series have otherwise. Nor does one that has another number
    near by, where no flipped bit explains what differs: two copies can have sectors of one other file. What looks lost makes no majority.
    Copies of one damaged file have one voice, and one that was sent with seven bits has none there.
    """
    whole = {number: ways for number, ways in header.left.items() if header.is_outside(number)}
    sources = sources_of(header.copies, header.runs, whole)
    strange, others = with_other_uid(header), with_other_numbers(header)
    sent = sent_of_each([copy.data for copy in header.copies]) if len(header.copies) > 2 and header.open_runs() else []
    for number in header.open_runs():
        run = header.runs.runs[number]
        silent = {copy for copy, ranges in enumerate(sent) if clipped(ranges, run.begin, run.end)}
        silent |= strange if are_numbers(header, number) else set()
        if has_other_number(header, number):
            silent = silent | others.get(run.begin // SECTORS[0], set())
        holders = {way: header.holders_of(number, way) - silent for way in header.left[number]}
        most = of_most(header, number, holders, sources)
        if most is None:
            continue
        count = decided_against(header, number, holders[most])
        if count >= DECIDED and looks_filled(header, number, holders[most]):
            header.keep(number, set(header.left[number]) - set(header.alike(number, most)), IS_SECTOR)
        elif count == 0:
            lost = lost_in(header, number)
            if of_most(header, number, {way: each - lost for way, each in holders.items()}, sources) == most:
                header.keep(number, {most}, BY_MOST)


def of_most(header: Header, number: int, holders: Mapping[int, Collection[int]], sources: Sequence[int]) -> Optional[int]:
    """The way that most of three voices or more have, {a way that is left: the copies that count for it}; `sources` has that of each."""
    present = len({sources[copy] for each in header.runs.runs[number].holders for copy in each})
    voices = {way: len({sources[copy] for copy in each}) for way, each in holders.items()}
    return next((way for way in header.left[number] if present >= 3 and voices[way] * 2 > present), None)


def lost_in(header: Header, number: int) -> set[int]:
    """The copies that look lost in a run, where another copy has far other bytes in the sector."""
    run = header.runs.runs[number]
    place = run.begin, run.end
    lost = {at for at, copy in enumerate(header.copies) if clipped(copy.seen, *place)}
    return {at for at in lost if any(has_other(copy, header.copies[at].data, place) for copy in header.copies)}


def are_numbers(header: Header, number: int) -> bool:
    """Whether all ways that are left for a run are parts of numbers."""
    return all(NUMBER.match(header.runs.runs[number].ways[way]) for way in header.left[number])


def has_other_number(header: Header, number: int) -> bool:
    """Whether copies have other numbers in a run, and it takes more than one bit to make one of the other."""
    texts = [text_of(header.runs.runs[number].ways[way]) for way in header.left[number]]
    return are_numbers(header, number) and not any(is_flip(one, two) for one, two in itertools.combinations(texts, 2))


def with_other_numbers(header: Header) -> dict[int, set[int]]:
    """{a block of the largest size: the copies that have another number in it than most have}."""
    found: dict[int, set[int]] = {}
    for number in header.open_runs():
        most = of_most(header, number, {way: header.holders_of(number, way) for way in header.left[number]}, range(len(header.copies)))
        if most is not None and has_other_number(header, number):
            others = (header.holders_of(number, way) for way in header.left[number] if way != most)
            found.setdefault(header.runs.runs[number].begin // SECTORS[0], set()).update(*others)
    return found


def with_other_uid(header: Header) -> set[int]:
    """The copies that have the UID of another file of the series."""
    uid = header.text(INSTANCE)
    elements = [header.elements[tag] for tag in (INSTANCE_IN_META, INSTANCE) if tag in header.elements]
    return set(of_series(header.copies, uid, elements, bytes(header.merged()))) if uid else set()


def by_frames_alone(header: Header) -> None:
    """Leaves one of the ways of a run that are equal outside of frames."""
    for number in header.open_runs():
        first = header.left[number][0]
        if set(header.left[number]) <= set(header.alike(number, first)):
            header.keep(number, {first}, IN_FRAMES)


def decided_against(header: Header, number: int, alike: Collection[int]) -> int:
    """How many places in the sector of a run were decided against copies that are alike in it."""
    first = header.runs.runs[number].begin // SECTOR * SECTOR
    beside = (each for each in header.runs.touching(first, first + SECTOR) if len(header.left.get(each, ())) == 1)
    return sum(bool(header.holders(each)) and not header.holders(each) & set(alike) for each in beside)


def looks_filled(header: Header, number: int, alike: Collection[int]) -> bool:
    """Whether a run looks lost in all copies that are alike in it, and not in another one."""
    run = header.runs.runs[number]
    return are_lost_alike(header.copies, alike, [(run.begin, run.end)])
