"""Copies that were made of one damaged file: they have the same wrong bytes where another copy was taken. So they have one voice.

Two copies get no such damage each for itself, but for sectors that a disk, or what reads it, fills.
"""
from __future__ import annotations

from collections.abc import Collection, Iterator, Mapping, Sequence

from jls_tools.dicom.axis.align import Copy
from jls_tools.dicom.axis.bad_places import clipped
from jls_tools.dicom.axis.runs import Runs
from jls_tools.dicom.axis.sectors import LOST_VALUES


def sources_of(copies: Sequence[Copy], runs: Runs, left: Mapping[int, Collection[int]]) -> list[int]:
    """For each copy the first one that is of the same damaged file, or itself. `left` are the ways of runs that can be true."""
    found = list(range(len(copies)))
    for holders in wrong_together(copies, runs, left) if len(copies) > 2 else ():
        sources = {found[copy] for copy in holders}
        found = [min(sources) if source in sources else source for source in found]
    return found


def wrong_together(copies: Sequence[Copy], runs: Runs, left: Mapping[int, Collection[int]]) -> Iterator[list[int]]:
    """The copies that have the same bytes where others were taken, as far as nothing fills these."""
    for number, ways in left.items():
        run = runs.runs[number]
        for way, holders in enumerate(run.holders):
            if len(ways) == 1 and way not in ways and len(holders) > 1 and not is_filled(run.ways[way]):
                well = [copy for copy in holders if not clipped(copies[copy].seen, run.begin, run.end)]
                if len(well) > 1:
                    yield well


def is_filled(part: bytes) -> bool:
    return any(not part.strip(value) for value in LOST_VALUES)
