"""Whether most copies have one header that reads: then it is the file's, and no rule on values takes anything else from another copy.

An empty or a shorter value can be the true one. So a copy alone whose value is longer does not outvote two whose headers agree. But disks
of one kind can lose the same sectors: what looks lost outvotes nothing.
"""
from __future__ import annotations

from collections.abc import Collection, Sequence
from dataclasses import dataclass
from operator import ne
from typing import Optional

from jls_tools.dicom.axis.align import Copy
from jls_tools.dicom.axis.bad_places import Range, clipped, in_all, in_both
from jls_tools.dicom.axis.media import SECTOR
from jls_tools.dicom.axis.sectors import LEAST
from jls_tools.dicom.read.elements import Element
from jls_tools.dicom.read.reading import Reading
from jls_tools.dicom.read.tags import FIRST, PIXEL_DATA
from jls_tools.dicom.read.values import TEXTS, is_doubtful

LOST_TEXT = bytes(8)  # in a text they are damage
BY_MOST = "most copies have it"


@dataclass(frozen=True)
class Agreed:
    """The copies, by index, that have one header, and where its elements begin and end."""

    copies: frozenset[int]
    begin: int
    until: int


def agreed(copies: Sequence[Copy], ranges: list[tuple[int, int]]) -> Optional[Agreed]:
    """What most copies agree on, if it reads and its VRs allow it. `ranges` are those in which copies differ."""
    tried: list[int] = []
    for at, copy in enumerate(copies):
        if len(copies) < 3 or any(copy.data == copies[other].data for other in tried):
            continue
        tried.append(at)
        until = header_end(copy.data, ranges)
        if until is None:
            continue
        own = copy.data[FIRST:until]
        alike = [number for number, each in enumerate(copies) if each.data[FIRST:until] == own and not each.lacks(FIRST, until)]
        if at in alike and len(alike) * 2 > len(copies) and not are_lost_alike(copies, alike, clipped(ranges, FIRST, until)):
            return Agreed(frozenset(alike), FIRST, until)
    return None


def are_lost_alike(copies: Sequence[Copy], alike: Collection[int], ranges: Sequence[tuple[int, int]]) -> bool:
    """Whether some of these ranges looks lost in each of the copies that are alike, and another copy has far other bytes there."""
    others = [copy for at, copy in enumerate(copies) if at not in alike]
    filled = in_both(ranges, in_all([copies[at].seen for at in alike]))
    models = [copies[at].data for at in alike]
    return any(has_other(copy, model, pair) for pair in filled for copy in others for model in models)


def has_other(copy: Copy, model: bytes, pair: Range) -> bool:
    """Whether a copy has, in the sectors of a range that looks lost, other bytes that do not; a few can be damage of its own."""
    begin, end = pair[0] // SECTOR * SECTOR, -(-pair[1] // SECTOR) * SECTOR
    is_there = not copy.lacks(*pair) and not clipped(copy.seen, *pair)
    return is_there and sum(map(ne, copy.data[begin:end], model[begin:end])) >= LEAST


def header_end(data: bytes, ranges: list[tuple[int, int]]) -> Optional[int]:
    """Where Pixel Data begins, if elements lead there, and none that copies differ in looks damaged."""
    reading = Reading(data)
    pixels = reading.element(PIXEL_DATA)
    if pixels is None:
        return None
    leaves = [leaf for leaf in reading.leaves if leaf.end <= pixels.start]
    inner = [leaf for leaf in leaves if any(begin < leaf.end and leaf.value < end for begin, end in ranges)]
    return None if any(looks_damaged(leaf, leaf.bytes_of(data)) for leaf in inner) else pixels.start


def looks_damaged(leaf: Element, value: bytes) -> bool:
    return is_doubtful(leaf.vr, value) or leaf.vr in TEXTS and LOST_TEXT in value
