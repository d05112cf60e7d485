"""Splices of two streams of a frame, for which jls-splice isn't asked: one before a place and the other after it."""
from __future__ import annotations

import itertools
from collections.abc import Sequence

from jls_tools.dicom.axis.apart import differing

LEAST_EQUAL, MOST_EQUAL = 2, 64  # equal bytes between two places that jls-splice can take for one
MOST_SECTORS = 5


def cuts_of(one: bytes, other: bytes, begin: int, sector: int, has_short: bool) -> list[int]:
    """Places in two streams where damage of one can end and damage of the other begin: short equal ranges, and borders of sectors.

    `begin` is where the streams begin in the file. jls-splice takes what is near each other for one place.
    """
    ranges = differing([one, other])
    pairs = zip(ranges, ranges[1:]) if has_short else ()
    found = {last for (_, last), (first, _) in pairs if LEAST_EQUAL <= first - last <= MOST_EQUAL}
    for first, last in ranges:
        found.update(at - begin for at in range(-(-(first + begin) // sector) * sector, last + begin + 1, sector))
    return sorted(at for at in found if 0 < at < len(one))


def by_sectors(one: bytes, other: bytes, cuts: Sequence[int]) -> list[bytes]:
    """Splices of two streams that have any of them in each sector in which they differ, if these are few."""
    borders = [0, *cuts, len(one)]
    parts = [{one[first:last], other[first:last]} for first, last in zip(borders, borders[1:])]
    if sum(len(part) == 2 for part in parts) > MOST_SECTORS:
        return []
    return [b"".join(splice) for splice in itertools.product(*(sorted(part) for part in parts))]


def crossed(streams: Sequence[bytes], begin: int, sector: int, has_short: bool) -> list[bytes]:
    """Splices of two streams that have one of them before a place and the other after it. They have no byte that neither has."""
    found: list[bytes] = []
    for one, other in itertools.combinations(streams, 2):
        if len(one) == len(other):
            cuts = cuts_of(one, other, begin, sector, has_short)
            found += [] if has_short else by_sectors(one, other, cuts)
            for at in cuts:
                found += [one[:at] + other[at:], other[:at] + one[at:]]
    return [stream for stream in dict.fromkeys(found) if stream not in streams]
