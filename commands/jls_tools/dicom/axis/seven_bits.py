"""Bytes of a copy that were sent with seven bits: copies differ there in the highest bit alone, and it has this bit in no byte between.

If the bytes are all as far apart as the lanes of a bus, that bit can be stuck in the other copy.
"""
from __future__ import annotations

import math
from collections.abc import Iterator, Sequence

from jls_tools.dicom.axis.align import merged
from jls_tools.dicom.axis.apart import Range, differing, size_of

HIGHEST = 0x80
LEAST = 4  # bytes that differ, at least: fewer cost no more as flipped bits, each for itself
NEAR = 256  # so near they are to each other
BUS = 8  # bytes, at least, of which a bit can be stuck in each


def sent_of_each(texts: Sequence[bytes]) -> list[list[Range]]:
    """The ranges in which each of several copies was sent so, as another one shows: there it says nothing of the highest bit."""
    pairs = ([sent_in(own, other) for other in texts if other is not own] for own in texts)
    return [merged(part for parts in found for part in parts) for found in pairs]


def sent_in(own: bytes, other: bytes) -> Iterator[Range]:
    """The ranges in which a copy lacks the highest bit of what another one has, and differs in nothing else."""
    ranges = differing([own, other])
    lacking = [all(other[at] == own[at] | HIGHEST for at in range(begin, end)) for begin, end in ranges]
    near: list[Range] = []
    for pair, is_so in zip([*ranges, (len(own) + NEAR, len(own) + NEAR)], [*lacking, False]):
        if near and (not is_so or pair[0] - near[-1][1] > NEAR):
            first, last = near[0][0], near[-1][1]
            if size_of(near) >= LEAST and max(own[first:last]) < HIGHEST and math.gcd(*(begin - first for begin, _ in near)) < BUS:
                yield first, last
            near = []
        if is_so:
            near.append(pair)
