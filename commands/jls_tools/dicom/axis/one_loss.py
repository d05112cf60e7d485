"""Two texts laid so that they lost bytes in one place alone, or in one each if they are of one length; and what a way to lay two costs.

Where a text repeats, what comes after a loss, or after bytes put in, is nearly equal at other offsets too. Then a search that goes from
one loss to the next can find several for one. So the damage is counted of which each way wants to know: the least is taken.
"""
from __future__ import annotations

import math
from collections import Counter
from collections.abc import Iterator, Sequence
from typing import Optional

from jls_tools.dicom.axis.apart import Range, differing, size_of
from jls_tools.dicom.axis.media import MOST_LOST, SECTOR

PLACE, BYTE, LOST_SECTOR = 24, 8, 64  # bits: where damage begins, one byte of it, and all of a sector
STEPS, LIKE = (0, 256, 1024, 4096, 16384), 64  # where it is looked how far a text is moved, and by how many bytes
FAR, MOST_COUNTS = 1 << 13, 32  # so far, at most, and by so many counts of bytes
LONE = 2048  # bytes
NEAR = 8  # bytes: damage nearer than that is one


def place_of(short: bytes, long: bytes) -> int:
    """Where the shorter of two texts lost bytes in one place, so that fewest others differ."""
    more = len(long) - len(short)
    behind = differing([short, long[more:]])
    gains = [(end, begin - end) for begin, end in behind]
    losses = [(end, end - begin) for begin, end in differing([short, long[: len(short)]])]
    least = apart = place = 0
    for at, change in sorted(gains + losses):
        apart += change
        if apart < least:
            least, place = apart, at
    return place


def both_places_of(one: bytes, other: bytes) -> Optional[tuple[int, int, int]]:
    """(where, where after that, how many) if one of two texts of one length can have bytes more here, and the other one there.

    The count is below zero where it is the other one that has more here. What is between then stands so far on in one of both.
    """
    apart = without_lone(differing([one, other]))
    if not apart:
        return None
    first, last = apart[0][0], apart[-1][1]
    found: dict[int, int] = {}
    if last - first > MOST_LOST:
        return None
    for at in (first + step for step in STEPS if first + step + LIKE <= last):
        for place in places_of(one[max(first, at - FAR) : min(last, at + FAR)], other[at : at + LIKE]):
            count = max(first, at - FAR) + place - at
            if count and count not in found and abs(count) < last - first and len(found) < MOST_COUNTS:
                found[count] = apart_between(one, other, (first, last), count)
    best = min(found, key=lambda count: (found[count], abs(count)), default=None)
    return None if best is None else (first, last, best)


def without_lone(ranges: list[Range]) -> list[Range]:
    """Ranges without the first and last ones that are far from others: what is moved differs again and again."""
    begin, end = 0, len(ranges)
    while begin < end - 1 and ranges[begin + 1][0] - ranges[begin][1] > LONE:
        begin += 1
    while begin < end - 1 and ranges[end - 1][0] - ranges[end - 2][1] > LONE:
        end -= 1
    return ranges[begin:end]


def places_of(data: bytes, part: bytes) -> Iterator[int]:
    at = data.find(part)
    while at >= 0:
        yield at
        at = data.find(part, at + 1)


def apart_between(one: bytes, other: bytes, between: Range, count: int) -> int:
    """How many bytes of a range differ if it stands so much further on in one text than in the other."""
    first, last = between
    if count < 0:
        one, other, count = other, one, -count
    return size_of(differing([one[first + count : last], other[first : last - count]]))


def cost_of(one: bytes, other: bytes, losses: Sequence[Range]) -> float:
    """How many bits say in what two texts on one axis differ: `losses` are those of both. No sector costs more than one that is lost."""
    bits = sum(PLACE + 2 * math.log2(end - begin) for begin, end in losses)
    sectors: Counter[int] = Counter()
    for begin, end in joined(differing([one, other])):
        if is_filled(one[begin:end]) or is_filled(other[begin:end]):
            bits += PLACE + BYTE
            continue
        for border in range(begin // SECTOR, -(-end // SECTOR)):
            sectors[border] += PLACE + BYTE * (min(end, (border + 1) * SECTOR) - max(begin, border * SECTOR))
    return bits + sum(min(cost, LOST_SECTOR) for cost in sectors.values())


def is_filled(part: bytes) -> bool:
    """Whether bytes are of one value, as a lost sector is."""
    return part.count(part[:1]) == len(part)


def joined(ranges: Sequence[Range]) -> list[Range]:
    """Ranges with those near each other as one."""
    found: list[Range] = []
    for begin, end in ranges:
        if found and begin - found[-1][1] < NEAR:
            found[-1] = found[-1][0], end
        else:
            found.append((begin, end))
    return found
