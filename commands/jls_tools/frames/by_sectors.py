"""A frame of two copies that lost whole sectors: each sector is one copy's or the other's.

jls-splice tries finer parts, and noise has so many of them that its search can be cut off. Of the few files that have whole sectors of
each copy, all are read here. Noise reads as part of a frame too often only where samples have more than twelve bits.
"""
from __future__ import annotations

import itertools
from collections.abc import Callable, Iterator, Sequence
from typing import Optional

from jls_tools.dicom.axis.apart import differing, size_of
from jls_tools.dicom.axis.media import SECTOR, SHARE
from jls_tools.frames.codestream import shape_of

MOST_PARTS = 5
MOST_BITS = 12  # 319 of 4,750 frames of 16 bits read whole with noise in a sector, none of 24,378 of 8 and 12
Range = tuple[int, int]


def sectors_apart(one: bytes, two: bytes, begin: int) -> Optional[list[Range]]:
    """The stretches of sectors in which two streams have nothing in common; nothing if they differ elsewhere too, or in length.

    `begin` is where the streams begin in the file.
    """
    if len(one) != len(two):
        return None
    apart = differing([one, two])
    found: list[list[int]] = []
    for first, last in apart:
        start, stop = (begin + first) // SECTOR * SECTOR - begin, -(-(begin + last) // SECTOR) * SECTOR - begin
        if found and start <= found[-1][1]:
            found[-1][1] = stop
        else:
            found.append([start, stop])
    ranges = [(max(0, start), min(stop, len(one))) for start, stop in found]
    for start, stop in ranges:
        inside = [(max(first, start), min(last, stop)) for first, last in apart if first < stop and start < last]
        if size_of(inside) < SHARE * (stop - start):
            return None
    return ranges


def made_of(one: bytes, two: bytes, ranges: Sequence[Range]) -> Iterator[bytes]:
    """Each file that has in each of these ranges what one of two has."""
    for ways in itertools.product((False, True), repeat=len(ranges)):
        stream = bytearray(one)
        for (begin, end), is_second in zip(ranges, ways):
            if is_second:
                stream[begin:end] = two[begin:end]
        yield bytes(stream)


def by_sectors(streams: Sequence[bytes], begin: int, reads: Callable[[bytes], bool]) -> Optional[bytes]:
    """The only file that reads of those that have whole sectors of two streams; nothing if there is another number of them."""
    if len(streams) != 2:
        return None
    shapes = [shape_of(stream) for stream in streams]
    if any(shape is None or shape.precision > MOST_BITS for shape in shapes):
        return None
    ranges = sectors_apart(streams[0], streams[1], begin)
    if not ranges or len(ranges) > MOST_PARTS:
        return None
    found = [stream for stream in made_of(streams[0], streams[1], ranges) if reads(stream)]
    return found[0] if len(found) == 1 else None
