"""Bytes that one copy alone has and that were put into it: a block written twice, or bytes of something else.

Elements and items go on only without them, by lengths that all copies have: so none of these is damaged. Of the item of a frame one is
enough where the others lost it, as the frame has to read. But in a header the other copies can have lost as many bytes as an element has,
and read on; noise can be over that element. So there the bytes have to be fewer than an element has, stand twice, or lie in a value that
goes on for as many bytes.
"""
from __future__ import annotations

import itertools
from collections.abc import Iterable, Iterator, Sequence
from dataclasses import replace

from jls_tools.dicom.axis.align import Copy, merged
from jls_tools.dicom.axis.bad_places import END, Range, in_all
from jls_tools.dicom.read.elements import PIXELS_BEGIN
from jls_tools.dicom.read.tags import PREAMBLE

MOST_INSERTED = 6  # ranges, of which each combination is tried
MOST_STEPS = 1 << 18  # of elements and items, which all of these may take: those of a file of many frames are some ten thousands
SMALLEST_ELEMENT = 8  # bytes: a tag, a VR and a length
LEAST_TWICE = 16  # so many bytes, at least, stand twice by no chance
BESIDE = 32  # so many bytes before and behind are equal in all copies, where nothing else can hide what happened


def held_alone(copies: Sequence[Copy]) -> list[Range]:
    """The ranges of the axis that one copy has and each other one lacks."""
    found: list[Range] = []
    for number in range(len(copies)):
        found += in_all([merged(copy.absent) for at, copy in enumerate(copies) if at != number])
    return sorted(found)


def combinations(copies: Sequence[Copy], ranges: Sequence[Range]) -> Iterator[tuple[Range, ...]]:
    """What of these ranges can have been put in: each combination, those of few first."""
    pixels = min((found.end() for copy in copies if (found := PIXELS_BEGIN.search(copy.data))), default=END)
    likely = [part for part in ranges if part[0] > pixels or is_clear(copies, part)]
    for count in range(1, len(likely) + 1):
        yield from itertools.combinations(likely, count)


def without(copies: Sequence[Copy], ranges: Sequence[Range]) -> list[Copy]:
    """The copies on an axis that has not these ranges, which are in order."""
    return [replace(copy, data=cut_out(copy.data, ranges), **lists_of(copy, ranges)) for copy in copies]


def lists_of(copy: Copy, ranges: Sequence[Range]) -> dict[str, list[Range]]:
    """Where the ranges stand that a copy has lists of."""
    lists = {"absent": copy.absent, "bad": copy.bad, "seen": copy.seen, "recoded": copy.recoded}
    return {name: moved(own, ranges) for name, own in lists.items()}


def cut_out(data: bytes, ranges: Sequence[Range]) -> bytes:
    borders = [0, *(place for pair in ranges for place in pair), len(data)]
    return b"".join(data[begin:end] for begin, end in zip(borders[::2], borders[1::2]))


def place_without(place: int, ranges: Sequence[Range]) -> int:
    """Where a place of the axis stands when ranges of it are cut out."""
    return place - sum(min(place, end) - begin for begin, end in ranges if begin < place)


def moved(own: Iterable[Range], ranges: Sequence[Range]) -> list[Range]:
    both = ((place_without(begin, ranges), place_without(end, ranges)) for begin, end in own)
    return merged((begin, end) for begin, end in both if begin < end)


def owner_of(copies: Sequence[Copy], part: Range) -> Copy:
    """The copy that alone has a range."""
    return next(copy for copy in copies if not copy.lacks(*part))


def place_in(copy: Copy, place: int) -> int:
    """Where a place of the axis stands in a copy itself."""
    return place_without(place, copy.absent)


def is_clear(copies: Sequence[Copy], part: Range) -> bool:
    """Whether all copies that have what is before and after a range have it alike: two at least."""
    begin, end = part
    well = [copy for copy in copies if not copy.lacks(begin - BESIDE, begin) and not copy.lacks(end, end + BESIDE)]
    around = {copy.data[max(0, begin - BESIDE) : begin] + copy.data[end : end + BESIDE] for copy in well}
    return len(well) > 1 and len(around) == 1


def is_no_element(copies: Sequence[Copy], part: Range) -> bool:
    """Whether bytes of one copy can't be an element that the others lost: they are fewer, stand twice, or stand in the preamble."""
    begin, end = part
    return begin < PREAMBLE or end - begin < SMALLEST_ELEMENT or stands_beside(owner_of(copies, part).data, begin, end)


def stands_beside(data: bytes, begin: int, end: int) -> bool:
    """Whether what stands in a range stands a second time just before it or after it."""
    own, size = data[begin:end], end - begin
    return size >= LEAST_TWICE and own.strip(own[:1]) != b"" and own in (data[max(0, begin - size) : begin], data[end : end + size])
