"""Copies on one axis without what lists name as bad in them: there another copy speaks, and none speaks twice."""
from __future__ import annotations

import bisect
from collections.abc import Sequence
from dataclasses import replace

from jls_tools.dicom.axis.align import Copy, merged
from jls_tools.dicom.axis.bad_places import END, Range, in_all, in_both, outside


def on_axis(copy: Copy, ranges: Sequence[Range]) -> list[Range]:
    """Where ranges of a copy stand on the axis."""
    found: list[Range] = []
    own, begin = len(copy.foreign), 0
    for first, last in [*copy.absent, (len(copy.data), len(copy.data))] if ranges else ():
        parts = in_both(ranges, [(own, own + first - begin)])
        found += [(part - own + begin, end - own + begin) for part, end in parts]
        own, begin = own + first - begin, last
    return merged(found)


def placed(copies: Sequence[Copy]) -> list[Copy]:
    """The copies with their bad ranges on the axis. Bytes that a list names as bad are taken from a copy where they are not."""
    found = [replace(copy, bad=on_axis(copy, copy.bad), seen=on_axis(copy, copy.seen)) for copy in copies]
    return filled(found) if any(copy.bad for copy in found) else found


def lacking(copy: Copy, has_seen: bool = False) -> list[Range]:
    """What a copy lacks or has bad; with what only looks so, if that is asked for."""
    return merged([*copy.absent, *copy.bad, *(copy.seen if has_seen else ())])


def is_in(ranges: Sequence[Range], place: int) -> bool:
    at = bisect.bisect_right(ranges, (place, END)) - 1
    return at >= 0 and place < ranges[at][1]


def filled(copies: Sequence[Copy]) -> list[Copy]:
    """Where several copies are well, a bad one lacks the bytes, and doesn't count. Where one is, the others get its bytes."""
    lacks = [lacking(copy) for copy in copies]
    texts, absent = [bytearray(copy.data) for copy in copies], [list(copy.absent) for copy in copies]
    borders = sorted({place for ranges in lacks for pair in ranges for place in pair})
    for begin, end in zip(borders, borders[1:]):
        well = [number for number, ranges in enumerate(lacks) if not is_in(ranges, begin)]
        for number, copy in enumerate(copies):
            if well and number not in well:
                texts[number][begin:end] = copies[well[0]].data[begin:end]
                if len(well) > 1 and is_in(copy.bad, begin):
                    absent[number].append((begin, end))
    return [replace(copy, data=bytes(text), absent=merged(own)) for copy, text, own in zip(copies, texts, absent)]


def in_no_copy(copies: Sequence[Copy], has_seen: bool = False) -> list[Range]:
    """What no copy has well."""
    return in_all([lacking(copy, has_seen) for copy in copies])


def alone(copies: Sequence[Copy], frames: Sequence[Range]) -> dict[int, list[Range]]:
    """{a copy: what it alone has well of all but frames, since lists name it as bad in others}."""
    found = {}
    for number, copy in enumerate(copies):
        others = [lacking(other) for at, other in enumerate(copies) if at != number]
        own = outside(outside(in_all(others), lacking(copy)), frames)
        bad = merged(pair for at, other in enumerate(copies) if at != number for pair in other.bad)
        if ranges := in_both(own, bad):
            found[number] = ranges
    return found
