"""Bytes of a copy that are known to be bad: sectors that a disk or a rescue filled, and places that a list names.

No scan data looks like a sector of one byte value, or of one text again and again, as `ddrescue --fill-mode` writes it. A codestream that
reads whole is never cut for such a look.
"""
from __future__ import annotations

import bisect
import re
from collections.abc import Iterable, Iterator, Sequence

from jls_tools.dicom.axis.align import merged
from jls_tools.dicom.axis.media import SECTOR
from jls_tools.dicom.axis.periods import period_of
from jls_tools.frames.codestream import without_padding

Range = tuple[int, int]
# what `ddrescue --fill-mode=l` puts before the fill
LOCATION = re.compile(rb"\n# position 0x[0-9A-Fa-f]{1,16} sector 0x[0-9A-Fa-f]{1,16} status . ")
LEAST_REST = 64  # bytes of one value behind the last border of sectors, if the sector before them is not bad
NO_CODE = b"\xff\x80"  # neither code nor a marker (T.87, A.1): an interval with it never decodes
RESTART = re.compile(rb"\xff[\xd0-\xd7\xda]")  # a restart marker, or a scan header
END = 1 << 62  # behind all
MOST_PARTS = 32  # of a codestream that are read


def is_filled(sector: bytes) -> bool:
    return period_of(sector) > 0 or bool(LOCATION.match(sector))


def seen(data: bytes) -> list[Range]:
    """The sectors of a file, by its own offsets, that are filled. What is left after the last border counts with the sector before it."""
    found: list[Range] = []
    for at in range(0, len(data), SECTOR):
        sector = data[at : at + SECTOR]
        goes_on = len(sector) < SECTOR and bool(found) and found[-1][1] == at and is_filled(data[-SECTOR:])
        if goes_on or len(sector) >= LEAST_REST and is_filled(sector):
            found.append((at, at + len(sector)))
    return merged(found)


def in_both(one: Sequence[Range], other: Sequence[Range]) -> list[Range]:
    """What stands in each of two lists of ranges, which are in order."""
    found, at, beside = [], 0, 0
    while at < len(one) and beside < len(other):
        begin, end = max(one[at][0], other[beside][0]), min(one[at][1], other[beside][1])
        if begin < end:
            found.append((begin, end))
        if one[at][1] < other[beside][1]:
            at += 1
        else:
            beside += 1
    return found


def in_all(lists: Sequence[Sequence[Range]]) -> list[Range]:
    """What stands in each of several lists of ranges, each in order."""
    found = list(lists[0]) if lists else []
    for other in lists[1:]:
        found = in_both(found, other)
    return found


def clipped(ranges: Sequence[Range], begin: int, end: int) -> list[Range]:
    """What of some ranges, in order, stands in another one."""
    found = []
    for at in range(max(0, bisect.bisect_left(ranges, (begin, begin)) - 1), len(ranges)):
        first, last = ranges[at]
        if first >= end:
            break
        if begin < last:
            found.append((max(begin, first), min(end, last)))
    return found


def within(ranges: Sequence[Range], parts: Iterable[Range]) -> list[Range]:
    """Where ranges of a file, in order, stand in what these parts of it make together."""
    found, done = [], 0
    for first, last in parts:
        found += [(begin - first + done, end - first + done) for begin, end in clipped(ranges, first, last)]
        done += last - first
    return merged(found)


def outside(ranges: Iterable[Range], parts: Iterable[Range]) -> list[Range]:
    """What of some ranges, in order, is in none of these parts."""
    borders = [0, *(place for part in merged(parts) for place in part), END]
    return in_both(list(ranges), list(zip(borders[::2], borders[1::2])))


def marked(stream: bytes, bad: Iterable[Range]) -> bytes:
    """A codestream with what is no code where it is bad: so nothing there decodes by chance, or is taken for a marker."""
    found = bytearray(stream)
    for begin, end in bad:
        size = max(0, min(end, len(found)) - begin)
        found[begin : begin + size] = (NO_CODE[:1] + NO_CODE[1:] * size)[:size]
    return bytes(found)


def parts_of(streams: Sequence[bytes], bad: Sequence[Range]) -> Iterator[list[bytes]]:
    """Codestreams of one frame that give what is there beside bytes that are bad in all copies of it, those of a part together.

    A codestream that ends gives its lines up to there. So it is cut before the first bad byte. It is cut before a further one too if a
    restart marker or a scan header stands between the two, where it begins anew. The last part has all other intervals.
    """
    plain, behind, count = [marked(stream, bad) for stream in streams], 0, 0
    for begin, end in bad:
        if behind == 0 or count < MOST_PARTS and begins_anew(streams, behind, begin):
            yield list(dict.fromkeys(stream[:begin] for stream in plain))
            count += 1
        behind = end
    if bad and begins_anew(streams, bad[0][1], max(map(len, streams))):
        yield list(dict.fromkeys(plain))
        if without_padding(plain) != plain:
            yield list(dict.fromkeys(without_padding(plain)))


def begins_anew(streams: Sequence[bytes], begin: int, end: int) -> bool:
    return all(RESTART.search(stream, begin, end) for stream in streams)


def note_of(ranges: Sequence[Range]) -> str:
    """Where a frame was cut."""
    more = "" if len(ranges) < 2 else " and in another place" if len(ranges) == 2 else f" and in {len(ranges) - 1} places more"
    return f"cut before bad bytes at {ranges[0][0]}{more}" if ranges else ""
