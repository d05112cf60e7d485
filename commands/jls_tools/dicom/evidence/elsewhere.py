"""One byte of a text or of a binary record in which copies differ, where the file has the bytes around it elsewhere too.

There one of the ways stands with the same bytes before and after it, several times, and no other way does. No other byte of the sector may
differ: a sector of another place, or of another file of the series, differs in more. Digits are what files of a series have otherwise, and
a few bytes of one value can be written over true ones: these want to stand elsewhere more often. Numbers, dates and UIDs of the data set
say nothing.
"""
from __future__ import annotations

from typing import TYPE_CHECKING, Optional

from jls_tools.dicom.axis.media import SECTOR
from jls_tools.dicom.read.elements import Element

if TYPE_CHECKING:
    from jls_tools.dicom.evidence.header import Header

AROUND = ((8, 8), (12, 4), (4, 12))  # so many bytes before and behind
KINDS = 4  # so many different bytes are around, at least: zeros stand among zeros everywhere
LEAST, LEAST_USUAL = 3, 16  # so often, at least, a way stands elsewhere
FILLS = (b"\0", b"\xff", b" ")
DIGITS = frozenset(b"0123456789")
VALUES_OF_FILES = frozenset((b"AS", b"DA", b"DS", b"DT", b"FD", b"FL", b"IS", b"TM", b"UI"))
STANDS_ELSEWHERE = "the bytes around it stand elsewhere with this one alone"


def by_elsewhere(header: Header) -> None:
    """Leaves the way of such a byte that stands elsewhere."""
    singles = [(leaf, number) for leaf in header.leaves for number in singles_of(header, leaf)] if header.open_runs() else []
    if not singles:
        return
    data = bytes(header.merged())
    known = b"".join(data[begin:end] for begin, end in header.outside(0, len(data)))
    for leaf, number in singles:
        way = way_elsewhere(header, leaf, number, data, known)
        header.keep(number, set() if way is None else {way}, STANDS_ELSEWHERE)


def singles_of(header: Header, leaf: Element) -> list[int]:
    """The open runs of a value that are one byte, and the only one in its sector in which copies differ."""
    runs = [] if leaf.vr in VALUES_OF_FILES else header.open_runs(leaf.value, leaf.end)
    return [number for number in runs if is_single(header, number)]


def is_single(header: Header, number: int) -> bool:
    """Whether a run is one byte, and the only one in its sector in which the copies differ that have the ways which are left."""
    run = header.runs.runs[number]
    sector = run.begin // SECTOR * SECTOR
    own = [header.copies[copy] for way in header.left[number] for copy in run.holders[way]]
    is_there = not any(copy.lacks(sector, sector + SECTOR) for copy in own)
    texts = {copy.data[sector : run.begin] + copy.data[run.end : sector + SECTOR] for copy in own}
    return run.end - run.begin == 1 and len(texts) == 1 and is_there


def way_elsewhere(header: Header, leaf: Element, number: int, data: bytes, known: bytes) -> Optional[int]:
    """The one way of a byte that stands elsewhere outside of frames with the bytes around it, often enough."""
    run = header.runs.runs[number]
    counts = {way: 0 for way in header.left[number]}
    for before, behind in AROUND:
        left, right = data[run.begin - before : run.begin], data[run.end : run.end + behind]
        if run.begin - before < leaf.value or run.end + behind > leaf.end or len(set(left + right)) < KINDS:
            continue
        for way in counts:
            own = known.count(left + run.ways[way] + right) - (data[run.begin : run.end] == run.ways[way])
            counts[way] = max(counts[way], own)
    found = [way for way, count in counts.items() if count]
    return found[0] if len(found) == 1 and counts[found[0]] >= least_of(header, number, found[0], data) else None


def least_of(header: Header, number: int, way: int, data: bytes) -> int:
    """How often a way has to stand elsewhere: more often where all are digits, or where it can be of bytes of one value."""
    run = header.runs.runs[number]
    ways = b"".join(run.ways[each] for each in header.left[number])
    is_filled = run.ways[way] in FILLS and run.ways[way] in (data[run.begin - 1 : run.begin], data[run.end : run.end + 1])
    return LEAST_USUAL if is_filled or DIGITS.issuperset(ways) else LEAST
