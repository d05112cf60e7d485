"""A bit that is set in one copy alone in a long run of zeros: a flipped bit makes it, and true zeros are where the other copy has them.

Were the bit true, something would have written zeros over it. So the other copy must have zeros at no other place where copies differ.
And this copy must have flipped bits elsewhere. Zeros count that all copies have: several bits near each other can be a table.
"""
from __future__ import annotations

from typing import TYPE_CHECKING, Optional

from jls_tools.dicom.axis.sectors import run_length
from jls_tools.dicom.evidence.elsewhere import is_single
from jls_tools.dicom.read.elements import Element
from jls_tools.dicom.read.values import TEXTS

if TYPE_CHECKING:
    from jls_tools.dicom.evidence.header import Header

ZEROS = 1024  # so many stand around the byte, at least
BESIDE = 64  # and so many on each side
WRITTEN = 8  # so many zeros where another copy has others, at least, were written over them
A_BIT = "others have one bit alone in a long run of zeros"


def by_zeros_around(header: Header) -> None:
    """Leaves the zeros."""
    flipped = with_flips(header) if header.open_runs() else set()
    for leaf in header.leaves if flipped else ():
        for number in header.open_runs(leaf.value, leaf.end) if leaf.vr not in TEXTS else ():
            zero = zero_beside_flips(header, number, flipped)
            if zero is None or not is_among_zeros(header, leaf, number):
                continue
            if not any(has_written(header, copy) for copy in header.runs.runs[number].holders[zero]):
                header.keep(number, {zero}, A_BIT)


def zero_beside_flips(header: Header, number: int, flipped: set[int]) -> Optional[int]:
    """The way of a byte that is zero, if each other one is one bit that copies with flips have."""
    run = header.runs.runs[number]
    zero = next((way for way in header.left[number] if run.ways[way] == b"\0"), None)
    if zero is None or not is_single(header, number):
        return None
    others = [way for way in header.left[number] if way != zero]
    return zero if all(is_power(run.ways[way][0]) and set(run.holders[way]) <= flipped for way in others) else None


def with_flips(header: Header) -> set[int]:
    """The copies of which a flipped bit is known: a byte was decided against them that has one bit otherwise."""
    found: set[int] = set()
    for number, way in header.chosen().items():
        run = header.runs.runs[number]
        for other, holders in enumerate(run.holders):
            if run.end - run.begin == 1 and is_power(run.ways[way][0] ^ run.ways[other][0]):
                found.update(holders)
    return found


def is_power(value: int) -> bool:
    """Whether one bit of a number is set."""
    return value > 0 and value & value - 1 == 0


def is_among_zeros(header: Header, leaf: Element, number: int) -> bool:
    """Whether all copies have zeros of a value before and after a byte."""
    run = header.runs.runs[number]
    first, last = max(leaf.value, run.begin - ZEROS), min(leaf.end, run.end + ZEROS)
    before = min(run_length(copy.data[first : run.begin][::-1], b"\0") for copy in header.copies)
    behind = min(run_length(copy.data[run.end : last], b"\0") for copy in header.copies)
    return min(before, behind) >= BESIDE and before + behind >= ZEROS


def has_written(header: Header, copy: int) -> bool:
    """Whether zeros stand in a copy at another place where copies differ, several together."""
    for run in header.runs.runs:
        own = header.copies[copy].data[run.begin : run.end]
        if len(own) >= WRITTEN and not own.strip(b"\0"):
            return True
    return False
