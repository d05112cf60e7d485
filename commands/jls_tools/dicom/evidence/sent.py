"""What another copy has in a header where bytes of a copy were sent with seven bits."""
from __future__ import annotations

import itertools
from typing import TYPE_CHECKING

from jls_tools.dicom.axis.seven_bits import sent_in

if TYPE_CHECKING:
    from jls_tools.dicom.evidence.header import Header

SENT = "others were sent with seven bits"


def by_seven_bits(header: Header) -> None:
    """Drops what such a copy alone has of open places, unless one of the places together was decided for it."""
    for own, other in itertools.permutations(range(len(header.copies)), 2):
        if not header.open_runs():
            return
        for begin, end in sent_in(header.copies[own].data, header.copies[other].data):
            numbers = [number for number in header.runs.touching(begin, end) if number in header.left]
            if any(header.copies[copy].lacks(begin, end) for copy in (own, other)) or any(is_for(header, each, own) for each in numbers):
                continue
            for number in numbers:
                run = header.runs.runs[number]
                header.keep(number, {way for way in header.left[number] if set(run.holders[way]) - {own}}, SENT)


def is_for(header: Header, number: int, own: int) -> bool:
    """Whether a run was decided for a copy."""
    return len(header.left[number]) == 1 and own in header.holders(number)
