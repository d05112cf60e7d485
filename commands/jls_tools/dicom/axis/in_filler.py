"""A loss of a copy inside bytes of one value, as after the place where it was cut and filled with zeros: there nothing shows its place.

So it is put where other copies lack as many bytes. There one copy has bytes too many, and then this copy lost none.
"""
from __future__ import annotations

from collections.abc import Sequence
from dataclasses import replace
from typing import Optional

from jls_tools.dicom.axis.align import Copy, merged
from jls_tools.dicom.axis.apart import size_of
from jls_tools.dicom.axis.bad_places import Range
from jls_tools.dicom.axis.inserted import held_alone, owner_of
from jls_tools.dicom.axis.media import SECTOR
from jls_tools.dicom.axis.sectors import run_length


def with_others(copies: Sequence[Copy]) -> list[Copy]:
    """The copies on one axis, with such a loss where all others but one lack bytes too."""
    found = list(copies)
    for number in range(len(copies)):
        others = found[:number] + found[number + 1 :]
        alone = [part for part in held_alone(others) if not found[number].lacks(*part)]
        for loss in found[number].lost if alone else ():
            found[number] = moved_to(found[number], loss, alone, others) or found[number]
    return found


def moved_to(copy: Copy, loss: Range, alone: Sequence[Range], others: Sequence[Copy]) -> Optional[Copy]:
    """A copy that lacks ranges that one of the others has alone, in place of a loss of as many bytes, if one value is all between them."""
    parts = [part for part in alone if is_of_one_value(copy, loss, part)]
    if not parts or size_of(parts) != loss[1] - loss[0]:
        return None
    data = copy.data[: loss[0]] + copy.data[loss[1] :]
    for part in parts:
        data = data[: part[0]] + owner_of(others, part).data[slice(*part)] + data[part[0] :]
    return replace(copy, data=data, absent=merged([*(each for each in copy.absent if each != loss), *parts]))


def is_of_one_value(copy: Copy, loss: Range, part: Range) -> bool:
    """Whether a copy has one value alone between a loss and a range, as a part of a sector at least."""
    first, last = min(loss[0], part[0]), max(loss[1], part[1])
    own = copy.has_only(first, last)
    beside = run_length(copy.data[max(0, first - SECTOR) : first][::-1], own[:1]), run_length(copy.data[last : last + SECTOR], own[:1])
    return len(own) + sum(beside) >= SECTOR and not own.strip(own[:1])
