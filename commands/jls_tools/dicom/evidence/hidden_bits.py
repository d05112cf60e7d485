"""A byte that was taken of a copy in which a bit is stuck there, where no other copy has it: then each value of the bit can be true."""
from __future__ import annotations

from typing import TYPE_CHECKING, Optional

from jls_tools.dicom.axis.stuck import with_bits
from jls_tools.dicom.read.tags import PREAMBLE
from jls_tools.dicom.read.values import allows

if TYPE_CHECKING:
    from jls_tools.dicom.evidence.header import Header


def hidden_at(header: Header, data: bytes) -> Optional[int]:
    """Where such a byte stands outside of frames, unless the VR of its value forbids the other bit.

    `data` is the file with what was taken.
    """
    for copy in header.copies:
        for place, bit in copy.hidden:
            is_taken = place >= PREAMBLE and data[place] == copy.data[place] and any(header.outside(place, place + 1))
            if is_taken and not is_forbidden(header, data, place, bit):
                return place
    return None


def is_forbidden(header: Header, data: bytes, place: int, bit: int) -> bool:
    """Whether a value is one that its VR allows, and is none with another bit at this place."""
    leaf = next((leaf for leaf in header.leaves if leaf.value <= place < leaf.end), None)
    if leaf is None:
        return False
    return allows(leaf.vr, leaf.bytes_of(data)) and not allows(leaf.vr, leaf.bytes_of(with_bits(data, [(place, bit)])))
