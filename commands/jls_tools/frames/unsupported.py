"""What of JPEG-LS, and of codings like it, these programs don't read, by name: such a file can be intact."""
from __future__ import annotations

from typing import Optional

from jls_tools.dicom.result import NOT_SUPPORTED
from jls_tools.frames.codestream import other_coding, shape_of

__all__ = ["NOT_SUPPORTED", "unsupported"]
BY_SAMPLE = 2
# The fault of jls-salvage (docs/GUIDE.md) that a header of this kind has
NAMES = {
    3: "subsampling",
    6: "near-lossless coding",
    8: "a mapping table",
    9: "a point transform",
    15: "an interval of more than 2^28 samples",
    16: "more than 16 scans",
}
SCAN, FRAME = 7, 2


def unsupported(stream: bytes, fault: Optional[int]) -> Optional[str]:
    """What a codestream has that isn't read, by the fault that ended its reading; nothing if it is damaged, or none is known."""
    coding = other_coding(stream)
    if coding is not None:
        return str(coding)
    shape = shape_of(stream)
    if fault == SCAN:
        is_by_sample = shape is not None and shape.interleave == BY_SAMPLE  # of several components such a scan is read
        return "one component interleaved by sample" if is_by_sample else "several components in a scan without interleaving"
    if fault == FRAME and shape and shape.rows == 0:
        return "a height of 0"
    return None if fault is None else NAMES.get(fault)
