"""What a header that was decided can't have: what the frames deny, and what its VRs and the standard forbid."""
from __future__ import annotations

from typing import Optional

from jls_tools.dicom.axis.periods import TEXT
from jls_tools.dicom.evidence.alone import is_against_rules
from jls_tools.dicom.evidence.header import Header
from jls_tools.dicom.evidence.most import BY_MOST
from jls_tools.dicom.read.elements import JPEG_LS, Element, tag_name
from jls_tools.dicom.read.tags import ALLOCATED, COLUMNS, FRAMES, ROWS, SAMPLES, STORED, SYNTAX, TWINS
from jls_tools.dicom.read.values import DIGITS_AND_DOTS, NOT_IN_TEXT, SHORT_PAD, TEXTS, is_doubtful, is_written
from jls_tools.frames.codestream import Shape, shape_of

OVERWRITTEN = 8  # so many bytes of one value in a text, at least, can be written over it


def shape_said(header: Header) -> Optional[list[Optional[int]]]:
    """Rows, Columns and Samples per Pixel as the header says them; None if one of them can't be told."""
    said = [header.short(tag) for tag in (ROWS, COLUMNS, SAMPLES)]
    return None if None in said else said


def has_shape(stream: bytes, said: Optional[list[Optional[int]]]) -> Optional[bool]:
    """Whether a codestream has the shape that a header says; None if one of both can't be told."""
    shape = shape_of(stream)
    return None if shape is None or said is None else [shape.rows, shape.columns, shape.components] == said


def forbidden(header: Header) -> Optional[str]:
    """What no file may have, where copies differ: elements that are not equal, or a value that its VR forbids; or nothing."""
    for first, second in TWINS:
        one, two = header.text(first), header.text(second)
        if None not in (one, two) and one != two and (header.differs(first) or header.differs(second)):
            return f"{tag_name(first)} and {tag_name(second)} are not equal"
    for leaf in header.leaves:
        value = header.value_of(leaf) if header.is_touched(leaf) else None
        if value is not None and is_doubtful(leaf.vr, value) and not is_of_writer(leaf.vr, value, header.agreed(leaf)):
            return f"{tag_name(leaf.tag)} has what its VR forbids"
        if value is not None and header.elements.get(leaf.tag) is leaf and is_against_rules(header, leaf, value):
            return f"{tag_name(leaf.tag)} has what PS3.5 or PS3.10 forbids"
        if value and leaf.vr in TEXTS and not value.strip(b"\0") and any(is_text(leaf.bytes_of(copy.data)) for copy in header.copies):
            return f"{tag_name(leaf.tag)} has zeros, and a copy has a text there"
        if value and leaf.vr in TEXTS and is_overwritten(header, leaf):
            return f"{tag_name(leaf.tag)} has one value many times where copies differ"
    return None


def is_text(value: bytes) -> bool:
    """Whether a copy has a text in place of zeros. Few bytes that are no ASCII can be noise over what a writer fills an empty text with."""
    return bool(value.strip(b"\0")) and (len(value) > SHORT_PAD or bool(TEXT.match(value)))


def is_overwritten(header: Header, leaf: Element) -> bool:
    """Whether one value many times was taken in a text where copies differ, as something writes it over a text, and not most have it."""
    for number in header.runs.touching(leaf.value, leaf.end):
        if number in header.left and header.why[number] != BY_MOST:
            part = header.runs.runs[number].part(header.left[number][0], leaf.value, leaf.end)
            if len(part) >= OVERWRITTEN and not part.strip(part[:1]) and part[:1] != b" ":
                return True
    return False


def is_of_writer(vr: bytes, value: bytes, agreed: bytes) -> bool:
    """Whether a writer put there what a VR forbids: where copies agree, as control characters, or as zeros before numbers of a UID."""
    return bool(NOT_IN_TEXT.search(agreed.rstrip(b"\0"))) or is_written(vr, value) or vr == b"UI" and bool(DIGITS_AND_DOTS.match(value))


def contradiction(header: Header, shape: Optional[Shape], frame_count: int) -> Optional[str]:
    """What a Header says that the frames deny, or nothing."""
    if header.text(SYNTAX) != JPEG_LS:
        return f"the transfer syntax is {header.text(SYNTAX)}"
    count = header.text(FRAMES)
    if not (frame_count == 1 and count is None) and count != str(frame_count):
        return f"Number of Frames is {count}, and {frame_count} are there"
    if shape is None:
        return None
    sizes = ((ROWS, "Rows", shape.rows), (COLUMNS, "Columns", shape.columns), (SAMPLES, "Samples per Pixel", shape.components))
    for tag, name, wanted in sizes:
        if header.short(tag) != wanted:
            return f"{name} is {header.short(tag)}, and the frames have {wanted}"
    allocated, stored = header.short(ALLOCATED), header.short(STORED)
    if not (allocated and stored and stored <= allocated and shape.precision <= allocated):
        return f"Bits Stored is {stored} of {allocated}, and the frames have {shape.precision}"
    return None
