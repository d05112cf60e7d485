"""What witnesses, which are copies that are not compressed, say of a header."""
from __future__ import annotations

from collections.abc import Iterator, Sequence
from typing import TYPE_CHECKING, Optional

from jls_tools.dicom.copies.witness import Witness
from jls_tools.dicom.read.elements import JPEG_LS, tag_name
from jls_tools.dicom.read.plain import Plain, Unread, read
from jls_tools.dicom.read.reading import Reading
from jls_tools.dicom.read.tags import (
    CLASS_IN_META,
    EXTENDED_LENGTHS,
    EXTENDED_TABLE,
    GROUP_LENGTH,
    INSTANCE_IN_META,
    META,
    PADDING,
    PHOTOMETRIC,
    PIXEL_DATA,
    PLANES,
    PREAMBLE,
    SYNTAX,
    VERSION,
)
from jls_tools.dicom.read.values import VRS_OF
from jls_tools.dicom.write.finished import of_meta, of_picture, of_uids
from jls_tools.frames.codestream import codestream_end

if TYPE_CHECKING:
    from jls_tools.dicom.evidence.header import Header

A_WITNESS_HAS_IT = "a witness has it"
# Those that another transfer syntax can have otherwise: planes, color, what was lost, and icons of samples (PS3.3, C.7.6.3 and C.7.6.1.1)
OF_SYNTAX = frozenset((PLANES, PHOTOMETRIC, 0x00282110, 0x00282112, 0x00282114, PIXEL_DATA, EXTENDED_TABLE, EXTENDED_LENGTHS, PADDING))
SAID_OTHERWISE = frozenset((GROUP_LENGTH, VERSION, CLASS_IN_META, INSTANCE_IN_META, SYNTAX))  # of the meta information
OF_FRAMES = frozenset((PIXEL_DATA, EXTENDED_TABLE, EXTENDED_LENGTHS))  # the finished file is checked for these
ONLY_VERSION, ONLY_VR = b"\0\1", b"OB"  # of the meta information, and of Pixel Data with items (PS3.10, 7.1, and PS3.5, A.4)


def by_witnesses(header: Header, witnesses: Sequence[Witness]) -> None:
    """Leaves the value of an element that witnesses have too, where copies differ and nothing else decided."""
    for tag in header.elements if header.open_runs() else ():
        values = {value for value in (witness.value(tag) for witness in witnesses) if value is not None}
        if len(values) == 1 and tag not in OF_SYNTAX and tag >> 16 != META and tag & 0xFFFF:
            header.keep_values(tag, values.pop().__eq__, A_WITNESS_HAS_IT)


def why_denied(text: bytes, witness: Witness, frames: int) -> Optional[str]:
    """What a witness has otherwise than one copy of JPEG-LS, or what that has for itself; nothing if it confirms all that it can."""
    reading = Reading(text)
    faults = [*reading.faults, *of_meta(reading), *of_uids(reading), *of_picture(reading)]
    if faults or not reading.is_whole or reading.end != len(text):
        return faults[0].text if faults else "its header does not read"
    if text[:PREAMBLE].strip(b"\0") and text[:PREAMBLE] != witness.preamble:
        return "the preamble is another one"
    if len(reading.items) != 1 + frames:
        return "a frame has several items"
    try:
        syntax, elements = read(text)
    except Unread as fault:
        return str(fault)
    return next((f"{tag_name(tag)} is another one" for tag in denied(elements, witness)), None) if syntax == JPEG_LS else "it is no JPEG-LS"


def denied(elements: Sequence[Plain], witness: Witness) -> Iterator[int]:
    """The tags of elements that one of both lacks, or has otherwise."""
    for own in elements:
        beside = witness.elements.get(own.tag)
        if own.tag >> 16 == META:
            if own.tag == VERSION and own.value != ONLY_VERSION or own.vr not in VRS_OF.get(own.tag, ()):
                yield own.tag
        elif own.tag == PADDING:
            if not isinstance(own.value, bytes) or own.value.strip(b"\0") or own.vr != ONLY_VR:
                yield own.tag
        elif own.tag in OF_FRAMES:
            if own.tag == PIXEL_DATA and own.vr != ONLY_VR:
                yield own.tag
        elif beside is None or not is_same(own, beside):
            yield own.tag
    known = {own.tag for own in elements}
    for tag in witness.elements:
        if tag not in known and tag >> 16 != META and tag != PADDING and tag & 0xFFFF:
            yield tag


def resting(text: bytes, witness: Witness) -> list[str]:
    """A line on what nothing but one copy of JPEG-LS says: elements of its meta information, and VRs of private ones."""
    found = 0
    for own in read(text)[1]:
        beside = witness.elements.get(own.tag)
        if own.tag >> 16 == META:
            found += own.tag not in SAID_OTHERWISE and (beside is None or own.value != beside.value)
        elif own.tag not in OF_SYNTAX and beside is not None and not beside.vr:
            found += own.tag not in VRS_OF
    what = "an element rests" if found == 1 else f"{found} elements rest"
    return [f"{what} on one copy: only a checksum can tell if it is true"] if found else []


def is_same(own: Plain, beside: Plain) -> bool:
    """Whether two elements have one VR and value. Implicit VR says no VR: then PS3.6 does, and of a private element nothing."""
    if own.vr != beside.vr if beside.vr else own.vr not in VRS_OF.get(own.tag, (own.vr,)):
        return False
    if isinstance(own.value, bytes) or isinstance(beside.value, bytes):
        return own.value == beside.value
    if len(own.value) != len(beside.value):
        return False
    pairs = zip(own.value, beside.value)
    return all(len(one) == len(other) and all(a.tag == b.tag and is_same(a, b) for a, b in zip(one, other)) for one, other in pairs)


def why_odd(data: bytes, frames: int, moved: int) -> Optional[str]:
    """What one copy can't show of the items in a finished file, which is that copy but for its frames."""
    items = Reading(data).items[1:]
    if moved or len(items) != frames:
        return "the frames don't fit into their items"
    for item in items:
        end = codestream_end(item.bytes_of(data))
        if end is None or data[item.value + end : item.end].strip(b"\0"):
            return f"the item at {item.start} does not end with its frame"
    return None
