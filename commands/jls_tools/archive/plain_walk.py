"""A plain walk along one DICOM file that reads, for the many files of an archive that are undamaged (PS3.5, 7 and A.4; PS3.10, 7.1).

Each element has to begin where the last one ends, with ascending tags, to the last byte of the file. Of a file with anything else nothing
is said here: the walk of `dicom.walk`, which goes on where bytes are damaged, says what it is.
"""
from __future__ import annotations

import struct
from typing import List, NamedTuple, Optional

from jls_tools.dicom.read.elements import (
    BIG_ENDIAN,
    DEFLATED,
    IMPLICIT,
    JPEG_LS,
    SYNTAXES,
    UNDEFINED,
    Element,
    has_prefix,
    header_of,
    skip_undefined,
    text_of,
)
from jls_tools.dicom.read.tags import FIRST, FRAMES, ITEM, ITEM_END, PIXEL_DATA, SEQUENCE_END, SYNTAX
from jls_tools.dicom.read.values import is_uid
from jls_tools.frames.codestream import unpadded

NOT_WALKED = (DEFLATED, BIG_ENDIAN)


class Plain(NamedTuple):
    """The frames of a file of JPEG-LS lossless frames."""

    frames: List[bytes]


def elements_of(data: bytes) -> Optional[List[Element]]:
    """The elements of the top level, where they fill the file in order. Pixel Data in items has the length that they have."""
    found: List[Element] = []
    at, last, total = FIRST, 0, len(data)
    while at < total:
        element = header_of(data[at : at + 12], at)
        if element is None or element.tag <= last:
            return None
        if element.length == UNDEFINED:
            is_pixels = element.tag == PIXEL_DATA and element.vr in (b"OB", b"OW")
            end = behind_items(data, element.value) if is_pixels else skip_undefined(data, element.value)
            if end is None or not is_pixels and element.vr != b"SQ":
                return None
            element.length = end - element.value
        if element.end > total or element.length % 2:
            return None
        found.append(element)
        at, last = element.end, element.tag
    return found


def behind_items(data: bytes, at: int) -> Optional[int]:
    """Where Pixel Data ends whose items begin here."""
    while at + 8 <= len(data):
        group, number, length = struct.unpack_from("<HHI", data, at)
        at += 8
        if group << 16 | number == SEQUENCE_END:
            return at if length == 0 else None
        if group << 16 | number != ITEM or length == UNDEFINED:
            return None
        at += length
    return None


def fragments_of(data: bytes, at: int, end: int) -> List[bytes]:
    """What the items of Pixel Data have, after the table that the first item is."""
    found = []
    while at < end - 8:
        (length,) = struct.unpack_from("<I", data, at + 4)
        found.append(data[at + 8 : at + 8 + length])
        at += 8 + length
    return found[1:]


def other_syntax(data: bytes) -> Optional[str]:
    """The transfer syntax of a file that has another one than JPEG-LS lossless, if each element reads in it to the last byte."""
    if not has_prefix(data):
        return None
    at, syntax = FIRST, b""
    while data[at : at + 2] == b"\2\0":
        element = header_of(data[at : at + 12], at)
        if element is None or element.length == UNDEFINED or element.end > len(data):
            return None
        syntax = element.bytes_of(data) if element.tag == SYNTAX else syntax
        at = element.end
    uid = text_of(syntax)
    if uid == JPEG_LS or uid not in SYNTAXES or uid in NOT_WALKED:
        return None
    is_well = is_implicit(data, at) if uid == IMPLICIT else elements_of(data) is not None
    return uid if is_well else None


def is_implicit(data: bytes, at: int) -> bool:
    """Whether elements without VRs fill a file from here on, in order (PS3.5, 7.1.3)."""
    last = 0
    while at + 8 <= len(data):
        group, number, length = struct.unpack_from("<HHI", data, at)
        tag = group << 16 | number
        if tag <= last or group == ITEM >> 16:
            return False
        end = behind_implicit(data, at + 8) if length == UNDEFINED else at + 8 + length
        if end is None:
            return False
        at, last = end, tag
    return at == len(data) and last > 0


def behind_implicit(data: bytes, at: int) -> Optional[int]:
    """Where a sequence of undefined length ends whose items begin here."""
    depth = 1
    while at + 8 <= len(data):
        group, number, length = struct.unpack_from("<HHI", data, at)
        tag = group << 16 | number
        at += 8
        if tag == SEQUENCE_END:
            depth -= 1
            if depth == 0:
                return at
        elif tag != ITEM_END and length != UNDEFINED:
            at += length
        elif tag not in (ITEM, ITEM_END):
            depth += 1
    return None


def read(data: bytes) -> Optional[Plain]:
    """The frames of a file, if it is a plain one of JPEG-LS lossless frames."""
    if not has_prefix(data):
        return None
    elements = {element.tag: element for element in elements_of(data) or ()}
    pixels, syntax, count = (elements.get(tag) for tag in (PIXEL_DATA, SYNTAX, FRAMES))
    if not pixels or pixels.vr not in (b"OB", b"OW") or data[pixels.value - 4 : pixels.value] != b"\xff" * 4:
        return None
    said = syntax.bytes_of(data) if syntax else b""
    if not is_uid(said) or text_of(said) != JPEG_LS:
        return None
    number = count.bytes_of(data).strip(b" \0") if count else b"1"
    fragments = fragments_of(data, pixels.value, pixels.end)
    if not fragments or not number.isdigit():
        return None
    if int(number) == 1:
        return Plain([unpadded(b"".join(fragments))])
    return Plain(list(map(unpadded, fragments))) if int(number) == len(fragments) else None
