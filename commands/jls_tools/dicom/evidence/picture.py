"""What the codestreams say of the elements that describe the picture."""
from __future__ import annotations

import struct
from typing import TYPE_CHECKING, Optional

from jls_tools.dicom.read.elements import text_of
from jls_tools.dicom.read.tags import ALLOCATED, COLUMNS, FRAMES, HIGH, LARGEST, ROWS, SAMPLES, SIGN, SMALLEST, STORED
from jls_tools.frames.codestream import Shape

if TYPE_CHECKING:
    from jls_tools.dicom.evidence.header import Header

BITS = [[allocated, stored, stored - 1] for allocated in (8, 16) for stored in range(1, allocated + 1)]  # allocated, stored, the high one


def by_frames(header: Header, shape: Optional[Shape], frame_count: int) -> None:
    """Leaves what agrees with the codestreams."""
    if frame_count:
        header.keep_values(FRAMES, lambda value: text_of(value).strip() == str(frame_count), "so many frames are there")
    if shape is None:
        return
    for tag, number in ((SAMPLES, shape.components), (ROWS, shape.rows), (COLUMNS, shape.columns)):
        header.keep_values(tag, struct.pack("<H", number).__eq__, "the frames say so")
    allocated = 8 if shape.precision <= 8 else 16
    sizes = {struct.pack("<H", size) for size in (allocated, 16)}  # 8 bits can stand in 16
    header.keep_values(ALLOCATED, sizes.__contains__, "the frames say so")
    stored, high = header.short(STORED), header.short(HIGH)
    header.keep_values(STORED, lambda value: len(value) == 2 and 0 < struct.unpack("<H", value)[0] <= allocated, "no other can be")
    if stored is None and high is not None and high < 0xFFFF:
        header.keep_values(STORED, struct.pack("<H", high + 1).__eq__, "High Bit says so")
    stored = header.short(STORED) or 0
    if shape.precision <= stored:
        header.keep_values(HIGH, struct.pack("<H", stored - 1).__eq__, "Bits Stored says so")
    header.keep_values(SIGN, lambda value: value in (b"\0\0", b"\1\0"), "no other can be")
    if header.value(SIGN) == b"\0\0":
        most = 1 << shape.precision
        for tag in (SMALLEST, LARGEST):
            header.keep_values(tag, lambda value: len(value) == 2 and struct.unpack("<H", value)[0] < most, "no sample is larger")
    by_description(header)


def by_description(header: Header) -> None:
    """Bits Allocated, where Bits Stored and High Bit were decided against a copy in which all three agree: it has another file's."""
    elements = [header.elements[tag] for tag in (ALLOCATED, STORED, HIGH) if tag in header.elements]
    if len(elements) < 3 or any(element.length != 2 for element in elements):
        return
    copies = range(len(header.copies))
    found = [[struct.unpack("<H", element.bytes_of(copy.data))[0] for element in elements] for copy in header.copies]
    true = [header.short(tag) for tag in (STORED, HIGH)]
    strange = {copy for copy in copies if all(one != two for one, two in zip(found[copy][1:], true))}
    if None in true or not strange or any(found[copy][1:] != true for copy in copies if copy not in strange):
        return
    if all(found[copy] in BITS for copy in copies):
        for number in header.open_runs(elements[0].value, elements[0].end):
            holders = header.runs.runs[number].holders
            header.keep(number, {way for way in header.left[number] if set(holders[way]) - strange}, "Bits Stored and High Bit go with it")
