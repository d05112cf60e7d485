"""What a finished file has to be before it is written with status 0: it is read anew.

A fault that every copy has is its writer's, and stays. But UIDs that are missing, elements that are cut and false ends of items are no
writer's. The offsets of faults are those of the finished file.
"""
from __future__ import annotations

import struct
from collections.abc import Iterator
from operator import ne

from jls_tools.dicom.read.elements import Element, has_prefix, tag_name, text_of
from jls_tools.dicom.read.reading import Fault, Reading
from jls_tools.dicom.read.tags import (
    CLASS,
    CLASS_IN_META,
    EXTENDED_LENGTHS,
    EXTENDED_TABLE,
    FIRST,
    GROUP_LENGTH,
    HIGH,
    INSTANCE,
    INSTANCE_IN_META,
    META,
    PHOTOMETRIC,
    PREAMBLE,
    SIGN,
    SYNTAX,
    TWINS,
)
from jls_tools.dicom.read.values import allows
from jls_tools.dicom.walk.frames import table_of
from jls_tools.frames.codestream import fills

UIDS = (
    (CLASS_IN_META, "SOP Class UID of the meta information"),
    (INSTANCE_IN_META, "SOP Instance UID of the meta information"),
    (SYNTAX, "Transfer Syntax UID"),
    (CLASS, "SOP Class UID"),
    (INSTANCE, "SOP Instance UID"),
)
NAMES_OF_TWINS = ("SOP Class UIDs", "SOP Instance UIDs")
# Those that the frames do not say
OF_PICTURE = ((PHOTOMETRIC, "Photometric Interpretation"), (HIGH, "High Bit"), (SIGN, "Pixel Representation"))
MOST_NEAR = 2  # bytes in which UIDs differ that look like one


def faults_of(data: bytes, frames: int) -> list[Fault]:
    """All that is wrong in a file that should have so many frames."""
    reading = Reading(data)
    faults = list(reading.faults)
    if not has_prefix(data):
        faults.append(Fault("DICM does not stand at 128", ((PREAMBLE, FIRST),)))
    if not reading.has_pixels:
        return [*faults, Fault("the elements don't lead to Pixel Data", ((FIRST, len(data)),))]
    if not reading.is_broken and reading.end < len(data):
        faults.append(Fault(f"{len(data) - reading.end} bytes stand after the last element", ((reading.end, len(data)),)))
    faults += [*of_meta(reading), *of_uids(reading), *of_picture(reading)]
    return faults if reading.is_broken else [*faults, *of_frames(reading, frames)]


def of_meta(reading: Reading) -> Iterator[Fault]:
    """The group length of the meta information, and values that their VRs forbid."""
    meta = [element for element in reading.top if element.tag >> 16 == META]
    heads = tuple((element.start, element.value) for element in meta)
    if not meta or meta[0].tag != GROUP_LENGTH:
        yield Fault("the meta information has no group length", heads or ((FIRST, FIRST + 8),), True)
    elif meta[0].bytes_of(reading.data) != struct.pack("<I", meta[-1].end - meta[0].end):
        yield Fault("the group length of the meta information is wrong", ((meta[0].value, meta[0].end), *heads), True)
    for element in meta:
        if not allows(element.vr, element.bytes_of(reading.data)):
            yield Fault(f"{tag_name(element.tag)} has what its VR forbids", ((element.start, element.end),), True)


def of_uids(reading: Reading) -> Iterator[Fault]:
    """UIDs that are missing, and those of the meta information that the data set has otherwise."""
    for tag, name in UIDS:
        if not text_of(reading.value(tag) or b""):
            yield Fault(f"{tag_name(tag)}, {name}, is missing", ((FIRST, reading.end),))
    for (first, second), name in zip(TWINS, NAMES_OF_TWINS):
        one, two = reading.element(first), reading.element(second)
        if one and two and text_of(one.bytes_of(reading.data)) != text_of(two.bytes_of(reading.data)):
            is_unlikely = second == INSTANCE and are_near(one.bytes_of(reading.data), two.bytes_of(reading.data))
            yield Fault(f"the {name} are not equal", ((one.start, one.end), (two.start, two.end)), True, is_unlikely)


def are_near(one: bytes, two: bytes) -> bool:
    """Whether a byte or two differ, as by damage, or as in files of one series: a writer of two UIDs has others."""
    return len(one) == len(two) and sum(map(ne, one, two)) <= MOST_NEAR


def of_picture(reading: Reading) -> Iterator[Fault]:
    """Elements that are missing, and that each picture has (PS3.3, C.7.6.3). All copies lack them where a writer left them out."""
    for tag, name in OF_PICTURE:
        if reading.element(tag) is None:
            before = max((element.start for element in reading.top if element.tag < tag), default=FIRST)
            behind = min((element.value for element in reading.top if element.tag > tag), default=reading.end)
            yield Fault(f"{tag_name(tag)}, {name}, is missing", ((before, behind),), True)


def of_frames(reading: Reading, count: int) -> Iterator[Fault]:
    """Items of frames that don't end with them, and offset tables that lead elsewhere."""
    table, fragments = (reading.items[0], reading.items[1:]) if reading.items else (None, [])
    frames = grouped(reading.data, fragments, count)
    if len(frames) != count:
        yield Fault(f"the items are of {len(frames)} frames, and there are {count}", ((reading.end, reading.end),))
    for number, frame in enumerate(frames):
        stream = b"".join(item.bytes_of(reading.data) for item in frame)
        if not fills(stream):
            yield Fault(f"the item of frame {number} does not end with it", ((frame[0].start, frame[-1].end),))
    if not fragments or table is None:
        return
    starts = [frame[0].start - fragments[0].start for frame in frames]
    sizes = [sum(item.length for item in frame) for frame in frames]
    heads = [(item.start, item.value) for item in fragments]
    extended = ((EXTENDED_TABLE, starts), (EXTENDED_LENGTHS, sizes))
    for element, size, wanted in [(table, 4, starts), *((reading.element(tag), 8, wanted) for tag, wanted in extended)]:
        if element and element.length and table_of(reading.data, element.value, element.end, size) != wanted:
            text = f"the offset table at {element.start} does not lead to the frames"
            yield Fault(text, ((element.value, element.end), *heads), True)


def grouped(data: bytes, fragments: list[Element], count: int) -> list[list[Element]]:
    """The fragments of each frame. One frame has all; else each fragment is one, or each that begins as a codestream begins one."""
    if count == 1:
        return [fragments] if fragments else []
    if len(fragments) == count:
        return [[item] for item in fragments]
    found: list[list[Element]] = []
    for item in fragments:
        if not found or data[item.value : item.value + 3] == b"\xff\xd8\xff":
            found.append([])
        found[-1].append(item)
    return found
