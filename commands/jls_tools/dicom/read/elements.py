"""What DICOM files are made of (PS3.5, PS3.10): how they begin, their transfer syntaxes, and a walk along the elements of one file."""
from __future__ import annotations

import re
import struct
from collections.abc import Iterator
from typing import Optional, Union

from jls_tools.dicom.read.tags import FIRST, INSTANCE, INSTANCE_IN_META, ITEM, ITEM_END, PIXEL_DATA, PREAMBLE, PREFIX, SEQUENCE_END, SYNTAX
from jls_tools.dicom.read.values import is_uid

JPEG_LS = "1.2.840.10008.1.2.4.80"
NEAR_LOSSLESS = "1.2.840.10008.1.2.4.81"
EXPLICIT, IMPLICIT = "1.2.840.10008.1.2.1", "1.2.840.10008.1.2"  # not compressed, as are these
DEFLATED, BIG_ENDIAN = "1.2.840.10008.1.2.1.99", "1.2.840.10008.1.2.2"
UNDEFINED = 0xFFFFFFFF
HEAD = 12  # bytes of an element's header, at most; that of Pixel Data has so many
ITEM_TAG, DELIMITER = b"\xfe\xff\x00\xe0", b"\xfe\xff\xdd\xe0\0\0\0\0"  # of an item, and what ends Pixel Data
PIXELS_BEGIN = re.compile(rb"\xe0\x7f\x10\x00O[BW]\x00\x00\xff\xff\xff\xff")  # the header of Pixel Data with items
# VRs with a length of four bytes after two reserved ones, and those with a length of two (PS3.5, 7.1.2)
LONG_VRS = frozenset(b"OB OD OF OL OV OW SQ SV UC UN UR UT UV".split())
SHORT_VRS = frozenset(b"AE AS AT CS DA DS DT FD FL IS LO LT PN SH SL SS ST TM UI UL US".split())
# {transfer syntax: (its name, what reads it)}
SYNTAXES = {
    IMPLICIT: ("Implicit VR Little Endian, not compressed", "any DICOM program"),
    EXPLICIT: ("Explicit VR Little Endian, not compressed", "any DICOM program"),
    DEFLATED: ("Deflated Explicit VR Little Endian, not compressed", "dcmconv of DCMTK"),
    BIG_ENDIAN: ("Explicit VR Big Endian, not compressed", "dcmconv of DCMTK"),
    "1.2.840.10008.1.2.4.50": ("JPEG baseline, lossy", "dcmdjpeg of DCMTK"),
    "1.2.840.10008.1.2.4.51": ("JPEG extended, lossy", "dcmdjpeg of DCMTK"),
    "1.2.840.10008.1.2.4.57": ("lossless JPEG, which is another coding than JPEG-LS", "dcmdjpeg of DCMTK"),
    "1.2.840.10008.1.2.4.70": ("lossless JPEG, which is another coding than JPEG-LS", "dcmdjpeg of DCMTK"),
    JPEG_LS: ("JPEG-LS lossless", "jls-dicom"),
    NEAR_LOSSLESS: ("JPEG-LS near-lossless", "dcmdjpls of DCMTK"),
    "1.2.840.10008.1.2.4.90": ("JPEG 2000 lossless", "gdcmconv of GDCM"),
    "1.2.840.10008.1.2.4.91": ("JPEG 2000", "gdcmconv of GDCM"),
    "1.2.840.10008.1.2.4.92": ("JPEG 2000 of several components, lossless", "gdcmconv of GDCM"),
    "1.2.840.10008.1.2.4.93": ("JPEG 2000 of several components", "gdcmconv of GDCM"),
    "1.2.840.10008.1.2.4.201": ("High-Throughput JPEG 2000 lossless", "OpenJPH"),
    "1.2.840.10008.1.2.4.202": ("High-Throughput JPEG 2000 lossless, by resolution", "OpenJPH"),
    "1.2.840.10008.1.2.4.203": ("High-Throughput JPEG 2000", "OpenJPH"),
    "1.2.840.10008.1.2.5": ("RLE lossless", "dcmdrle of DCMTK"),
}
UIDS_WITHIN = 1 << 16  # the two SOP Instance UIDs stand near the beginning


def has_prefix(data: bytes) -> bool:
    return data[PREAMBLE:FIRST] == PREFIX


def begins_as_dicom(path: Union[str, bytes]) -> bool:
    """Whether a file begins as a DICOM file does: 128 bytes and DICM (PS3.10, 7.1). An OSError says why it can't be read."""
    with open(path, "rb") as file:
        return has_prefix(file.read(FIRST))


def syntax_name(uid: str) -> str:
    name, reader = SYNTAXES.get(uid, ("another one", "pydicom or GDCM perhaps"))
    return f"transfer syntax {uid} ({name}); it is read by {reader}"


def tag_bytes(tag: int) -> bytes:
    return struct.pack("<HH", tag >> 16, tag & 0xFFFF)


def tag_name(tag: int) -> str:
    return f"({tag >> 16:04x},{tag & 0xFFFF:04x})"


class Element:
    """An element with an explicit VR: where its header begins, and where its value stands. `length` may be UNDEFINED."""

    __slots__ = ("tag", "vr", "start", "value", "length")

    def __init__(self, tag: int, vr: bytes, start: int, value: int, length: int) -> None:
        self.tag = tag
        self.vr = vr
        self.start = start
        self.value = value
        self.length = length

    @property
    def end(self) -> int:
        return self.value + self.length

    def bytes_of(self, data: bytes) -> bytes:
        return bytes(data[self.value : self.end])


def header_of(head: bytes, at: int) -> Optional[Element]:
    """The Element whose header these bytes begin with, twelve at most; nothing if they can't be one."""
    if len(head) < 8:
        return None
    group, number = struct.unpack_from("<HH", head)
    vr = bytes(head[4:6])
    if vr in SHORT_VRS:
        return Element(group << 16 | number, vr, at, at + 8, struct.unpack_from("<H", head, 6)[0])
    if vr in LONG_VRS and len(head) >= 12 and head[6:8] == b"\0\0":
        return Element(group << 16 | number, vr, at, at + 12, struct.unpack_from("<I", head, 8)[0])
    return None


def skip_undefined(data: bytes, at: int) -> Optional[int]:
    """Where the sequence of undefined length whose items begin here ends, or nothing. It goes by items and elements, to any depth."""
    depth = 1
    while at + 8 <= len(data):
        tag = int.from_bytes(data[at : at + 2], "little") << 16 | int.from_bytes(data[at + 2 : at + 4], "little")
        (length,) = struct.unpack_from("<I", data, at + 4)
        if tag == SEQUENCE_END:
            depth, at = depth - 1, at + 8
            if depth == 0:
                return at
        elif tag in (ITEM, ITEM_END):
            at += 8 + (0 if length == UNDEFINED or tag == ITEM_END else length)
        else:
            element = header_of(data[at : at + 12], at)
            if element is None:
                return None
            is_open = element.length == UNDEFINED
            depth, at = depth + is_open, element.value if is_open else element.end
    return None


def walk(data: bytes, at: int = FIRST) -> Iterator[Element]:
    """The elements of the top level of one file up to Pixel Data or where they break off. Nothing is judged but their form."""
    while True:
        element = header_of(data[at : at + 12], at)
        if element is None:
            return
        yield element
        if element.tag == PIXEL_DATA:
            return
        behind = skip_undefined(data, element.value) if element.length == UNDEFINED else element.end
        if behind is None:
            return
        at = behind


def text_of(value: bytes) -> str:
    return bytes(value).rstrip(b"\0 ").decode("latin-1")


def values_of(data: bytes, tags: set[int]) -> dict[int, bytes]:
    """{tag: value} of elements of the top level, as far as the file can be walked."""
    return {element.tag: element.bytes_of(data) for element in walk(data) if element.tag in tags and element.length != UNDEFINED}


def uid_at(data: bytes, tag: int) -> Optional[str]:
    """A UID of the top level: by the walk, else the first that stands near the beginning. None if it does not read."""
    value = values_of(data, {tag}).get(tag)
    if value is None:
        found = re.search(re.escape(tag_bytes(tag)) + b"UI(..)", data[:UIDS_WITHIN], re.S)
        if not found:
            return None
        (length,) = struct.unpack("<H", found.group(1))
        value = data[found.end() : found.end() + length]
        if len(value) < length:
            return None
    return text_of(value) if is_uid(value) else None


def instance_of(data: bytes) -> tuple[Optional[str], Optional[str]]:
    """The two SOP Instance UIDs of a file, of its meta information and of its data set; None for one that does not read."""
    return uid_at(data, INSTANCE_IN_META), uid_at(data, INSTANCE)


def syntax_of(data: bytes) -> Optional[str]:
    """The transfer syntax UID, or None."""
    return uid_at(data, SYNTAX)
