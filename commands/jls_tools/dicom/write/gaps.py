"""A DICOM file whose lost lines are filled with one value: it has new UIDs, and says what it is and of which file it was made."""
from __future__ import annotations

import re
import struct
import uuid
from collections import Counter
from collections.abc import Iterable, Sequence
from typing import Union

from jls_tools import partial_picture
from jls_tools.dicom.read.elements import UNDEFINED, tag_bytes
from jls_tools.dicom.read.tags import CLASS, GROUP_LENGTH, INSTANCE, INSTANCE_IN_META, ITEM, META
from jls_tools.frames.codestream import Shape

IMAGE_TYPE, DESCRIPTION, SOURCES = 0x00080008, 0x00082111, 0x00082112
OF_CLASS, OF_INSTANCE = 0x00081150, 0x00081155
LONGEST_DESCRIPTION = 1024
TRANSFORM = re.compile(rb"\xff\xe8\0\x07mrfx.", re.S)  # APP8 that names a colour transform
HEADERS = 256
Elements = list[tuple[int, bytes]]  # (tag, all bytes of the element)


def element(tag: int, vr: bytes, value: bytes, pad: bytes = b" ") -> bytes:
    value += pad * (len(value) % 2)
    if vr in (b"SQ", b"OB"):
        return tag_bytes(tag) + vr + b"\0\0" + struct.pack("<I", len(value)) + value
    return tag_bytes(tag) + vr + struct.pack("<H", len(value)) + value


def value_of(elements: Elements, tag: int) -> bytes:
    """The value of an element whose header has a length of two bytes."""
    return next((value[8:] for own, value in elements if own == tag), b"")


def put(elements: Elements, tag: int, value: bytes) -> Elements:
    """The elements with this one in its place."""
    rest = [pair for pair in elements if pair[0] != tag]
    at = next((number for number, pair in enumerate(rest) if pair[0] > tag), len(rest))
    return rest[:at] + [(tag, value)] + rest[at:]


def sources(elements: Elements) -> bytes:
    """Source Image Sequence with the old UID before what it had."""
    kept = b""
    for tag, value in elements:
        if tag == SOURCES:
            is_open = struct.unpack_from("<I", value, 8)[0] == UNDEFINED
            kept = value[12:-8] if is_open else value[12:]
    inner = element(OF_CLASS, b"UI", value_of(elements, CLASS).rstrip(b"\0"), b"\0")
    inner += element(OF_INSTANCE, b"UI", value_of(elements, INSTANCE).rstrip(b"\0"), b"\0")
    return element(SOURCES, b"SQ", tag_bytes(ITEM) + struct.pack("<I", len(inner)) + inner + kept)


def derived(elements: Elements, description: str) -> Elements:
    """The elements of a file that was made of this one."""
    uid = f"2.25.{uuid.uuid4().int}".encode()
    kind = value_of(elements, IMAGE_TYPE).rstrip(b" \0").split(b"\\")
    kind = [b"DERIVED"] + (kind[1:] or [b"SECONDARY"])
    said = value_of(elements, DESCRIPTION).rstrip(b" \0")
    text = (said + b"; " if said else b"") + description.encode("ascii")
    if len(text) > LONGEST_DESCRIPTION:
        text = text[: LONGEST_DESCRIPTION - 3] + b"..."
    for tag, value in (
        (SOURCES, sources(elements)),
        (IMAGE_TYPE, element(IMAGE_TYPE, b"CS", b"\\".join(kind))),
        (DESCRIPTION, element(DESCRIPTION, b"ST", text)),
        (INSTANCE, element(INSTANCE, b"UI", uid, b"\0")),
        (INSTANCE_IN_META, element(INSTANCE_IN_META, b"UI", uid, b"\0")),
    ):
        elements = put(elements, tag, value)
    size = sum(len(value) for tag, value in elements if tag >> 16 == META and tag != GROUP_LENGTH)
    return put(elements, GROUP_LENGTH, element(GROUP_LENGTH, b"UL", struct.pack("<I", size)))


def description_of(frames: Iterable[tuple[int, list[str]]]) -> str:
    """Which lines were filled, by frame and component."""
    parts = [f"frame {number}: {', '.join(lines)}" for number, lines in frames]
    return "lost lines were filled by jls-dicom: " + "; ".join(parts)


def filled_lines(picture: AnyPicture) -> list[str]:
    """The lines of a partial picture that have no reading, or several: words such as '1 2-3' of component 1."""
    words = []
    for index, name in enumerate(picture.ids):
        lost = [line for line in range(picture.height) if len(picture.of_line(index, line)) != 1]
        words += [f"{name} {first}-{last}" for first, last in partial_picture.ranges(lost)]
    return words


def filled_text(picture: AnyPicture, value: int) -> bytes:
    """The text of a whole picture, with one value in each lost line (docs/FORMAT.md, version 2)."""
    lost = struct.pack(">H", value) * picture.width
    head = struct.pack(">BHHB", picture.precision, picture.width, picture.height, len(picture.ids)) + bytes(picture.ids)
    parts = [b"JLSP\2", head, struct.pack(">I", len(picture.ids) * picture.height)]
    for index in range(len(picture.ids)):
        for line in range(picture.height):
            readings = picture.of_line(index, line)
            samples = readings[0].samples if len(readings) == 1 else lost
            parts.append(struct.pack(">BHQ", index, line, 1) + samples + struct.pack(">Q", 0))
    return b"".join(parts)


def transform_of(streams: Iterable[bytes]) -> bytes:
    """The segment that names a colour transform, as most of these codestreams have it among their headers; or nothing."""
    found = Counter(match.group() for match in (TRANSFORM.search(stream[:HEADERS]) for stream in streams) if match)
    return found.most_common(1)[0][0] if found else b""


def with_transform(stream: bytes, segment: bytes) -> bytes:
    """A codestream with this segment after SOI. Its samples are those before the inverse transform, as in the other frames."""
    return stream[:2] + segment + stream[2:]


class Empty:
    """A partial picture without any reading."""

    def __init__(self, shape: Shape, ids: list[int]) -> None:
        self.precision, self.width, self.height, self.ids = shape.precision, shape.columns, shape.rows, ids

    def of_line(self, component: int, line: int) -> Sequence[partial_picture.Reading]:
        return []


AnyPicture = Union[partial_picture.PartialPicture, Empty]
