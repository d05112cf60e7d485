"""Which copies are DICOM files of JPEG-LS frames: those of another transfer syntax are left out by name.

Where the transfer syntax of a copy is damaged, its Pixel Data says what it is.
"""
from __future__ import annotations

import re
from typing import Optional

from jls_tools.dicom.read.elements import ITEM_TAG, JPEG_LS, has_prefix, syntax_name, syntax_of
from jls_tools.frames.codestream import BEGIN, HEADERS, shape_of
from jls_tools.frames.codings import segments

# Pixel Data with a length, little endian with and without a VR, and big endian; then Pixel Data with items
WITH_LENGTH = re.compile(rb"\xe0\x7f\x10\0(?:O[BW]\0\0)?(?=(....))|\x7f\xe0\0\x10O[BW]\0\0(?=(....))", re.S)
WITH_ITEMS = re.compile(rb"\xe0\x7f\x10\0O[BW]\0\0\xff\xff\xff\xff" + re.escape(ITEM_TAG) + rb"(....)", re.S)
PADDING_TAGS = (b"\xfc\xff\xfc\xff", b"\xff\xfc\xff\xfc")
OF_JPEG = range(0xC0, 0xC4)  # SOF markers of JPEG
OF_JPEG_2000 = b"\xff\x4f\xff\x51"  # SOC and SIZ
MOST_SEGMENTS = 15  # of an RLE frame (PS3.5, G.5)


class NoKind(Exception):
    """No copy is a DICOM file of JPEG-LS frames. `is_other` says that they have another transfer syntax."""

    def __init__(self, text: str, is_other: bool) -> None:
        super().__init__(text)
        self.is_other = is_other


def is_dicom(text: bytes) -> bool:
    return has_prefix(text) or b"\xe0\x7f\x10\x00O" in text


def other_kinds(paths: list[str], texts: list[bytes]) -> dict[int, str]:
    """{a copy of another transfer syntax: what it is}. One alone that says so can be a copy with a flipped bit: its frames say more."""
    if not any(map(is_dicom, texts)):
        raise NoKind(f"{paths[0]}: it is no DICOM file, and none of the others is one", False)
    syntaxes = [syntax_of(text) for text in texts]
    named = [syntax for syntax in syntaxes if syntax is not None]
    if named and JPEG_LS not in named:
        raise NoKind(f"{paths[0]}: no JPEG-LS lossless: {syntax_name(named[0])}", True)
    left_out = {}
    for at, (syntax, text) in enumerate(zip(syntaxes, texts)):
        if has_lossless_frame(text):
            continue
        if syntax is not None and syntax != JPEG_LS:
            left_out[at] = f"it has {syntax_name(syntax)}"
        elif (kind := kind_of_pixels(text)) is not None:
            left_out[at] = f"its transfer syntax does not read, and its Pixel Data is {kind}"
    return left_out if len(left_out) < len(texts) else {}


def kind_of_pixels(text: bytes) -> Optional[str]:
    """What Pixel Data is that is no JPEG-LS; nothing where that is not clear."""
    if any(ends_as_file(text, found.end() + 4 + length_of(found)) for found in WITH_LENGTH.finditer(text)):
        return "not compressed"
    for found in WITH_ITEMS.finditer(text):
        at = found.end() + int.from_bytes(found.group(1), "little")
        if text[at : at + 4] == ITEM_TAG:
            return kind_of_frame(text[at + 8 : at + 8 + HEADERS])
    return None


def length_of(found: re.Match[bytes]) -> int:
    little, big = found.groups()
    return int.from_bytes(little, "little") if little is not None else int.from_bytes(big, "big")


def ends_as_file(text: bytes, at: int) -> bool:
    """Whether a file ends here, or padding follows."""
    return at == len(text) or text[at : at + 4] in PADDING_TAGS


def kind_of_frame(stream: bytes) -> Optional[str]:
    """What a frame is, by its beginning, if it is none of JPEG-LS."""
    if stream[:4] == OF_JPEG_2000:
        return "JPEG 2000"
    if stream[:2] == b"\xff\xd8":
        return "JPEG" if any(code in OF_JPEG for code, _ in segments(stream)) else None
    count, first, *others = (int.from_bytes(stream[at : at + 4], "little") for at in range(0, 64, 4))
    is_ascending = 0 < count <= MOST_SEGMENTS and first == 64 and not any(others[count - 1 :])
    return "RLE" if is_ascending and others[: count - 1] == sorted(set(others[: count - 1])) else None


def has_lossless_frame(text: bytes) -> bool:
    """Whether a frame header of JPEG-LS stands in a file, and no scan header says that it is near-lossless."""
    place = 0
    while found := BEGIN.search(text, place):
        place = found.end()
        shape = shape_of(text[found.start() : found.start() + HEADERS])
        if shape is not None and not shape.near:
            return True
    return False
