"""Copies that are not compressed: witnesses. What one says of samples and of the header counts where copies of JPEG-LS confirm it.

A witness has to read to its end, as nothing shows damage of its samples. Its file is never what is written.
"""
from __future__ import annotations

import array
import sys
from collections.abc import Sequence
from dataclasses import dataclass
from typing import Optional

from jls_tools.dicom.read.elements import SYNTAXES, syntax_of, text_of, values_of
from jls_tools.dicom.read.plain import UNCOMPRESSED, Plain, Unread, read
from jls_tools.dicom.read.tags import (
    ALLOCATED,
    COLUMNS,
    FRAMES,
    HIGH,
    INSTANCE,
    PHOTOMETRIC,
    PIXEL_DATA,
    PLANES,
    PREAMBLE,
    ROWS,
    SAMPLES,
    SIGN,
    STORED,
)
from jls_tools.frames.coder import Lines

FORMS = {8: "B", 16: "H"}  # of samples, by Bits Allocated
MOST_FRAMES = 1 << 16


@dataclass
class Witness:
    """A copy that is not compressed: its elements by tag, and what describes its samples."""

    path: str
    syntax: str
    preamble: bytes
    elements: dict[int, Plain]

    @property
    def name(self) -> str:
        return SYNTAXES[self.syntax][0]

    def value(self, tag: int) -> Optional[bytes]:
        """The value of an element that is no sequence, with its numbers little endian."""
        found = self.elements.get(tag)
        return found.value if found is not None and isinstance(found.value, bytes) else None

    def number(self, tag: int, default: Optional[int] = None) -> int:
        value = self.value(tag)
        if value is None and default is not None:
            return default
        if value is None or len(value) != 2:
            raise Unread(f"({tag >> 16:04x},{tag & 0xFFFF:04x}) does not read")
        return int.from_bytes(value, "little")

    @property
    def frame_count(self) -> int:
        text = text_of(self.value(FRAMES) or b"1").strip()
        count = int(text) if text.isascii() and text.isdigit() and len(text) < 6 else 0
        if not 0 < count <= MOST_FRAMES:
            raise Unread("its Number of Frames does not read")
        return count

    def size(self) -> int:
        """Bytes of a frame."""
        allocated, stored = self.number(ALLOCATED), self.number(STORED)
        if allocated not in FORMS or not 0 < stored <= allocated or self.number(HIGH) != stored - 1 or self.number(SIGN) > 1:
            raise Unread("its bits a sample are none that are read")
        if self.number(PLANES, 0) > 1 or self.number(SAMPLES) not in (1, 2, 3, 4):
            raise Unread("its samples a pixel are none that are read")
        size = self.number(ROWS) * self.number(COLUMNS) * self.number(SAMPLES) * (allocated // 8)
        if not size:
            raise Unread("it has no rows or no columns")
        return size

    def check(self) -> None:
        """Raises Unread if Pixel Data is not that of its frames."""
        pixels, size = self.elements.get(PIXEL_DATA), self.size() * self.frame_count
        if pixels is None or not isinstance(pixels.value, bytes):
            raise Unread("it has no Pixel Data")
        if pixels.vr not in (b"OW", b"OB", b"") or pixels.vr == b"OB" and self.number(ALLOCATED) > 8:
            raise Unread("its Pixel Data has a VR that it can't have")
        if len(pixels.value) != size + size % 2 or pixels.value[size:].strip(b"\0"):
            raise Unread("the length of its Pixel Data is not that of its frames")
        if any(self.planes(frame, self.number(ALLOCATED)) is None for frame in range(self.frame_count)):
            raise Unread("bits above those of its samples are set")

    def planes(self, frame: int, precision: int) -> Optional[list[Lines]]:
        """The samples of a frame, by component and row, as a codestream of this precision has them; nothing where it can have none."""
        size, count = self.size(), self.number(SAMPLES)
        samples = array.array(FORMS[self.number(ALLOCATED)], (self.value(PIXEL_DATA) or b"")[frame * size : (frame + 1) * size])
        if sys.byteorder == "big":
            samples.byteswap()
        told = self.in_bits(samples.tolist(), precision)
        if told is None:
            return None
        rows, columns = self.number(ROWS), self.number(COLUMNS)
        each, step = (rows * columns, 1) if self.number(PLANES, 0) else (1, count)
        parts = [told[at * each : at * each + rows * columns] if step == 1 else told[at::step] for at in range(count)]
        return [[part[at : at + columns] for at in range(0, len(part), columns)] for part in parts]

    def in_bits(self, samples: list[int], precision: int) -> Optional[list[int]]:
        """Samples as numbers of so many bits. Those below zero are as their two's complement. Other bits above them are no samples."""
        allocated, stored = self.number(ALLOCATED), self.number(STORED)
        top = 1 << stored
        if self.number(SIGN):
            high, sign = (1 << allocated) - top, top >> 1
            is_well = all(sample & high in (0, high if sample & sign else 0) for sample in samples)
            if not is_well or precision not in (stored, allocated):
                return None
            return samples if precision == allocated else [sample & top - 1 for sample in samples]
        return samples if precision >= stored and max(samples) < top else None


def witness_of(path: str, text: bytes) -> Witness:
    """A copy as a witness. Unread says why it is none."""
    syntax, elements = read(text)
    if syntax not in UNCOMPRESSED:
        raise Unread("it is compressed")
    found = Witness(path, syntax, text[:PREAMBLE], {each.tag: each for each in elements})
    found.check()
    return found


def check_beside(witness: Witness, texts: Sequence[bytes], uid: Optional[str], is_same: bool) -> None:
    """Raises Unread if the samples of a witness can't be those of the copies of JPEG-LS, of which these are the bytes."""
    own = text_of(witness.value(INSTANCE) or b"")
    if not is_same and (uid is None or own != uid):
        raise Unread(f"it is of instance {own or '?'}, and they are of {uid or '?'}")
    names = {text_of(values_of(each, {PHOTOMETRIC}).get(PHOTOMETRIC, b"")) for each in texts}
    if text_of(witness.value(PHOTOMETRIC) or b"") not in names - {""}:
        raise Unread("its Photometric Interpretation is another one")


def can_be(text: bytes) -> bool:
    """Whether a copy says that it is not compressed."""
    return syntax_of(text) in UNCOMPRESSED
