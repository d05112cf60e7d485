"""What one DICOM file is, and its frames: `info` and `frames` of jls-dicom."""
from __future__ import annotations

import os
import shutil
import tempfile
from collections.abc import Callable, Iterator, Sequence
from typing import Optional

from jls_tools.dicom.axis import bad_places
from jls_tools.dicom.axis.align import Copy
from jls_tools.dicom.copies.given import read
from jls_tools.dicom.copies.instance import identity_of
from jls_tools.dicom.layout import Layout
from jls_tools.dicom.read.elements import JPEG_LS, NEAR_LOSSLESS, SYNTAXES, UNDEFINED, has_prefix, syntax_name, syntax_of, walk
from jls_tools.dicom.read.tags import COLUMNS, FRAMES, PIXEL_DATA, ROWS, SAMPLES, STORED
from jls_tools.dicom.result import FAILED, NOT_SUPPORTED, NOT_WHOLE, REFUSED, WHOLE, FrameResult, MendOptions
from jls_tools.dicom.walk.frames import by_search
from jls_tools.frames.codestream import other_coding, shape_of, unpadded, without_padding
from jls_tools.frames.mending import FrameMender, Mended
from jls_tools.programs import Programs

NO_LINE = "damaged: no line decodes; jls-splice needs a second copy"
LONGEST_NUMBER = 12  # digits of a number in a text (PS3.5, 6.2)
INTERLEAVES: dict[Optional[int], str] = {0: "a scan for each component", 1: "interleaved by line", 2: "interleaved by sample"}


class OneFile:
    """A file: its layout, its frames as (offset, stream), and how they were found."""

    def __init__(self, path: str) -> None:
        self.data = read(path)
        self.syntax = syntax_of(self.data)
        self.is_dicom = has_prefix(self.data)
        copy = Copy(path, self.data)
        self.layout = Layout([copy])
        self.elements = self.layout.structure.elements or list(walk(self.data))  # of the top level, as far as they read
        self.how = "by items"
        self.seen = bad_places.seen(self.data)
        if self.layout.places:
            self.parts = [place.fragments for place in self.layout.places]
            self.frames = [(place.begin, unpadded(place.stream(self.data))) for place in self.layout.places]
            if self.lacks_items():
                self.how = "by items, some of which don't read"
            elif self.layout.structure.is_cut or not all(place.is_exact for place in self.layout.places):
                self.how = "by items, until the file ends"
        else:
            self.how = "by search"
            self.parts = [[part] for part in by_search(self.data)]
            self.frames = [(begin, unpadded(self.data[begin:end])) for ((begin, end),) in self.parts]

    @property
    def is_searched(self) -> bool:
        """Whether this is no bare JPEG file, and no header leads to a frame."""
        return not self.is_bare and not self.layout.places

    @property
    def is_bare(self) -> bool:
        return self.data[:3] == b"\xff\xd8\xff"

    def lacks_items(self) -> bool:
        """Whether no item goes on at some place of Pixel Data."""
        structure = self.layout.structure
        pixels = structure.pixel_data
        return pixels is not None and any(pixels.value <= begin < structure.end_of_pixels() for begin, _ in self.layout.breaks)

    def mended(self, mender: FrameMender, number: int) -> Mended:
        """A frame as far as it reads, up to sectors that look bad."""
        stream, parts = self.frames[number][1], self.parts[number]
        note = bad_places.note_of([pair for part in parts for pair in bad_places.clipped(self.seen, *part)])
        mended = mender.mend_padded(number, [stream], is_exact=self.is_exact(number))
        return mender.mend_beside(mended, [stream], bad_places.within(self.seen, parts), note)

    def is_exact(self, number: int) -> bool:
        """Whether the items of a frame end where they say."""
        return bool(self.layout.places) and self.layout.places[number].is_exact

    def stream(self, mender: FrameMender, number: int) -> bytes:
        """A frame without a last byte that is padding, as far as its lines say."""
        stream = self.frames[number][1]
        unpadded = without_padding([stream])[0]
        if unpadded == stream:
            return stream
        return unpadded if mender.mend_padded(number, [stream], is_exact=self.is_exact(number)).is_unpadded else stream

    def value(self, tag: int) -> Optional[bytes]:
        for element in self.elements:
            if element.tag == tag and element.length != UNDEFINED:
                return element.bytes_of(self.data)
        return None

    def number(self, tag: int) -> Optional[int]:
        value = self.value(tag)
        return int.from_bytes(value, "little") if value is not None and len(value) == 2 else None

    def frame_count(self, can_be_default: bool) -> Optional[int]:
        """Number of Frames; 1 where there is none, if `can_be_default` and no broken place can have had one."""
        value = self.value(FRAMES)
        if not value:
            return 1 if can_be_default and not self.layout.structure.can_hide(FRAMES) else None
        text = value.strip(b" \0")
        return int(text) if text.isdigit() and len(text) <= LONGEST_NUMBER else None


def refusal_of(path: str, file: OneFile) -> Optional[str]:
    """Why a file is not for these tools, or nothing."""
    if file.is_bare and other_coding(file.data):
        return f"{path}: {NOT_SUPPORTED}: {other_coding(file.data)}"
    if not file.is_dicom and not file.layout.has_header and not file.frames:
        return f"{path}: it is no DICOM file"
    if file.syntax not in (None, JPEG_LS) and file.syntax in SYNTAXES:
        return f"{path}: no JPEG-LS lossless: {syntax_name(file.syntax)}"
    if not file.frames:
        has_pixels = any(element.tag == PIXEL_DATA for element in file.layout.structure.elements)
        why = "Pixel Data has no frame" if has_pixels else "it has no Pixel Data that reads"
        return f"{path}: {why}"
    return None


def header_numbers(file: OneFile) -> list[Optional[str]]:
    """What the header says of the picture; None for what does not read."""
    columns, rows, stored, samples = (file.number(tag) for tag in (COLUMNS, ROWS, STORED, SAMPLES))
    numbers = [
        None if columns is None or rows is None else f"{columns}x{rows}",
        None if stored is None else f"{stored} bits",
        None if samples is None else f"samples {samples}",
    ]
    count = file.frame_count(can_be_default=None not in numbers)
    return [*numbers, None if count is None else f"frames {count}"]


def header_line(file: OneFile) -> str:
    numbers = header_numbers(file)
    told = [text for text in numbers if text is not None]
    if not told:
        return "header: does not read"
    return f"header: {', '.join(told)}{'; the rest does not read' if None in numbers else ''}"


def data_set_lines(file: OneFile) -> Iterator[str]:
    meta, data = identity_of(file.data).in_meta, identity_of(file.data).in_data
    yield "DICOM file" if file.is_dicom else "no DICOM file by its first bytes"
    yield syntax_name(file.syntax) if file.syntax else "the transfer syntax does not read"
    same = ", equal in both places" if meta and meta == data else f", and {data or 'none that reads'} in the data set"
    yield f"instance {meta or 'none that reads'}{same}"
    yield header_line(file)


def header_lines(file: OneFile) -> Iterator[str]:
    if file.is_bare:
        yield "a bare JPEG file, and no DICOM file"
    else:
        yield from data_set_lines(file)
    for begin, end in file.layout.breaks:
        yield f"broken from {begin}; the next that reads is at {end}"
    if file.layout.structure.is_cut:
        yield "the file ends before its last element does"
    only = "; numbers count only these" if file.lacks_items() or file.is_searched else ""
    yield f"frames {len(file.frames)}, found {file.how}{only}"


def coding_lines(stream: bytes) -> Iterator[str]:
    shape = shape_of(stream)
    if shape and shape.near is not None:
        how = "near-lossless" if shape.near else "lossless"
        yield f"coding: JPEG-LS {how}, {INTERLEAVES.get(shape.interleave, 'interleaved in no known way')}"
    elif other_coding(stream):
        yield f"coding: {other_coding(stream)}"


def info(path: str, programs: Programs, progress: Optional[Callable[[int, int], object]] = None) -> tuple[list[str], Optional[str], int]:
    """(lines, why it is refused or nothing, status)."""
    file = OneFile(path)
    refusal = refusal_of(path, file)
    if refusal:
        lines = list(header_lines(file)) if file.is_dicom and file.layout.structure.is_found else []
        return lines, refusal, REFUSED
    lines = [*header_lines(file), *coding_lines(file.frames[0][1])]
    results = []
    folder = tempfile.mkdtemp(prefix="jls-dicom-")
    try:
        mender = FrameMender(programs, folder, MendOptions())
        for number, (offset, stream) in enumerate(file.frames):
            result = file.mended(mender, number).result
            lines.append(f"{result.line()}, {len(stream)} bytes at {offset}")
            results.append(result)
            if progress:
                progress(number + 1, len(file.frames))
    finally:
        shutil.rmtree(folder, ignore_errors=True)
    status = status_of(results)
    if status == WHOLE and not file.is_bare and (file.is_searched or None in header_numbers(file)):
        status = NOT_WHOLE
    return [*lines, *verdict_lines(results)], None, status


def verdict_lines(results: Sequence[FrameResult]) -> Iterator[str]:
    """What a file is as a whole, where none of its lines decodes: of a kind that isn't read, or damaged."""
    names = sorted({result.note for result in results if result.kind == NOT_SUPPORTED})
    if names:
        yield f"{NOT_SUPPORTED}: {', '.join(names)}"
    elif not any(result.settled or result.disputed for result in results):
        yield NO_LINE


def status_of(results: Sequence[FrameResult]) -> int:
    if any(result.kind == NOT_SUPPORTED for result in results):
        return REFUSED
    return WHOLE if all(result.kind == "whole" for result in results) else NOT_WHOLE


def frames(path: str, folder: str, programs: Programs) -> tuple[list[str], Optional[str], int]:
    """Takes the frames out: (lines, why it is refused or nothing, status)."""
    if os.path.lexists(folder):
        return [], f"{folder}: it is there already", FAILED
    file = OneFile(path)
    refusal = refusal_of(path, file)
    if refusal and not (file.syntax == NEAR_LOSSLESS and file.frames):
        return [], refusal, REFUSED
    lines = []
    parent = os.path.dirname(os.path.abspath(folder))
    part, work = (tempfile.mkdtemp(prefix=".jls-dicom-", dir=parent) for _ in range(2))
    try:
        mender = FrameMender(programs, work, MendOptions())
        for number, (offset, _) in enumerate(file.frames):
            name, stream = f"frame-{number:04}.jls", file.stream(mender, number)
            with open(os.path.join(part, name), "wb") as out:
                out.write(stream)
            lines.append(f"{os.path.join(folder, name)} {offset} {len(stream)} {file.how}")
        os.rename(part, folder)
    finally:
        for each in (part, work):
            shutil.rmtree(each, ignore_errors=True)
    return lines, None, WHOLE
