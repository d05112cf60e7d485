"""The mended file with one value in each line that is lost: `gaps.py` has its parts."""
from __future__ import annotations

from typing import Optional

from jls_tools import partial_picture
from jls_tools.dicom.mended_frames import MendedFrames
from jls_tools.dicom.result import FAILED, NOT_WHOLE, Refused
from jls_tools.dicom.write import gaps
from jls_tools.dicom.write.build import packed, top_level
from jls_tools.frames.codestream import Shape


def filled_file(frames: MendedFrames, shape: Optional[Shape], data: bytearray, sample: int) -> bytes:
    """OUT with one value in each line that is lost, as a file of its own."""
    if shape is None:
        raise Refused("no frame says what shape the picture has", NOT_WHOLE)
    if not 0 <= sample < 1 << shape.precision:
        raise Refused(f"--with-gaps {sample}: the samples have {shape.precision} bits", 2)
    ids = component_ids(frames, shape)
    streams: list[bytes] = []
    lost: list[tuple[int, list[str]]] = []
    for frame in frames.mended:
        if frame.is_whole and frame.stream is not None:
            streams.append(frame.stream)
            continue
        picture: gaps.AnyPicture = gaps.Empty(shape, ids)
        picture = partial_picture.read(frame.partial) if frame.partial else picture
        lost.append((frame.result.number, gaps.filled_lines(picture)))
        streams.append(filled(frames, frame.result.number, picture, sample))
    elements = gaps.derived(top_level(data, frames.layout.structure), gaps.description_of(lost))
    return packed(data, frames.layout.structure, streams, elements)


def component_ids(frames: MendedFrames, shape: Shape) -> list[int]:
    for frame in frames.mended:
        if frame.shape:
            return [int(name) for name in frame.shape.rpartition(" ")[2].split(",")]
    return list(range(1, shape.components + 1))


def filled(frames: MendedFrames, number: int, picture: gaps.AnyPicture, sample: int) -> bytes:
    text, stream = f"{number}.filled", f"{number}.written"
    frames.mender.put(text, gaps.filled_text(picture, sample))
    outcome = frames.given.programs.write_jls(stream, text, frames.mender.folder, by_line=len(picture.ids) > 1)
    if outcome.status != 0:
        raise Refused(f"frame {number} can't be written: {outcome.faults.strip()}", FAILED)
    segment = gaps.transform_of([stream for streams in frames.streams for stream in streams])
    return gaps.with_transform(frames.mender.get(stream), segment)
