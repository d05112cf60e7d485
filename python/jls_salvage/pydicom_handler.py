"""A handler of pixel data for pydicom 2: JPEG-LS Lossless, also of frames that are damaged.

    import pydicom
    from jls_salvage import pydicom_handler
    pydicom_handler.register()
    pydicom.dcmread("file.dcm").pixel_array          # raises DamagedFrame where lines are missing
    pydicom_handler.masked_array(dataset)            # the same array, in which they are masked

After a refusal pydicom asks its other handlers, which may take damage for samples. This leaves it none:

    pydicom.config.pixel_data_handlers = [pydicom_handler]
"""
from __future__ import annotations

from typing import Any, Iterator, Sequence, Tuple

import jls_salvage

from ._types import numpy_module

HANDLER_NAME = "jls_salvage"
DEPENDENCIES = {"numpy": ("https://numpy.org", "NumPy")}
JPEG_LS_LOSSLESS = "1.2.840.10008.1.2.4.80"


class DamagedFrame(jls_salvage.Error, ValueError):
    """A frame of a data set has lines that can't be read. `frame` is its number from 0, and `lines` has the component and the line of
    each of them."""

    def __init__(self, frame: int, lines: Sequence[Tuple[int, int]]) -> None:
        named = ", ".join(f"{line} of component {component}" for component, line in lines[:8])
        more = f" and {len(lines) - 8} more" if len(lines) > 8 else ""
        super().__init__(f"frame {frame} is damaged: no samples of line {named}{more}")
        self.frame, self.lines = frame, lines

    def __reduce__(self) -> Any:
        return type(self), (self.frame, self.lines)


def is_available() -> bool:
    """Whether numpy and the library are there."""
    try:
        import numpy  # noqa: F401

        from . import _library

        _library.library()
    except (ImportError, jls_salvage.MissingLibrary):
        return False
    return True


def supports_transfer_syntax(transfer_syntax: Any) -> bool:
    """Whether a transfer syntax is JPEG-LS Lossless."""
    return str(transfer_syntax) == JPEG_LS_LOSSLESS


def needs_to_convert_to_RGB(dataset: Any) -> bool:  # noqa: N802, since pydicom calls it so
    """The library changes no colours."""
    return False


def should_change_PhotometricInterpretation_to_RGB(dataset: Any) -> bool:  # noqa: N802
    """The library changes no colours."""
    return False


def _refuse_shape(dataset: Any, frame: bytes) -> None:
    """Refuses a frame whose headers say another shape than the data set, before room is taken for it, and samples that don't fit."""
    found = jls_salvage.header(frame)
    wanted = (dataset.Rows, dataset.Columns, dataset.SamplesPerPixel)
    if (found.height, found.width, found.components) != wanted:
        raise jls_salvage.Error(f"the frame has the shape {(found.height, found.width, found.components)}, and the data set {wanted}")
    if found.precision > dataset.BitsAllocated or dataset.BitsAllocated not in (8, 16):
        raise jls_salvage.Error(f"samples of {found.precision} bits don't fit into Bits Allocated {dataset.BitsAllocated}")


def _pictures(dataset: Any) -> Iterator[jls_salvage.Picture]:
    from pydicom.encaps import generate_pixel_data_frame

    wanted, found = int(getattr(dataset, "NumberOfFrames", 1) or 1), 0
    for frame in generate_pixel_data_frame(dataset.PixelData, wanted):
        _refuse_shape(dataset, frame)
        found += 1
        yield jls_salvage.read(frame)
    if found != wanted:
        raise jls_salvage.Error(f"the data set has {found} frames, and says {wanted}")


def _type_of(dataset: Any) -> Any:
    import numpy

    return numpy.dtype(f"{'i' if dataset.PixelRepresentation else 'u'}{1 if dataset.BitsAllocated <= 8 else 2}")


def _typed(dataset: Any, picture: jls_salvage.Picture) -> Any:
    """The samples of a frame in the type of the data set. A signed sample of few bits has its sign repeated above them."""
    numpy = numpy_module()
    kind, samples = _type_of(dataset), numpy.ma.getdata(picture.array())
    if kind.kind == "i":
        above = 16 - picture.info.precision
        samples = (samples << above).astype(numpy.uint16).view(numpy.int16) >> above
    return samples.astype(kind)


def get_pixeldata(dataset: Any) -> Any:
    """The samples of all frames one after the other, as pydicom wants them. Raises `DamagedFrame` where a line is missing."""
    import numpy

    frames = []
    for number, picture in enumerate(_pictures(dataset)):
        lines = picture.unsettled()
        if lines:
            raise DamagedFrame(number, lines)
        frames.append(_typed(dataset, picture).ravel())
    return numpy.concatenate(frames)


def masked_array(dataset: Any) -> Any:
    """The array that `pixel_array` would give, with the samples of missing and disputed lines masked."""
    numpy = numpy_module()
    pictures = list(_pictures(dataset))
    data = numpy.stack([_typed(dataset, picture) for picture in pictures])
    mask = numpy.stack([picture.mask() for picture in pictures])
    whole = numpy.ma.masked_array(data, mask)
    return whole if len(pictures) > 1 else whole[0]


def register() -> None:
    """Puts the handler before those that pydicom has."""
    import sys

    import pydicom.config

    this = sys.modules[__name__]
    if this not in pydicom.config.pixel_data_handlers:
        pydicom.config.pixel_data_handlers.insert(0, this)
