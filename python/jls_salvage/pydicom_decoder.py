"""A decoder of pixel data for pydicom 3: JPEG-LS Lossless, also of frames that are damaged.

    import pydicom
    from jls_salvage import pydicom_decoder
    pydicom_decoder.register()
    pydicom.pixels.pixel_array("file.dcm", decoding_plugin="jls_salvage")       # refuses a frame where lines are missing

`decoding_plugin` names this one alone: else pydicom may ask its other plugins after a refusal, which may take damage for samples.
"""
from __future__ import annotations

from typing import Any

import jls_salvage

from .pydicom_handler import JPEG_LS_LOSSLESS, DamagedFrame, is_available as _is_available

DECODER_DEPENDENCIES = {JPEG_LS_LOSSLESS: ("numpy", "jls_salvage")}


def is_available(uid: str) -> bool:
    """Whether numpy and the library are there, for JPEG-LS Lossless."""
    return str(uid) == JPEG_LS_LOSSLESS and _is_available()


def _decode_frame(src: bytes, runner: Any) -> bytes:
    """The samples of a frame, pixel by pixel, as pydicom wants them. A signed sample of few bits has its sign repeated above them. Raises
    `DamagedFrame` where a line is missing."""
    import numpy

    found = jls_salvage.header(src)
    wanted = (runner.rows, runner.columns, runner.samples_per_pixel)
    if (found.height, found.width, found.components) != wanted:
        raise jls_salvage.Error(f"the frame has the shape {(found.height, found.width, found.components)}, and the data set {wanted}")
    picture = jls_salvage.read(src)
    lines = picture.unsettled()
    if lines:
        raise DamagedFrame(int(getattr(runner, "index", 0) or 0), lines)
    deep = found.precision > 8
    runner.set_option("bits_allocated", 16 if deep else 8)
    runner.set_option("planar_configuration", 0)
    values = picture.array()
    if getattr(runner, "pixel_representation", 0):
        above = 16 - found.precision
        values = (values << above).astype(numpy.uint16).view(numpy.int16) >> above
    samples: bytes = numpy.ascontiguousarray(values.astype("<u2" if deep else "u1")).tobytes()
    return samples


def register() -> None:
    """Gives the decoder of JPEG-LS Lossless this plugin."""
    from pydicom.pixels.decoders import JPEGLSLosslessDecoder

    if "jls_salvage" not in JPEGLSLosslessDecoder.available_plugins:
        JPEGLSLosslessDecoder.add_plugin("jls_salvage", (__name__, "_decode_frame"))
