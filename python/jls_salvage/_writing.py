"""Writing samples."""
from __future__ import annotations

import array
import ctypes
import operator
from typing import Any, Tuple

from ._library import FrameStruct, info_struct, judge, library
from ._types import Answer, Error, NotWritable, Picture, numpy_module

REFUSALS = {
    Answer.BAD_FRAME: "no picture has such a frame, or so many samples",
    Answer.LARGE_SAMPLE: "a sample has more bits than the precision",
    Answer.LARGE_INTERVAL: "a restart interval of more than 2^28 samples: give restart_interval",
}
#: The most samples of a restart interval.
MOST_SAMPLES = 2**28
UNKNOWN = "samples that nobody knows: lines are missing or disputed"


def _numbers(samples: Any) -> Any:
    """The samples of an array as whole numbers of 16 bits. A mask, a fraction or a number of another kind is refused."""
    numpy = numpy_module()
    if numpy.ma.is_masked(samples):
        raise NotWritable(UNKNOWN)
    samples = numpy.ma.getdata(samples)
    if samples.dtype.kind not in "ui":
        raise NotWritable(f"whole numbers are wanted, and these are {samples.dtype}")
    if samples.size and (samples.min() < 0 or samples.max() > 65535):
        raise NotWritable(REFUSALS[Answer.LARGE_SAMPLE])
    return samples.astype(numpy.uint16, copy=False)


def _sequence(samples: Any) -> array.array[int]:
    """Any numbers that stand one after the other, as whole numbers of 16 bits. Bytes are numbers from 0 to 255."""
    if isinstance(samples, array.array) and samples.typecode == "H":
        return samples
    numbers = array.array("B", samples) if isinstance(samples, (bytes, bytearray)) else samples
    iter(numbers)  # here, so that what isn't a sequence at all raises TypeError
    try:
        return array.array("H", numbers)
    except OverflowError:
        raise NotWritable(REFUSALS[Answer.LARGE_SAMPLE]) from None
    except (TypeError, ValueError, NotImplementedError) as why:
        raise NotWritable(f"whole numbers are wanted, one after the other: {why}") from why


def _planes(samples: Any) -> Tuple[Any, int, int]:
    """The samples by component, then by line: what holds them, their address and their number."""
    if not _is_array(samples):
        planes = _sequence(samples)
        return planes, planes.buffer_info()[0], len(planes)
    numpy, whole = numpy_module(), _numbers(samples)
    standing = numpy.ascontiguousarray(numpy.moveaxis(whole, -1, 0) if samples.ndim == 3 else whole)
    return standing, standing.ctypes.data, standing.size


def _is_array(samples: Any) -> bool:
    """Whether it is for numpy: an array, or a buffer of several dimensions."""
    is_deep = isinstance(samples, memoryview) and samples.ndim != 1
    return is_deep or hasattr(samples, "__array_interface__") or hasattr(samples, "__array__")


def _sized(samples: Any, width: int, height: int, components: int) -> Tuple[int, int, int]:
    """Width, height and components: of an array with several dimensions those that it has."""
    shape = tuple(samples.shape) if _is_array(samples) else ()
    if len(shape) < 2:
        return width, height, components
    sizes = (shape[1], shape[0], *(shape[2:] or (1,)))
    if len(sizes) > 3 or width not in (0, sizes[0]) or height not in (0, sizes[1]) or components not in (1, sizes[2]):
        raise NotWritable(REFUSALS[Answer.BAD_FRAME])
    return sizes[0], sizes[1], sizes[2]


def write(
    samples: Any,
    precision: int,
    width: int = 0,
    height: int = 0,
    components: int = 1,
    *,
    restart_interval: int = 0,
    interleaved: bool = False,
) -> bytes:
    """Writes samples as a JPEG-LS file. They are a numpy array of (height, width) or (height, width, components), which says the sizes, a
    `Picture`, or any sequence of numbers by component, then by line. `restart_interval` is in lines, and 0 for none. Raises `NotWritable`,
    also where lines are missing or disputed, and MemoryError."""
    if isinstance(samples, Picture):
        info = samples.info
        if info.settled < info.lines:
            raise NotWritable(UNKNOWN)
        samples, width, height, components = samples.samples, info.width, info.height, info.components
    if _is_array(samples):
        samples = numpy_module().asanyarray(samples)
    width, height, components = _sized(samples, *map(operator.index, (width, height, components)))
    fields = (width, height, operator.index(restart_interval), operator.index(precision), components)
    if not all(0 <= value <= most for value, most in zip(fields, (65535, 65535, 65535, 16, 4))):
        raise NotWritable(REFUSALS[Answer.BAD_FRAME])
    if min(restart_interval or height, height) * width * (components if interleaved else 1) > MOST_SAMPLES:
        raise NotWritable(REFUSALS[Answer.LARGE_INTERVAL])  # here, before room is taken for them
    frame, size = FrameStruct(*fields, bool(interleaved)), ctypes.c_uint64()
    held, address, count = _planes(samples)
    room = 2 * count + 1024
    while True:
        out = (ctypes.c_uint8 * room)()
        answer = library().jls_write(frame, address, count, ctypes.addressof(out), room, ctypes.byref(size))
        if answer in REFUSALS:
            raise NotWritable(REFUSALS[Answer(answer)])
        judge(answer, info_struct())
        if answer == Answer.DONE:
            del held
            return ctypes.string_at(out, size.value)
        if size.value <= room:
            raise Error(f"libjls_salvage: {Answer(answer).name}")
        room = size.value
