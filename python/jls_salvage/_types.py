"""What the functions of libjls_salvage take, answer and refuse."""
from __future__ import annotations

import enum
import importlib
from dataclasses import dataclass
from typing import Any, Sequence, Tuple, Union

Bytes = Union[bytes, bytearray, memoryview, Any]  # or what else has a buffer: mmap, an array, a numpy array

#: The statuses of a line: it has no reading, one, or several that differ.
MISSING, SETTLED, DISPUTED = range(3)

#: The kinds of a faulty piece: no code of lines, more bits after such code, or a number beyond the last interval.
BROKEN, LONG, BEYOND = range(3)


def numpy_module() -> Any:
    """numpy. Raises ImportError where it isn't there."""
    return importlib.import_module("numpy")


class Answer(enum.IntEnum):
    """What the functions of the library answer: `enum jls_answer` of jls_salvage.h."""

    DONE = 0
    OUT_OF_MEMORY = 1
    NO_PICTURE = 2
    SHORT_ROOM = 3
    NO_PARTIAL = 4
    NO_SECOND_PARTIAL = 5
    SHAPES_DIFFER = 6
    BAD_FRAME = 7
    LARGE_SAMPLE = 8
    LARGE_INTERVAL = 9
    PROCESSOR = 10
    UNSUPPORTED = 11
    BAD_SIZE = 12
    BAD_LAYOUT = 13
    BAD_COPIES = 14
    NOT_MENDED = 15
    STOPPED = 16
    BAD_LISTS = 17
    BAD_PROFILE = 18


class _Told(enum.IntEnum):
    """A number that the library tells in words. A later version of the library may have more numbers."""

    text: str

    def __new__(cls, value: int, text: str = "") -> _Told:
        member = int.__new__(cls, value)
        member._value_ = value
        member.text = text
        return member

    @classmethod
    def _missing_(cls, value: object) -> Any:
        if not isinstance(value, int) or value < 0:
            return None
        member = int.__new__(cls, value)
        member._value_, member._name_, member.text = value, f"NUMBER_{value}", f"number {value}"
        return member

    def __reduce_ex__(self, protocol: Any) -> Any:
        return type(self), (int(self),)

    def __str__(self) -> str:
        return self.text

    def __format__(self, how: str) -> str:
        return format(self.text, how)


class Fault(_Told):
    """A fault of the headers of a copy, or of the bytes of a partial picture: `enum jls_fault`. `text` tells it, and so does `str`."""

    NONE = 0, "none"
    LENGTH = 1, "bad length"
    SHAPE = 2, "bad shape"
    SAMPLING = 3, "a component is subsampled"
    NO_FRAME = 4, "no frame"
    SECOND_FRAME = 5, "a second frame"
    LOSSY = 6, "not lossless"
    INTERLEAVE = 7, "interleave mode not supported"
    MAPPING_TABLE = 8, "a mapping table"
    POINT_TRANSFORM = 9, "a point transform"
    UNKNOWN_COMPONENT = 10, "unknown component"
    REPEATED_COMPONENT = 11, "a component stands twice"
    PARAMETERS = 12, "preset parameters out of range"
    LSE = 13, "unknown kind of preset parameters"
    UNKNOWN_MARKER = 14, "unknown marker"
    INTERVAL = 15, "a restart interval is too large"
    SCANS = 16, "too many scans"
    NO_MARKER = 17, "no marker"
    NO_SOI = 18, "no start of image"
    ENDED = 19, "the input ends too early"
    TEXT_MAGIC = 20, "no partial picture, or of an unknown version"
    TEXT_SHAPE = 21, "a shape that no picture has"
    TEXT_TRUNCATED = 22, "it ends too early"
    TEXT_PLACE = 23, "a line out of place"
    TEXT_COUNT = 24, "a line without a reading"
    TEXT_ORDER = 25, "readings out of order"
    TEXT_SAMPLE = 26, "a sample is too large"
    TEXT_TRAILING = 27, "bytes after the last line"


class Coding(_Told):
    """What a copy has that the library doesn't read: `enum jls_unsupported`. A damaged header can say it too. `BY_SAMPLE` is read, unless
    `strict` is asked for or the scan has one component."""

    SUPPORTED = 0, "supported"
    NEAR_LOSSLESS = 1, "near-lossless coding"
    BY_SAMPLE = 2, "interleaved by sample"
    NOT_INTERLEAVED = 3, "several components in a scan without interleaving"
    SUBSAMPLED = 4, "subsampling"
    MAPPING_TABLE = 5, "a mapping table"
    POINT_TRANSFORM = 6, "a point transform"
    LONG_INTERVAL = 7, "an interval of more than 2^28 samples"
    MANY_SCANS = 8, "more than 16 scans"


class End(enum.IntEnum):
    """Where a copy ends: at the marker EOI, with the input, or at the first fault of its headers."""

    EOI = 0
    INPUT = 1
    HEADER = 2


class Error(Exception):
    """What the library refuses."""


class MissingLibrary(Error, OSError):
    """libjls_salvage.so is not there, can't be loaded, or is of another version. The variable JLS_SALVAGE_LIBRARY can name it."""


class MissingProgram(Error, OSError):
    """A program is not there, can't be run, or is of another version. JLS_SPLICE can name jls-splice, and JLS_DICOM jls-dicom."""


class OldProcessor(Error, RuntimeError):
    """The processor is of x86-64 below level x86-64-v2, for which the library is built."""

    def __init__(self) -> None:
        super().__init__("this processor is below x86-64-v2: libjls_salvage needs SSE4.2 and POPCNT")

    def __reduce__(self) -> Any:
        return type(self), ()


class Faulty(Error, ValueError):
    """Bytes that can't be read: `fault` is their first fault, and `offset` the place of it."""

    what = "faulty"

    def __init__(self, fault: Fault, offset: int) -> None:
        super().__init__(f"{self.what}: {fault} at offset {offset}")
        self.fault, self.offset = fault, offset

    def __reduce__(self) -> Any:
        return type(self), (self.fault, self.offset)


class NoPicture(Faulty):
    """A copy has no frame."""

    what = "no picture"


class NoPartial(Faulty):
    """Bytes are no partial picture."""

    what = "no partial picture"


class Unsupported(Error, ValueError):
    """A copy has a coding that the library doesn't read. `coding` says which, and `offset` where. `picture` has what could be read before,
    of `read` and `read_file`; else it is None."""

    def __init__(self, coding: Coding, offset: int, picture: Any = None) -> None:
        super().__init__(f"not supported: {coding} at offset {offset}")
        self.coding, self.offset, self.picture = coding, offset, picture

    def __reduce__(self) -> Any:
        return type(self), (self.coding, self.offset, self.picture)


class ShapesDiffer(Error, ValueError):
    """Two partial pictures have different shapes, and so can't be joined."""

    def __init__(self) -> None:
        super().__init__("the shapes differ")

    def __reduce__(self) -> Any:
        return type(self), ()


class NotMendable(Error, ValueError):
    """Copies can't be mended together: the message says why. It counts copies from 0."""


class NotWritable(Error, ValueError):
    """No JPEG-LS file has such samples: the message says why."""


@dataclass(frozen=True)
class Piece:
    """A piece of scan data between restart markers that didn't read as the lines of its interval."""

    offset: int
    interval: int
    scan: int
    kind: int


@dataclass(frozen=True)
class Header:
    """What the headers of a copy say, up to its first scan. Where `fault` isn't `Fault.NONE`, they end at `end_offset`, before its data."""

    width: int
    height: int
    precision: int
    components: int
    restart_interval: int
    interleave: int
    near_lossless: int
    coding: Coding
    fault: Fault
    end_offset: int


@dataclass(frozen=True)
class Info:
    """What a copy says of its picture, how many lines it gives, and how it ended. Of a partial picture the same, but no end."""

    width: int
    height: int
    precision: int
    components: int
    lines: int
    missing: int
    settled: int
    disputed: int
    faulty_pieces: int
    end: End
    end_offset: int
    fault: Fault
    coding: Coding
    pieces: Sequence[Piece] = ()


@dataclass(frozen=True, eq=False)
class Picture:
    """The lines of a copy or of a partial picture: `statuses` has a byte for each, and `samples` a number of 16 bits for each sample. Line
    y of component c is number c * height + y. The samples of a line that is missing or disputed are zeros. Of a partial picture
    `readings` has how many readings each line has."""

    info: Info
    statuses: bytearray
    samples: Any
    readings: Sequence[int] = ()

    def __eq__(self, other: object) -> bool:
        if not isinstance(other, Picture):
            return NotImplemented
        told = self.info == other.info and self.statuses == other.statuses and list(self.readings) == list(other.readings)
        return told and bool(self.samples.tobytes() == other.samples.tobytes())

    __hash__ = None  # type: ignore[assignment]  # the buffers of a picture can change

    def number(self, component: int, line: int) -> int:
        """The number of a line among all."""
        if not (0 <= component < self.info.components and 0 <= line < self.info.height):
            raise IndexError(f"no line {line} of component {component}")
        return component * self.info.height + line

    def line(self, component: int, line: int) -> Any:
        """The samples of a line, or None where it is missing or disputed."""
        at = self.number(component, line)
        width = self.info.width
        return self.samples[at * width : (at + 1) * width] if self.statuses[at] == SETTLED else None

    def unsettled(self) -> Sequence[Tuple[int, int]]:
        """The component and the line of each line that is missing or disputed, in order."""
        return [divmod(at, self.info.height) for at, status in enumerate(self.statuses) if status != SETTLED]

    def array(self) -> Any:
        """The samples as a numpy array: (height, width), or with several components (height, width, components). It is a masked array
        where lines are missing or disputed: these are masked, so that nobody takes their zeros for samples."""
        numpy = numpy_module()
        planes = self._woven(numpy.asarray(self.samples, dtype=numpy.uint16))
        return planes if self.info.settled == self.info.lines else numpy.ma.masked_array(planes, self.mask())

    def mask(self) -> Any:
        """An array like that of `array`, true where no sample is known."""
        numpy = numpy_module()
        lost = numpy.frombuffer(bytes(self.statuses), dtype=numpy.uint8) != SETTLED
        return self._woven(numpy.repeat(lost, self.info.width))

    def _woven(self, values: Any) -> Any:
        """Values by component, then by line, as arrays of pixels have them."""
        planes = values.reshape(self.info.components, self.info.height, self.info.width)
        return planes[0] if self.info.components == 1 else numpy_module().moveaxis(planes, 0, -1)
