"""The functions of libjls_salvage, by ctypes."""
from __future__ import annotations

import ctypes
import ctypes.util
import functools
import os
import site
import sys
from typing import Any, Sequence, Tuple

from ._types import Answer, Bytes, Error, Fault, MissingLibrary, NoPartial, NoPicture, OldProcessor, ShapesDiffer

_SONAME = "libjls_salvage.so.2"
#: The oldest version of the library that has all that is called here, as `jls_version` tells it.
_OLDEST = 10200

#: The profiles: `enum jls_profile`. A wide one reads scans that are interleaved by sample too.
STRICT, WIDE = range(2)

_LONG = ("samples", "bytes", "faulty_pieces", "end_offset", "lines", "missing", "settled", "disputed")


class InfoStruct(ctypes.Structure):
    """`jls_info`."""

    _fields_ = [
        *((name, ctypes.c_uint32) for name in ("size", "unsupported")),
        *((name, ctypes.c_uint64) for name in _LONG),
        *((name, ctypes.c_uint16) for name in ("width", "height")),
        *((name, ctypes.c_uint8) for name in ("precision", "components", "end", "fault")),
    ]


class HeaderStruct(ctypes.Structure):
    """`jls_header`."""

    _fields_ = [
        *((name, ctypes.c_uint32) for name in ("size", "unsupported")),
        *((name, ctypes.c_uint64) for name in ("samples", "lines", "end_offset")),
        ("restart_interval", ctypes.c_uint32),
        *((name, ctypes.c_uint16) for name in ("width", "height")),
        *((name, ctypes.c_uint8) for name in ("precision", "components", "interleave", "near_lossless", "fault")),
    ]


class PieceStruct(ctypes.Structure):
    """`jls_piece`."""

    _fields_ = [("offset", ctypes.c_uint64), ("interval", ctypes.c_uint32), ("scan", ctypes.c_uint8), ("kind", ctypes.c_uint8)]


class LineStruct(ctypes.Structure):
    """`jls_line`."""

    _fields_ = [("readings", ctypes.c_uint64), ("status", ctypes.c_uint8)]


class FrameStruct(ctypes.Structure):
    """`jls_frame`."""

    _fields_ = [
        *((name, ctypes.c_uint16) for name in ("width", "height", "restart_interval")),
        *((name, ctypes.c_uint8) for name in ("precision", "components", "interleaved")),
    ]


def info_struct() -> InfoStruct:
    """An empty one, with its size."""
    return InfoStruct(size=ctypes.sizeof(InfoStruct))


def header_struct() -> HeaderStruct:
    """An empty one, with its size."""
    return HeaderStruct(size=ctypes.sizeof(HeaderStruct))


def prefixes() -> Sequence[str]:
    """Below which `make install` can have put the library and the programs: those of Python and of the user, and /usr/local."""
    return [sys.prefix, *([] if sys.flags.no_user_site else [site.getuserbase()]), "/usr/local"]


def _place() -> str:
    """Where the library is: what the variable names, the one beside this file (in a wheel), the one below the prefix of Python, of the
    user or /usr/local (after `make install`), or where the system looks."""
    named = os.environ.get("JLS_SALVAGE_LIBRARY")
    if named:
        return named
    beside = os.path.join(os.path.dirname(os.path.abspath(__file__)), "libjls_salvage.so")
    for path in (beside, *(os.path.join(prefix, "lib", _SONAME) for prefix in prefixes())):
        if os.path.exists(path):
            return path
    return _SONAME


def _opened(path: str) -> ctypes.CDLL:
    """The library of this name, which has to be of this soname."""
    try:
        opened = ctypes.CDLL(path)
    except OSError as why:
        raise MissingLibrary(f"{why}; JLS_SALVAGE_LIBRARY can name {_SONAME}") from None
    version = opened.jls_version() if hasattr(opened, "jls_version") else 0
    if version < _OLDEST:
        raise MissingLibrary(f"{path} is older than version 1.2.0; JLS_SALVAGE_LIBRARY can name {_SONAME}")
    return opened


@functools.lru_cache(maxsize=None)
def library() -> ctypes.CDLL:
    """The library, with the types of its functions. Raises `MissingLibrary`."""
    found = _opened(_place())
    size, info, nothing = ctypes.c_size_t, ctypes.POINTER(InfoStruct), ctypes.c_void_p
    found.jls_check_under.argtypes = [nothing, size, ctypes.c_uint32, info, ctypes.POINTER(PieceStruct), size]
    found.jls_read_header.argtypes = [nothing, size, ctypes.POINTER(HeaderStruct)]
    found.jls_read_under.argtypes = [nothing, size, ctypes.c_uint32, info, nothing, size, nothing, size]
    found.jls_partial_under.argtypes = [nothing, size, ctypes.c_uint32, ctypes.c_uint32, info, nothing, size]
    found.jls_join.argtypes = [nothing, size, nothing, size, info, nothing, size]
    found.jls_lines.argtypes = [nothing, size, info, nothing, size, ctypes.POINTER(LineStruct), size]
    found.jls_write.argtypes = [ctypes.POINTER(FrameStruct), nothing, size, nothing, size, ctypes.POINTER(ctypes.c_uint64)]
    for name in ("version", "check_under", "read_header", "read_under", "partial_under", "join", "lines", "write"):
        getattr(found, f"jls_{name}").restype = ctypes.c_uint32
    return found


def refuse_name(data: Bytes) -> None:
    """Refuses the name of a file where its bytes are wanted."""
    if isinstance(data, (str, os.PathLike)):
        raise TypeError("bytes are wanted, and this is the name of a file: read_file takes one")


class Buffer:
    """Bytes of a caller's, which aren't copied if they stand together: bytes, bytearray, memoryview, mmap, arrays. `address` and `size` are
    for a call, and hold as long as this does."""

    def __init__(self, data: Bytes) -> None:
        refuse_name(data)
        self.address, self.size, self._held = _held(data)


def _held(data: Bytes) -> Tuple[Any, int, Any]:
    """The address of bytes, their number, and what has to stay."""
    if isinstance(data, bytes):
        return data, len(data), data
    view = memoryview(data)
    if not view.c_contiguous:
        copy = view.tobytes()
        return copy, len(copy), copy
    flat = view.cast("B") if view.nbytes else view
    if not view.nbytes:
        return None, 0, None
    if not view.readonly:
        array = (ctypes.c_uint8 * view.nbytes).from_buffer(flat)
        return ctypes.addressof(array), view.nbytes, array
    try:
        import numpy
    except ImportError:
        copy = flat.tobytes()
        return copy, len(copy), copy
    bytes_ = numpy.frombuffer(flat, dtype=numpy.uint8)
    return bytes_.ctypes.data, view.nbytes, bytes_


def judge(answer: int, found: Any) -> Answer:
    """The answer, where something was read or room was short. Raises what it refuses."""
    if answer == Answer.PROCESSOR:
        raise OldProcessor
    if answer == Answer.OUT_OF_MEMORY:
        raise MemoryError("libjls_salvage: out of memory")
    if answer == Answer.NO_PICTURE:
        raise NoPicture(Fault(found.fault), found.end_offset)
    if answer in (Answer.NO_PARTIAL, Answer.NO_SECOND_PARTIAL):
        raise NoPartial(Fault(found.fault), found.end_offset)
    if answer == Answer.SHAPES_DIFFER:
        raise ShapesDiffer
    try:
        return Answer(answer)
    except ValueError:
        raise Error(f"libjls_salvage: answer {answer}, which this version of the package doesn't know") from None
