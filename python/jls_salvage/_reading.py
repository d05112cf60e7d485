"""Reading copies and partial pictures."""
from __future__ import annotations

import array
import ctypes
import functools
import operator
import os
from typing import Any, Callable, Sequence, Tuple, Union

from ._library import STRICT, WIDE, Buffer, InfoStruct, LineStruct, PieceStruct, header_struct, info_struct, judge, library
from ._types import Answer, Bytes, Coding, End, Error, Fault, Header, Info, NoPicture, Picture, Piece, Unsupported

MOST_PIECES = 4096


def _profile(strict: bool) -> int:
    return STRICT if strict else WIDE


def _info(found: InfoStruct, pieces: Sequence[Piece] = ()) -> Info:
    return Info(
        found.width, found.height, found.precision, found.components, found.lines, found.missing, found.settled, found.disputed,
        found.faulty_pieces, End(found.end), found.end_offset, Fault(found.fault), Coding(found.unsupported), pieces,
    )  # fmt: skip


def header(copy: Bytes) -> Header:
    """Tells what the headers of a copy say, up to its first scan. It reads no scan data, and the copy may end there. They are judged as
    with `strict`. Where `coding` is `Coding.BY_SAMPLE`, `read` reads the scan if it has two components or more, and no other fault. Raises
    `NoPicture` where there is no frame, and MemoryError."""
    data, found = Buffer(copy), header_struct()
    judge(library().jls_read_header(data.address, data.size, ctypes.byref(found)), found)
    return Header(
        found.width, found.height, found.precision, found.components, found.restart_interval, found.interleave, found.near_lossless,
        Coding(found.unsupported), Fault(found.fault), found.end_offset,
    )  # fmt: skip


def check(copy: Bytes, *, strict: bool = False) -> Info:
    """Tells what a copy, which may be damaged, says of its picture, how many of its lines it gives, and how it ended. `pieces` has the
    first 4,096 of its faulty pieces, and `coding` what isn't supported. With `strict` a scan that is interleaved by sample isn't read.
    Raises `NoPicture` where there is no frame, and MemoryError."""
    data, found, pieces = Buffer(copy), info_struct(), (PieceStruct * MOST_PIECES)()
    judge(library().jls_check_under(data.address, data.size, _profile(strict), ctypes.byref(found), pieces, MOST_PIECES), found)
    kept = min(found.faulty_pieces, MOST_PIECES)
    return _info(found, tuple(Piece(it.offset, it.interval, it.scan, it.kind) for it in pieces[:kept]))


def _room(count: int) -> Tuple[Any, int]:
    """Room for so many numbers of 16 bits, with its address: a numpy array, or an array of the standard library."""
    try:
        import numpy
    except ImportError:
        room = array.array("H", (0,)) * count
        return room, room.buffer_info()[0]
    samples = numpy.zeros(count, dtype=numpy.uint16)
    return samples, samples.ctypes.data


def _likely_room(data: Buffer) -> Tuple[int, int]:
    """The samples and lines that the headers promise, or 0: where they are true, it saves a second reading."""
    found = header_struct()
    try:
        judge(library().jls_read_header(data.address, data.size, ctypes.byref(found)), found)
    except NoPicture:
        return 0, 0
    # damaged headers can promise anything: then the library says what is needed
    return (found.samples, found.lines) if found.samples <= 4096 * data.size else (0, 0)


def _read_into(data: Buffer, strict: bool, found: InfoStruct, count: int, lines: int) -> Tuple[Answer, Any, bytearray]:
    samples, address = _room(count)
    statuses = bytearray(lines)
    held = (ctypes.c_uint8 * lines).from_buffer(statuses)
    where = ctypes.byref(found), address, count, ctypes.addressof(held), lines
    answer = library().jls_read_under(data.address, data.size, _profile(strict), *where)
    return judge(answer, found), samples, statuses


def read(copy: Bytes, *, strict: bool = False) -> Picture:
    """Reads a copy, which may be damaged. With `strict` a scan that is interleaved by sample isn't read. Raises `NoPicture` where there is
    no frame, `Unsupported` where it has a coding that isn't read, and MemoryError."""
    data, found = Buffer(copy), info_struct()
    answer, samples, statuses = _read_into(data, strict, found, *_likely_room(data))
    if answer == Answer.SHORT_ROOM:
        answer, samples, statuses = _read_into(data, strict, found, found.samples, found.lines)
    if answer not in (Answer.DONE, Answer.UNSUPPORTED):
        raise Error(f"libjls_salvage: {answer.name}")
    picture = Picture(_info(found), statuses[: found.lines], samples[: found.samples])
    if answer == Answer.UNSUPPORTED:
        raise Unsupported(Coding(found.unsupported), found.end_offset, picture)
    return picture


def read_file(path: Union[str, os.PathLike[str]], *, strict: bool = False) -> Picture:
    """Reads a copy that is a file, as `read` does. Raises OSError too."""
    with open(path, "rb") as file:
        return read(file.read(), strict=strict)


def _written(call: Callable[[Any, int, int], Any], found: InfoStruct, room: int) -> bytes:
    """What a function writes that takes an address and the length of its room: where that is too short, it says what is needed."""
    while True:
        out = (ctypes.c_uint8 * room)()
        answer = judge(call(ctypes.byref(found), ctypes.addressof(out), room), found)
        if answer == Answer.UNSUPPORTED:
            raise Unsupported(Coding(found.unsupported), found.end_offset)
        if answer == Answer.DONE:
            return ctypes.string_at(out, found.bytes)
        if found.bytes <= room:
            raise Error(f"libjls_salvage: {answer.name}")
        room = found.bytes


def partial(copy: Bytes, source: int, *, strict: bool = False) -> bytes:
    """Reads a copy, which may be damaged, and gives it as a partial picture: the bytes of a .jlsp file. `source` is a number of 32 bits for
    the copy. With `strict` a scan that is interleaved by sample isn't read. Raises `NoPicture` where there is no frame, `Unsupported` where
    it has a coding that isn't read, and MemoryError."""
    source = operator.index(source)
    if not 0 <= source < 2**32:
        raise ValueError("a source has 32 bits")
    data, found = Buffer(copy), info_struct()
    count, lines = _likely_room(data)
    room = 2 * count + 31 * lines + 64
    copied = data.address, data.size, _profile(strict), source
    return _written(lambda info, out, size: library().jls_partial_under(*copied, info, out, size), found, room)


def _joined(first: Bytes, second: Bytes) -> bytes:
    one, other = Buffer(first), Buffer(second)
    return _written(
        lambda info, out, size: library().jls_join(one.address, one.size, other.address, other.size, info, out, size),
        info_struct(),
        one.size + other.size,
    )


def join(first: Bytes, *others: Bytes) -> bytes:
    """Joins partial pictures of one shape to one that has the readings of all. Their order doesn't matter. Raises `NoPartial` where one is
    damaged, `ShapesDiffer`, and MemoryError."""
    joined: bytes = functools.reduce(_joined, others or (first,), first)
    return joined


def lines(partial: Bytes) -> Picture:
    """Shows the lines of a partial picture. Raises `NoPartial` where it is damaged, and MemoryError."""
    data, found = Buffer(partial), info_struct()
    room, (samples, address) = (LineStruct * 0)(), _room(0)
    while True:
        call = (data.address, data.size, ctypes.byref(found), address, len(samples), room, len(room))
        answer = judge(library().jls_lines(*call), found)
        if answer == Answer.DONE:
            return Picture(_info(found), bytearray(it.status for it in room), samples, [it.readings for it in room])
        if found.samples <= len(samples) and found.lines <= len(room):
            raise Error(f"libjls_salvage: {answer.name}")
        room, (samples, address) = (LineStruct * found.lines)(), _room(found.samples)


__all__ = ["Coding", "check", "header", "join", "lines", "partial", "read", "read_file"]
