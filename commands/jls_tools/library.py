"""libjls_salvage in this process, for files that read: what `jls-salvage check` says of a whole picture, without a program for each.

It is used where it stands with jls-salvage, and so is of its version. Of what isn't whole the program says what there is to say.
"""
from __future__ import annotations

import ctypes
import os
import platform
from typing import List, NamedTuple, Optional

from jls_tools.frames.codestream import EOI, MARKER

SONAME = "libjls_salvage.so.2"
DONE, END_EOI = 0, 0  # of enum jls_answer and enum jls_end
LARGEST = 1 << 26  # bytes of a copy: of a larger one the program says it, which a signal ends at once


class Info(ctypes.Structure):
    """struct jls_info of include/jls_salvage.h."""

    _fields_ = [
        *((name, ctypes.c_uint32) for name in ("size", "unsupported")),
        *((name, ctypes.c_uint64) for name in "samples bytes faulty_pieces end_offset lines missing settled disputed".split()),
        *((name, ctypes.c_uint16) for name in ("width", "height")),
        *((name, ctypes.c_uint8) for name in ("precision", "components", "end", "fault")),
    ]


class Whole(NamedTuple):
    """A picture of which each line is settled: how many there are, its shape as `check` prints it, and where its EOI stands."""

    settled: int
    shape: str
    end: int

    def printed(self) -> str:
        """What `check` prints of it."""
        return f"end eoi {self.end}\npicture {self.shape}\nsettled {self.settled}, missing 0, disputed 0\n"


def places(program: str) -> List[str]:
    """Where the library of a program can stand: as JLS_SALVAGE_LIBRARY says, or as `make`, `make install` and Debian put it."""
    named = os.environ.get("JLS_SALVAGE_LIBRARY")
    if named is not None:
        return [named]
    folder = os.path.dirname(os.path.realpath(program))
    lib = os.path.join(os.path.dirname(folder), "lib")
    return [os.path.join(each, SONAME) for each in (folder, lib, os.path.join(lib, f"{platform.machine()}-linux-gnu"))]


def frame_ids(stream: bytes) -> Optional[List[int]]:
    """The identifiers of the components that the frame header names (T.87, C.2.2)."""
    at = 2
    while True:
        found = MARKER.match(stream, at)
        if not found or found.group(1) == b"\xda":
            return None
        length = int.from_bytes(stream[found.end() : found.end() + 2], "big")
        if found.group(1) == b"\xf7":
            segment = stream[found.end() + 2 : found.end() + length]
            return list(segment[6::3]) if len(segment) >= 6 else None
        at = found.end() + length


class Library:
    """The functions of a library. An OSError says that it can't be loaded."""

    def __init__(self, place: str) -> None:
        self.functions = ctypes.CDLL(place)
        self.functions.jls_check.argtypes = [ctypes.c_char_p, ctypes.c_size_t, ctypes.POINTER(Info), ctypes.c_void_p, ctypes.c_size_t]
        self.functions.jls_check.restype = ctypes.c_uint32

    def whole(self, stream: bytes) -> Optional[Whole]:
        """What `check` says of a copy that is whole, to its last byte. Nothing of any other copy, or where memory is short."""
        if stream[:2] != b"\xff\xd8" or len(stream) > LARGEST:
            return None
        found = Info(size=ctypes.sizeof(Info))
        answer = self.functions.jls_check(stream, len(stream), ctypes.byref(found), None, 0)
        is_well = answer == DONE and found.end == END_EOI and stream[found.end_offset :] == EOI
        if not is_well or found.missing or found.disputed or found.faulty_pieces or found.settled != found.lines or not found.lines:
            return None
        ids = frame_ids(stream)
        if ids is None or len(ids) != found.components:
            return None
        named = ",".join(map(str, ids))
        return Whole(found.settled, f"{found.width}x{found.height}, {found.precision} bits, components {named}", found.end_offset)

    def whole_at(self, path: str) -> Optional[Whole]:
        """The same of a file. One that can't be read is for the program to tell."""
        try:
            with open(path, "rb") as file:
                return self.whole(file.read()) if os.fstat(file.fileno()).st_size <= LARGEST else None
        except OSError:
            return None


def find(program: str) -> Optional[Library]:
    """The library that stands with a program, if there is one."""
    for place in places(program):
        if os.path.isfile(place):
            try:
                return Library(place)
            except (OSError, AttributeError):
                return None
    return None
