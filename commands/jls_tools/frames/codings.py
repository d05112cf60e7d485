"""In which coding a codestream is: what its headers say, and whether the bytes of another one deny it."""
from __future__ import annotations

import struct
from collections.abc import Iterator
from typing import NamedTuple, Optional

from jls_tools.frames.codestream import HEADERS, USUAL_RESET, usual_thresholds

PIECE, KINDS, PIECES = 16, 8, 64  # bytes of a piece, different bytes of it at least, and how many are sought in another codestream
INTERLEAVES = (0, 1, 2)  # none, by line, by sample
SAME = 0.66  # such a share of pieces stands in a codestream of the same coding, after the first difference. With other restarts half do


class Coding(NamedTuple):
    """What the headers of a codestream say of how it is coded."""

    precision: int
    presets: tuple[int, ...]  # MAXVAL, three thresholds, and RESET
    rows: int  # between restart markers
    interleave: tuple[int, int]  # components of the first scan, and how they are interleaved


def segments(stream: bytes) -> Iterator[tuple[int, bytes]]:
    """The marker segments up to the first scan header: (code, bytes after the length)."""
    at = 2
    while at + 4 <= len(stream) and stream[at] == 0xFF:
        code = stream[at + 1]
        if code == 0xFF:
            at += 1
            continue
        length = int.from_bytes(stream[at + 2 : at + 4], "big")
        yield code, stream[at + 4 : at + 2 + length]
        if code == 0xDA or length < 2:
            return
        at += 2 + length


def coding_of(stream: bytes) -> Optional[Coding]:
    """The coding of a lossless codestream; nothing if its headers don't read."""
    precision, rows = 0, 0
    given: tuple[int, ...] = (0, 0, 0, 0, 0)
    for code, segment in segments(stream):
        if code == 0xF7 and segment:
            precision = segment[0]
        elif code == 0xF8 and len(segment) == 11 and segment[0] == 1:
            given = struct.unpack_from(">5H", segment, 1)
        elif code == 0xDD:
            rows = int.from_bytes(segment, "big")
        elif code == 0xDA and len(segment) >= 4 and 2 <= precision <= 16 and is_interleave(segment[0], segment[-2]):
            return Coding(precision, presets(precision, given), rows, (segment[0], segment[-2]))
    return None


def is_interleave(components: int, mode: int) -> bool:
    """Whether a scan of so many components can be interleaved so (T.87, C.2.3): one alone is in mode 0."""
    return mode in INTERLEAVES and (components > 1 or mode == 0)


def presets(precision: int, given: tuple[int, ...]) -> tuple[int, ...]:
    """The parameters as they count: a 0 stands for the usual one (T.87, C.2.4.1.1)."""
    most = given[0] or (1 << precision) - 1
    usual = (most, *usual_thresholds(most), USUAL_RESET)
    return tuple(own or other for own, other in zip(given, usual))


def scan_of(stream: bytes) -> bytes:
    """What stands after the first scan header."""
    at = stream.find(b"\xff\xda", 0, HEADERS)
    return stream[at + 2 + int.from_bytes(stream[at + 2 : at + 4], "big") :] if at >= 0 else b""


def have_one_coding(stream: bytes, beside: bytes) -> bool:
    """Whether two codestreams have most pieces in common after their first difference, wherever these stand: then a header lies.

    Where a picture is even, no piece says anything. Then most bytes have to be equal.
    """
    one, other = scan_of(stream), scan_of(beside)
    begin = next((at for at in range(0, len(one), PIECE) if one[at : at + PIECE] != other[at : at + PIECE]), len(one))
    step = max(1, (len(one) - begin - PIECE) // PIECES)
    tried = (one[at : at + PIECE] for at in range(begin, len(one) - PIECE, step))
    pieces = [piece for piece in tried if len(set(piece)) >= KINDS]
    if not pieces:
        return sum(left == right for left, right in zip(one, other)) >= SAME * max(len(one), len(other))
    return sum(piece in other for piece in pieces) >= SAME * len(pieces)
