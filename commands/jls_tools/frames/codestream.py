"""What the headers of a codestream say (T.87, C.2), and where it ends."""
from __future__ import annotations

import re
import struct
from collections.abc import Sequence
from dataclasses import dataclass
from typing import Optional

# SOI, and then SOF55, LSE, APPn, COM, DRI or fill
BEGIN = re.compile(rb"\xff\xd8(?=\xff[\xf7\xf8\xe0-\xef\xfe\xdd\xff])")
USUAL_RESET = 64
HEADERS = 1 << 10  # bytes at the beginning of a codestream in which its headers stand


@dataclass
class Shape:
    rows: int
    columns: int
    precision: int
    components: int
    near: Optional[int] = None
    interleave: Optional[int] = None


def shape_of(stream: bytes) -> Optional[Shape]:
    """What the frame header and the first scan header of a codestream say (T.87, C.2.2 and C.2.3), or nothing."""
    at, found = 2, None
    while at + 4 <= len(stream) and stream[at] == 0xFF:
        code = stream[at + 1]
        if code == 0xFF:
            at += 1
            continue
        length = int.from_bytes(stream[at + 2 : at + 4], "big")
        segment = stream[at + 4 : at + 2 + length]
        if code == 0xF7 and len(segment) >= 6:
            found = Shape(int.from_bytes(segment[1:3], "big"), int.from_bytes(segment[3:5], "big"), segment[0], segment[5])
        if code == 0xDA:
            if found and len(segment) >= 4:
                found.near, found.interleave = segment[-3], segment[-2]
            return found
        if length < 2:
            return found
        at += 2 + length
    return found


MARKER = re.compile(rb"\xff+([\x80-\xfe])", re.S)
EOI, RESTARTS = b"\xff\xd9", range(0xD0, 0xD8)
EOI_AND_PADDING = EOI + b"\0"
MOST_PADDING = 1  # bytes between a frame's EOI and the end of its item


def codestream_end(stream: bytes) -> Optional[int]:
    """Where a codestream ends, after its EOI; nothing if its marker segments don't lead there. No scan has a marker in it (T.87, A.1)."""
    at = 2 if stream[:2] == b"\xff\xd8" else len(stream)
    while found := MARKER.search(stream, at):
        code, at = found.group(1)[0], found.end()
        if code == EOI[1]:
            return at
        at += 0 if code in RESTARTS else int.from_bytes(stream[at : at + 2], "big")
    return None


def fills(stream: bytes) -> bool:
    """Whether a codestream goes from the beginning of some bytes to their end, but for padding."""
    end = codestream_end(stream)
    return end is not None and len(stream) - end <= MOST_PADDING


def unpadded(stream: bytes) -> bytes:
    """A codestream without the byte after EOI that makes its length even."""
    return stream[:-1] if stream.endswith(EOI_AND_PADDING) else stream


def without_padding(streams: Sequence[bytes]) -> list[bytes]:
    """Codestreams of a frame, those that have no EOI without a last byte 00: it can be what makes the length of their item even.

    It is none where the EOI is only lost: there another codestream of this length has it.
    """
    ended = {len(stream) for stream in streams if codestream_end(stream) is not None or stream.endswith(EOI)}
    return [stream[:-1] if stream.endswith(b"\0") and len(stream) not in ended else stream for stream in streams]


def usual_thresholds(maxval: int) -> tuple[int, int, int]:
    """T1, T2 and T3 of lossless coding as they are if nothing else is said (T.87, C.2.4.1.1)."""
    if maxval >= 128:
        factor = (min(maxval, 4095) + 128) >> 8
        return factor * (3 - 2) + 2, factor * (7 - 3) + 3, factor * (21 - 4) + 4
    factor = 256 // (maxval + 1)
    return max(2, 3 // factor), max(3, 7 // factor), max(4, 21 // factor)


def has_usual_parameters(stream: bytes) -> bool:
    """Whether the preset coding parameters of a lossless codestream are absent or those that it would have without them."""
    shape, found = shape_of(stream), stream.find(b"\xff\xf8\0\x0d\1", 0, max(0, stream.find(b"\xff\xda")))
    if shape is None or shape.near != 0:
        return False
    if found < 0:
        return True
    maxval, *thresholds, reset = struct.unpack_from(">5H", stream, found + 5)
    return maxval == (1 << shape.precision) - 1 and tuple(thresholds) == usual_thresholds(maxval) and reset == USUAL_RESET


def other_coding(stream: bytes) -> Optional[str]:
    """What a codestream is that is no JPEG-LS, by its first marker segments; None for JPEG-LS or what can't be told."""
    if stream[:4] in (b"\xff\x4f\xff\x51", b"\0\0\0\x0c"):
        return "JPEG 2000"
    at = 2
    while stream[:2] == b"\xff\xd8" and at + 4 <= len(stream) and stream[at] == 0xFF:
        code = stream[at + 1]
        if code == 0xFF:
            at += 1
            continue
        if code == 0xC3:
            return "lossless JPEG, which is another coding than JPEG-LS"
        if 0xC0 <= code <= 0xCF and code not in (0xC4, 0xC8, 0xCC):
            return "JPEG, lossy"
        if code in (0xF7, 0xDA):
            return None
        at += 2 + int.from_bytes(stream[at + 2 : at + 4], "big")
    return None
